//! Prices a kept list: six places are filled from four watering plans, so that some are listed twice, and each is priced by the water
//! company's bands. Every number can be followed by hand, and each row says what put its plan on the list. The same example in C is
//! `examples/c/water.c`.

use locustdomino::{Band, Direction, Directions, Edition, Ideal, Plan, Refusal, Rng, price_water, select};

const KEPT: usize = 6;
/// Of each plan its litres in a season, and what it yields (t/ha).
const PLANS: [(u64, f64); 4] = [(5000, 2.1), (5010, 2.3), (12345, 3.0), (20011, 3.1)];
/// Litres 1 to 5,000 at 20 hundredths of a cent, to 20,000 at 35, all above at 60.
const BANDS: [(u64, u64); 3] = [(5000, 20), (20000, 35), (0, 60)];

/// The litres that fall in each band.
fn in_bands(litres: u64) -> [u64; 3] {
    let first = litres.min(BANDS[0].0);
    let second = litres.min(BANDS[1].0) - first;
    [first, second, litres - first - second]
}

fn euros(cents: u64) -> String {
    format!("{}.{:02}", cents / 100, cents % 100)
}

fn run() -> Result<(), Refusal> {
    let directions = Directions::new(&[Direction::Minimize, Direction::Maximize])?;
    let litres = PLANS.map(|(litres, _)| litres);
    let mut pool = vec![];
    for (number, (litres, yielded)) in (0..).zip(PLANS) {
        pool.push(Plan::new(number, &[litres as f64, yielded], &[], &[])?);
    }
    let mut ideal = Ideal::unknown(&directions);
    let selection = select(Edition::Second, &pool, &directions, 3, KEPT, &mut Rng::with_seed(7), &mut ideal)?;
    let bill = price_water(&litres, &BANDS.map(|(upper, price)| Band { upper, price }), &selection.kept)?;

    println!("plan  litres  at {:<6}  at {:<6}  at {:<6}  hundredths  EUR    kept as", BANDS[0].1, BANDS[1].1, BANDS[2].1);
    for ((&plan, rule), &cents) in selection.kept.iter().zip(&selection.rules).zip(&bill.costs) {
        let [a, b, c] = in_bands(litres[plan]);
        let hundredths = a * BANDS[0].1 + b * BANDS[1].1 + c * BANDS[2].1;
        println!("{plan:<4}  {:<6}  {a:<9}  {b:<9}  {c:<9}  {hundredths:<10}  {}  {rule}", litres[plan], euros(cents));
    }
    println!("total {}", euros(bill.total));
    Ok(())
}

fn main() {
    if let Err(refusal) = run() {
        eprintln!("refused {}: {refusal}", refusal.number());
        std::process::exit(1);
    }
}
