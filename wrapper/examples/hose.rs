//! A burst hose: seven watering plans, of which the last is short of pressure at the far end of the block. Three are kept, by each edition,
//! once with its own readings and once with those of a burst hose. In edition 1 these stretch the scale for all the others; in edition 2
//! they change nothing. The same example in C is `examples/c/hose.c`.

use locustdomino::{Direction, Directions, Edition, Ideal, Plan, Refusal, Rng, select};

const KEPT: usize = 3;
/// Litres a tree and day, how much of the soil is dry (%), and by how many bar the pressure is short; below 0 there is some to spare.
const PLANS: [[f64; 3]; 7] = [
    [10.0, 6.0, -0.4],
    [12.0, 4.5, -0.4],
    [15.0, 3.2, -0.3],
    [20.0, 2.1, -0.2],
    [28.0, 1.4, -0.2],
    [40.0, 1.0, -0.1],
    [22.0, 2.5, 0.3],
];
/// What the last plan's meter and probe read when its hose has burst.
const BURST: [f64; 3] = [9000.0, -40.0, 0.3];

fn row([litres, dry, short]: [f64; 3], plan: usize) {
    println!("{plan:<4}  {litres:<6.1}  {dry:<5.1}  {short:.1}");
}

fn listed(numbers: impl Iterator<Item = String>) -> String {
    numbers.collect::<Vec<_>>().join(" ")
}

/// Keeps three plans, with these readings of the last one.
fn keep(edition: Edition, hose: &str, last: [f64; 3]) -> Result<(), Refusal> {
    let directions = Directions::new(&[Direction::Minimize; 2])?;
    let mut plans = PLANS;
    plans[6] = last;
    let mut pool = vec![];
    for (number, [litres, dry, short]) in (0..).zip(plans) {
        pool.push(Plan::new(number, &[litres, dry], &[short], &[])?);
    }
    let mut ideal = Ideal::unknown(&directions);
    let chosen = select(edition, &pool, &directions, 2, KEPT, &mut Rng::with_seed(1), &mut ideal)?;
    let kept = listed(chosen.kept.iter().map(usize::to_string));
    let lines = listed(chosen.lines.iter().map(|line| line.map_or("-".to_string(), |line| line.to_string())));
    println!("{:<7}  {hose:<5}  {kept}  {lines}", edition.number());
    Ok(())
}

fn run() -> Result<(), Refusal> {
    println!("plan  litres  dry %  bar short");
    for (plan, readings) in PLANS.into_iter().enumerate() {
        row(readings, plan);
    }
    println!("with a burst hose");
    row(BURST, 6);
    println!("\nedition  hose   kept   line of each plan");
    for edition in [Edition::First, Edition::Second] {
        keep(edition, "whole", PLANS[6])?;
        keep(edition, "burst", BURST)?;
    }
    Ok(())
}

fn main() {
    if let Err(refusal) = run() {
        eprintln!("refused {}: {refusal}", refusal.number());
        std::process::exit(1);
    }
}
