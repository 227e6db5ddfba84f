//! A whole session: a drip plan for an orchard block, whose rows are 4 m apart and whose drip lines are 120 m long. A plan is a
//! distance between emitters, the hours of a watering (three a week) and one of three valves. Wanted are little water, a high yield
//! and a low cost; the pressure at a line's far end has to do. Some generations are asked for and tried, in edition 2: the plans kept
//! wait and are selected from again beside their children. Those that wait at the end are told, and of all plans tried the best are
//! kept, each with its reference line and what put it on the list.

use locustdomino::{
    Dimension, Direction, Directions, Edition, Ideal, Operators, Plan, Refusal, Rng, Session, Setting, select,
};

const SIZE: usize = 24;
const GENERATIONS: usize = 8;
const KEPT: usize = 8;
/// The plan whose first trial gives no readings.
const FAULTY: usize = 7;

/// The pressure that each valve leaves at a line's head (m of water), and its cost (EUR/ha in a year).
const VALVES: [(f64, f64); 3] = [(12.0, 40.0), (16.0, 55.0), (22.0, 80.0)];
/// What an emitter needs (m).
const NEEDED: f64 = 10.0;

/// The three settings of a plan.
fn settings(plan: &[(u64, Setting)]) -> (f64, f64, usize) {
    match *plan {
        [(_, Setting::Float(spacing)), (_, Setting::Int(hours)), (_, Setting::Categorical(valve))] => (spacing, hours as f64, valve),
        _ => unreachable!("settings are of their dimensions' kinds"),
    }
}

/// Tries a plan: its record, with NaN where there were no readings.
fn tried(number: u64, named: &[(u64, Setting)], read: bool) -> Result<Plan, Refusal> {
    let (spacing, hours, valve) = settings(named);
    let (pressure, price) = VALVES[valve];
    // An emitter's flow (l/h), and the share of 480 l/h that the line carries; with 480 it loses 3.3 m.
    let flow = 1.6 * (pressure / 10.0).sqrt();
    let share = flow * (120.0 / spacing) / 480.0;
    let short = NEEDED - (pressure - 3.3 * share * share);
    // What a week's waterings bring (mm), and what of it the trees get: with 14 of rain, 36 are enough.
    let depth = 3.0 * hours * flow / (4.0 * spacing);
    let useful = depth * (1.0 - 0.02 * hours) * (1.0 - 0.15 * (spacing - 0.3));
    let lack = (1.0 - (14.0 + useful) / 36.0).max(0.0);
    let water = 10.0 * depth;
    let cost = 2500.0 / spacing * 0.04 + price + 24.0 * water * pressure * 0.0009;
    let grown = if read { 3.0 * (1.0 - 0.9 * lack) } else { f64::NAN };
    Plan::new(number, &[water, grown, cost], &[short], named)
}

/// Tries the generations' plans; all that was tried.
fn generations(directions: &Directions) -> Result<Vec<Plan>, Refusal> {
    let dimensions = [Dimension::float(0.3, 1.2)?, Dimension::int(2, 12)?, Dimension::categorical(3)?];
    let mut session = Session::open(Edition::Second, directions, 7, Some(SIZE), None, &Operators::default(), None)?;
    let mut history = vec![];
    // One plan more than the generations: the first plan finds the dimensions and is in no generation.
    for number in 0..=(SIZE * GENERATIONS) as u64 {
        let mut named = vec![];
        for (d, dimension) in (0..).zip(&dimensions) {
            let setting = match session.sample(dimension, number, &history) {
                // A refused call changes nothing: it is made again when the record is mended.
                Err(Refusal::Plan) => {
                    println!("plan {number}: refused {}, plan {FAULTY} is tried again", Refusal::Plan.number());
                    history[FAULTY] = tried(FAULTY as u64, &history[FAULTY].settings(), true)?;
                    session.sample(dimension, number, &history)?
                }
                answer => answer?,
            };
            named.push((d, setting));
        }
        history.push(tried(number, &named, number != FAULTY as u64)?);
    }
    // One that waits is new where it is of the generation that was bred from last.
    let waiting = session.waiting();
    let before = (SIZE * (GENERATIONS - 2)) as u64;
    let new = waiting.iter().filter(|&&number| number > before).count();
    println!("after {} generations {} plans wait, {new} of them new:", session.generation(), waiting.len());
    for number in waiting {
        print!(" {number}");
    }
    println!();
    Ok(history)
}

fn run() -> Result<(), Refusal> {
    let directions = Directions::new(&[Direction::Minimize, Direction::Maximize, Direction::Minimize])?;
    let history = generations(&directions)?;
    let mut ideal = Ideal::unknown(&directions);
    let selection = select(Edition::Second, &history, &directions, 3, KEPT, &mut Rng::with_seed(7), &mut ideal)?;
    let first = selection.fronts.iter().filter(|&&front| front == 0).count();
    println!("{} plans tried, {first} of them dominated by none, {KEPT} kept", history.len());
    println!("plan  spacing  hours  valve  water  yield  cost    far end  ref. line  kept as");
    println!("      m               m      m3/ha  t/ha   EUR/ha  m");
    for (&k, rule) in selection.kept.iter().zip(&selection.rules) {
        let plan = &history[k];
        let (spacing, hours, valve) = settings(&plan.settings());
        let (row, far_end) = (plan.row(), NEEDED - plan.constraints()[0]);
        let line = selection.lines[k].map_or("-".to_string(), |line| line.to_string());
        println!(
            "{:<4}  {spacing:<7.2}  {hours:<5.0}  {:<5.0}  {:<5.0}  {:<5.2}  {:<6.0}  {far_end:<7.1}  {line:<9}  {rule}",
            plan.number(),
            VALVES[valve].0,
            row[0],
            row[1],
            row[2]
        );
    }
    Ok(())
}

fn main() {
    if let Err(refusal) = run() {
        eprintln!("refused {}: {refusal}", refusal.number());
        std::process::exit(1);
    }
}
