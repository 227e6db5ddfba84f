//! An ideal that forgets: 200 generations of a session of edition 2 with a window of five. Wanted are little water and a low cost. In
//! the first generation a hose bursts, and one plan reads absurdly little water. It breaks its constraint, but that generation splits
//! no front, so all its plans count and the burst sets the ideal; five generations on it is forgotten. Beside the session the least of
//! the last five pools is worked out from the plans themselves, and is the same after every generation.

use locustdomino::{Dimension, Direction, Directions, Edition, Ideal, Operators, Plan, Refusal, Rng, Session, Setting, select};

const SIZE: usize = 8;
const GENERATIONS: u64 = 200;
const WINDOW: usize = 5;
/// The plan whose hose bursts.
const BURST: u64 = 4;

/// Tries a plan by its one setting: water and cost, and a constraint.
fn tried(number: u64, opening: f64) -> Result<Plan, Refusal> {
    let drift = number as f64 / 100.0;
    let (water, short) = if number == BURST { (-900.0, 5.0) } else { (300.0 * opening + drift, -1.0) };
    let row = [water, 100.0 - 80.0 * opening + drift];
    Plan::new(number, &row, &[short], &[(0, Setting::Float(opening))])
}

/// The least of each objective.
fn least(rows: impl IntoIterator<Item = Vec<f64>>) -> Vec<f64> {
    rows.into_iter().fold(vec![f64::INFINITY; 2], |a, b| a.iter().zip(&b).map(|(a, b)| a.min(*b)).collect())
}

/// A pool's own part of the ideal: over the plans that have a line, which are the feasible ones where the split front is feasible,
/// and over all where no front is split.
fn own_part(pool: &[Plan], directions: &Directions) -> Result<Vec<f64>, Refusal> {
    let lines = select(Edition::Second, pool, directions, 7, SIZE, &mut Rng::with_seed(0), &mut Ideal::unknown(directions))?.lines;
    let split = lines.iter().any(Option::is_some);
    Ok(least(pool.iter().zip(lines).filter(|(_, line)| line.is_some() || !split).map(|(plan, _)| plan.row())))
}

fn run() -> Result<bool, Refusal> {
    let directions = Directions::new(&[Direction::Minimize, Direction::Minimize])?;
    let dimension = Dimension::float(0.1, 1.0)?;
    let mut session = Session::open(Edition::Second, &directions, 3, Some(SIZE), None, &Operators::default(), Some(WINDOW))?;
    let (mut history, mut parts, mut generation) = (Vec::<Plan>::new(), Vec::new(), 0);
    let mut held = true;
    // Plan 0 is of no generation, and the first call of a generation breeds it.
    for number in 0..=SIZE as u64 * GENERATIONS + 1 {
        // Who waits now is bred from with the generation's plans, if this call breeds.
        let bred: Vec<u64> = session.waiting().iter().chain(session.plans()).copied().collect();
        let setting = session.sample(&dimension, number, &history)?;
        if session.generation() > generation {
            generation = session.generation();
            let pool: Vec<Plan> = bred.iter().map(|number| history[*number as usize].clone()).collect();
            parts.push(own_part(&pool, &directions)?);
            let ideal = session.ideal();
            held &= ideal == least(parts.iter().rev().take(WINDOW).cloned());
            if generation <= 9 || generation % 50 == 0 {
                println!("after generation {generation:>3} the ideal is {:>8.2} {:>8.2}", ideal[0], ideal[1]);
            }
        }
        let Setting::Float(opening) = setting else { unreachable!("a Float") };
        history.push(tried(number, opening)?);
    }
    println!("after each of {generation} generations it is the least of the last {WINDOW} pools: {held}");
    Ok(held)
}

fn main() {
    match run() {
        Ok(held) => std::process::exit(i32::from(!held)),
        Err(refusal) => {
            eprintln!("refused {}: {refusal}", refusal.number());
            std::process::exit(1);
        }
    }
}
