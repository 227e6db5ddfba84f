//! Valves that move in eighths of a turn: two of a drip line, from 0 to 2 turns each. A plan is how far each is open; wanted are little
//! water and an even flow. A session of edition 2 hands out only settings that the valves have, and one of edition 1 leaves bred ones
//! between them. The same example in C is `examples/c/valves.c`.

use locustdomino::{Dimension, Direction, Directions, Edition, Operators, Plan, Refusal, Session, Setting};

const SIZE: usize = 8;
const GENERATIONS: usize = 3;

/// Runs a session; how many settings of each generation are eighths of a turn, and how many are not.
fn run(edition: Edition) -> Result<(), Refusal> {
    let directions = Directions::new(&[Direction::Minimize, Direction::Minimize])?;
    let valve = Dimension::float_step(0.0, 2.0, 0.125)?;
    let mut session = Session::open(edition, &directions, 7, Some(SIZE), None, &Operators::default(), None)?;
    let mut history = vec![];
    let mut counts = [[0; 2]; GENERATIONS];
    // The first plan finds the dimensions and is in no generation.
    for number in 0..=SIZE * GENERATIONS {
        let mut open = [0.0; 2];
        for turns in &mut open {
            if let Setting::Float(x) = session.sample(&valve, number as u64, &history)? {
                *turns = x;
            }
            let off = usize::from(*turns * 8.0 != (*turns * 8.0).floor());
            if number > 0 {
                counts[(number - 1) / SIZE][off] += 1;
            }
        }
        let [a, b] = open;
        let named = [(0, Setting::Float(a)), (1, Setting::Float(b))];
        history.push(Plan::new(number as u64, &[a + b, (a - 0.7) * (a - 0.7) + (b - 1.2) * (b - 1.2)], &[], &named)?);
    }
    for (generation, [on, off]) in counts.iter().enumerate() {
        println!("generation {generation}: {on} on the step, {off} off it");
    }
    Ok(())
}

fn both() -> Result<(), Refusal> {
    println!("edition 1");
    run(Edition::First)?;
    println!("edition 2");
    run(Edition::Second)
}

fn main() {
    if let Err(refusal) = both() {
        eprintln!("refused {}: {refusal}", refusal.number());
        std::process::exit(1);
    }
}
