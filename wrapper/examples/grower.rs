//! A grower's session over a season: reads a block's trial log, asks for the next plans, and writes them back into the log, to be tried.
//!
//!     grower LOG.csv
//!
//! The log has a row for each plan: its number, how far the block's two valves are open (they move in eighths of a turn, from 0 to 2), and what
//! was measured: water drawn, the spread of soil moisture, and the pressure at the far end, which has to be 10 m at least. A plan that is still to
//! be tried has nothing measured.
//!
//! The session is of edition 2, so that plans once kept stay in the running, and has a window of three generations, so that what was best last
//! May does not weigh on August. It is not stored: the same seed and the same log lead to the same session again, and the log is all that has to
//! be kept from one visit to the next.

use std::{env, fs, process};

use locustdomino::{Dimension, Direction, Directions, Edition, Operators, Plan, Refusal, Session, Setting};

const HEADING: &str = "plan,north (turns),south (turns),water (l/tree),spread (%),far end (m)";
const VALVES: usize = 2;
/// Of a generation. The first plan finds the dimensions and is in none.
const SIZE: usize = 8;
const WINDOW: usize = 3;
const SEED: u64 = 12;
/// With so coarse a step the usual etas would move most children back to a parent's settings: small ones spread them.
const OPERATORS: Operators = Operators { crossover_prob: 1.0, crossover_eta: 4, mutation_eta: 4 };
/// The least pressure at the far end (m).
const PRESSURE: f64 = 10.0;

/// A row of the log: the settings, and what was measured if the plan was tried.
struct Row {
    turns: [f64; VALVES],
    measured: Option<[f64; 3]>,
}

fn number(cell: &str, row: usize, column: usize) -> Result<f64, String> {
    match cell.trim().parse() {
        Ok(x) if f64::is_finite(x) => Ok(x),
        _ => Err(format!("row {row}, column {column}: '{cell}' is no number")),
    }
}

/// The rows of a log. What does not fit is told with its row and column, the heading being row 1.
fn read(log: &str) -> Result<Vec<Row>, String> {
    let mut lines = log.lines();
    if lines.next().map(str::trim_end) != Some(HEADING) {
        return Err(format!("row 1 is not '{HEADING}'"));
    }
    let mut rows = vec![];
    for line in lines {
        let row = rows.len() + 2;
        let cells: Vec<&str> = line.trim_end().split(',').collect();
        let [plan, north, south, results @ ..] = &cells[..] else { return Err(format!("row {row} has {} cells, not 6", cells.len())) };
        if results.len() != 3 {
            return Err(format!("row {row} has {} cells, not 6", cells.len()));
        }
        if number(plan, row, 1)? != rows.len() as f64 {
            return Err(format!("row {row}, column 1: the plans are to be numbered 0, 1, 2, .."));
        }
        let turns = [number(north, row, 2)?, number(south, row, 3)?];
        let measured = if results.iter().all(|cell| cell.trim().is_empty()) {
            None
        } else {
            Some([number(results[0], row, 4)?, number(results[1], row, 5)?, number(results[2], row, 6)?])
        };
        rows.push(Row { turns, measured });
    }
    Ok(rows)
}

/// The plans that were tried, as the library takes them: a constraint above 0 is broken.
fn history(rows: &[Row]) -> Result<Vec<Plan>, Refusal> {
    let tried = (0..).zip(rows).filter_map(|(plan, row)| Some((plan, row.turns, row.measured?)));
    tried
        .map(|(plan, [north, south], [water, spread, far_end])| {
            let named = [(0, Setting::Float(north)), (1, Setting::Float(south))];
            Plan::new(plan, &[water, spread], &[PRESSURE - far_end], &named)
        })
        .collect()
}

/// The settings of a plan, from what was tried before it was asked for.
fn ask(session: &mut Session, plan: usize, before: &[Plan]) -> Result<[f64; VALVES], Refusal> {
    let valve = Dimension::float_step(0.0, 2.0, 0.125)?;
    let mut turns = [0.0; VALVES];
    for open in &mut turns {
        let Setting::Float(x) = session.sample(&valve, plan as u64, before)? else { unreachable!("a valve is a Float") };
        *open = x;
    }
    Ok(turns)
}

/// The plans to be tried next, up to the end of a generation; says what the session stands at.
fn next_plans(rows: &[Row]) -> Result<Vec<[f64; VALVES]>, Refusal> {
    let directions = Directions::new(&[Direction::Minimize, Direction::Minimize])?;
    let mut session = Session::open(Edition::Second, &directions, SEED, Some(SIZE), None, &OPERATORS, Some(WINDOW))?;
    let tried = history(rows)?;
    // The session of the visits before: each plan is asked for again, with the plans before it tried. What was tried counts, as it stands in the
    // log, where a grower tried something else than was asked for.
    let mut as_asked = 0;
    for (plan, row) in rows.iter().enumerate() {
        as_asked += usize::from(ask(&mut session, plan, &tried[..plan])? == row.turns);
    }
    let last = rows.len().max(1).next_multiple_of(SIZE);
    let next = (rows.len()..=last).map(|plan| ask(&mut session, plan, &tried)).collect::<Result<Vec<_>, _>>()?;
    println!("{} plans tried, {as_asked} of them as they were asked for", tried.len());
    if session.generation() > 0 {
        println!("{} plans wait: {:?}", session.waiting().len(), session.waiting());
        println!("least of the last {WINDOW} generations: {} l/tree of water, {} % of spread", session.ideal()[0], session.ideal()[1]);
    }
    Ok(next)
}

/// Reads the log and writes the next plans behind its rows, unless some of it is still to be tried.
fn run(path: &str) -> Result<(), String> {
    let log = fs::read_to_string(path).map_err(|error| error.to_string())?;
    let rows = read(&log)?;
    let waiting: Vec<usize> = (0..rows.len()).filter(|&plan| rows[plan].measured.is_none()).collect();
    if !waiting.is_empty() {
        println!("still to be tried: {waiting:?}; nothing is written");
        return Ok(());
    }
    let next = next_plans(&rows).map_err(|refusal| format!("refused {}: {refusal}", refusal.number()))?;
    let mut text = log.trim_end().to_string() + "\n";
    for (plan, [north, south]) in (rows.len()..).zip(&next) {
        println!("plan {plan}: north {north:.3} turns, south {south:.3}");
        text += &format!("{plan},{north:.3},{south:.3},,,\n");
    }
    // Beside the log first, so that a log is never half written.
    let beside = format!("{path}.new");
    fs::write(&beside, text).and_then(|()| fs::rename(&beside, path)).map_err(|error| error.to_string())
}

fn main() {
    let Some(path) = env::args().nth(1) else {
        eprintln!("usage: grower LOG.csv");
        process::exit(2);
    };
    if let Err(message) = run(&path) {
        eprintln!("{path}: {message}");
        process::exit(1);
    }
}
