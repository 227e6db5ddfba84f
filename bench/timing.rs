//! A clock, and tables in markdown.

use std::fmt::Display;
use std::time::Instant;

/// ns of a run.
pub fn ns(run: impl FnOnce()) -> f64 {
    let start = Instant::now();
    run();
    start.elapsed().as_nanos() as f64
}

/// The least time of each of two runs, made by turns.
pub fn by_turns(rounds: usize, mut proved: impl FnMut() -> f64, mut rust: impl FnMut() -> f64) -> [f64; 2] {
    let mut least = [f64::INFINITY; 2];
    for _ in 0..rounds {
        least[0] = least[0].min(proved());
        least[1] = least[1].min(rust());
    }
    least
}

pub fn head(columns: &[&str]) {
    row(columns);
    println!("|{}", "---|".repeat(columns.len()));
}

pub fn row(cells: &[impl Display]) {
    let cells: Vec<String> = cells.iter().map(|cell| cell.to_string()).collect();
    println!("| {} |", cells.join(" | "));
}

/// A number with a comma before each three digits.
pub fn count(n: usize) -> String {
    match n {
        0..1000 => n.to_string(),
        _ => format!("{},{:03}", count(n / 1000), n % 1000),
    }
}

/// A time to three digits.
pub fn time(ns: f64) -> String {
    let (x, unit) = match ns {
        _ if ns < 1e3 => (ns, "ns"),
        _ if ns < 1e6 => (ns / 1e3, "µs"),
        _ => (ns / 1e6, "ms"),
    };
    let places = if x < 10.0 { 2 } else { usize::from(x < 100.0) };
    format!("{x:.places$} {unit}")
}

/// Both times and their ratio.
pub fn beside(proved: f64, rust: f64) -> [String; 3] {
    [time(proved), time(rust), format!("{:.2}", proved / rust)]
}
