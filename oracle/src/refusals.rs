//! The refusals of documents 01 and 02, one question each. A call asks all of
//! them over its whole input and answers the first number that applies.

use crate::distribution::Distribution;
use crate::plans::Plan;
use crate::sampler::genetic::DimensionInfo;
use crate::session::{Opening, Operators};
use crate::words::{to_int, to_real, two};

/// The most settings of a plan that is bred from (document 02, M-107), and so
/// the most dimensions.
pub const MAX_SETTINGS: usize = 24;
pub const MAX_DIMENSIONS: usize = MAX_SETTINGS;

/// Where a number stands in the order: 12 is looked at right after 6 (M-103).
fn place(number: u64) -> u64 {
    match number {
        12 => 2 * 6 + 1,
        _ => 2 * number,
    }
}

/// The first number in the order whose condition holds.
pub fn lowest(conditions: &[(u64, bool)]) -> Option<u64> {
    conditions
        .iter()
        .filter(|(_, holds)| *holds)
        .map(|(number, _)| *number)
        .min_by_key(|&number| place(number))
}

/// The first that holds, in the order given.
pub fn first(conditions: &[(u64, bool)]) -> Option<u64> {
    let found = conditions.iter().find(|(_, holds)| *holds);
    found.map(|(number, _)| *number)
}

/// 2: objectives not 1 to 8, or a mark neither 0 nor 1.
pub fn bad_marks(marks: &[u64]) -> bool {
    !(1..=8).contains(&marks.len()) || marks.iter().any(|&mark| mark > 1)
}

/// 3 for a selection or generation step.
pub fn bad_size(size: u64) -> bool {
    size == 0 || size > 1024
}

/// How many m-tuples of whole numbers have the sum h: C(h + m - 1, m - 1).
pub fn lines(m: usize, h: u64) -> u128 {
    let mut product: u128 = 1;
    for i in 1..m as u128 {
        product = product * (h as u128 + i) / i;
    }
    product
}

/// The first h from 1 to 199 with at least `target` lines, else 12.
pub fn automatic(m: usize, target: u64) -> u64 {
    (1..200)
        .find(|&h| lines(m, h) >= target as u128)
        .unwrap_or(12)
}

/// The most divisions with at most so many lines; 199 at most, and 0 for none.
pub fn most_divisions(m: usize, most: u128) -> u64 {
    (1..200).take_while(|&h| lines(m, h) <= most).count() as u64
}

/// 4: divisions given not 1 to 199, or over 1,024 lines. Only asked of 1 to
/// 8 objectives, as refusal 2 comes first.
pub fn bad_divisions(m: usize, divisions: u64) -> bool {
    !(1..=199).contains(&divisions) || ((1..=8).contains(&m) && lines(m, divisions) > 1024)
}

/// 4 at the opening of a session, where size and divisions may be left open.
fn bad_opening_divisions(m: usize, size: Option<u64>, divisions: Option<u64>) -> bool {
    match divisions {
        Some(given) => bad_divisions(m, given),
        None => (1..=8).contains(&m) && bad_divisions(m, automatic(m, size.unwrap_or(100))),
    }
}

/// 2, 3 and 4 at the opening of a session.
pub fn opening(opening: &Opening) -> [(u64, bool); 3] {
    let (m, size) = (opening.marks.len(), opening.size);
    [
        (2, bad_marks(&opening.marks)),
        (3, size.is_some_and(|size| size > 1024)),
        (4, bad_opening_divisions(m, size, opening.divisions)),
    ]
}

/// 5, for one eta.
fn bad_eta(eta: f64) -> bool {
    !(eta >= 0.0 && eta <= 99.0 && eta.floor() == eta)
}

/// 5: an eta or the crossover probability.
pub fn bad_operators(operators: &Operators) -> bool {
    let probability = operators.probability;
    bad_eta(operators.crossover_eta)
        || bad_eta(operators.mutation_eta)
        || !(probability >= 0.0 && probability <= 1.0)
}

/// 6, for one dimension (its place in the list is asked for elsewhere).
pub fn bad_dimension(dimension: &Distribution) -> bool {
    match dimension {
        Distribution::Float(d) => {
            let good = d.low.abs() <= two(53) && d.high.abs() <= two(53) && d.low <= d.high;
            !good || d.log_scale
        }
        Distribution::Int(d) => {
            let reach = 1_i64 << 53;
            let within = |n: i64| -reach <= n && n <= reach;
            !(within(d.low) && within(d.high) && d.low <= d.high)
                || d.log_scale
                || d.step.is_some_and(|step| step < 1)
        }
        Distribution::Categorical(d) => !(1..=65536).contains(&d.n_choices),
    }
}

/// 12, for one dimension: "the step is not finite, not above 0, or
/// (high - low) / step exceeds 2^53" (M-103).
pub fn bad_step(dimension: &Distribution) -> bool {
    match dimension {
        Distribution::Float(d) => d.step.is_some_and(|step| {
            !step.is_finite() || !(step > 0.0) || (d.high - d.low) / step > two(53)
        }),
        _ => false,
    }
}

/// 8, for a value, a constraint or a part of the ideal.
fn bad_value(x: f64) -> bool {
    !(x.abs() <= two(1000))
}

/// 8, for one plan.
pub fn bad_row(plan: &Plan, m: usize) -> bool {
    plan.values.len() != m
        || plan.constraints.len() > 16
        || plan.values.iter().any(|&v| bad_value(v))
        || plan.constraints.iter().any(|&c| bad_value(c))
}

/// 8, for the ideal.
pub fn bad_ideal(ideal: &[f64], m: usize) -> bool {
    ideal.len() != m || ideal.iter().any(|&z| z != f64::INFINITY && bad_value(z))
}

/// 9, for one plan to be bred from.
pub fn bad_settings(plan: &Plan, dimensions: &[DimensionInfo]) -> bool {
    if plan.settings.len() > MAX_SETTINGS {
        return true;
    }
    let mut sorted = plan.settings.clone();
    sorted.sort();
    let repeats = sorted.windows(2).any(|pair| pair[0].0 == pair[1].0);
    // By parameter number, the first setting belongs to the first dimension.
    repeats
        || sorted
            .iter()
            .zip(dimensions)
            .any(|(&(_, kind, value), dimension)| {
                let good = match &dimension.distribution {
                    Distribution::Float(d) => {
                        let x = to_real(value);
                        kind == 0 && d.low <= x && x <= d.high
                    }
                    Distribution::Int(d) => {
                        let n = to_int(value);
                        kind == 1 && d.low <= n && n <= d.high
                    }
                    Distribution::Categorical(d) => kind == 2 && value < d.n_choices as u64,
                };
                !good
            })
}
