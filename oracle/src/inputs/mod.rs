//! Inputs: the named cases of each record, and generated ones fixed by a
//! seed. Both are lines of numbers that the oracle answers.

mod breeding;
mod editions;
mod files;
mod hopeless;
mod kept;
mod load;
mod long;
mod numbers;
mod planes;
mod rows;
mod second;
mod sessions;
mod steps;
mod water;
mod windows;

use crate::answers::{self, Call, SELECT, SELECT_SECOND, STEP, STEP_SECOND};
use crate::answers::{ASSOCIATE, ASSOCIATE_SECOND, DISTANCE, DISTANCE_SECOND, NORMALIZE, NORMALIZE_SECOND};
use crate::distribution::{Distribution, FloatDistribution, IntDistribution};
use crate::edition::Edition;
use crate::mix::Mix;
use crate::param::ParamValue;
use crate::plans::{self, Plan, choices, float, int, stepped, write_dimensions, write_marks};
use crate::pool_file;
use crate::refusals::{self, MAX_DIMENSIONS, MAX_SETTINGS};
use crate::session::{self, Opening, Operators, Session};
use crate::words::{of_int, of_real, push_counted_reals, push_optional, push_reals, two};

type Line = Vec<u64>;
type Cases = fn() -> Vec<Line>;
type Input = fn(&mut Mix, u64) -> Line;

/// Each record: its named cases, and how an input is generated.
const RECORDS: [(&str, Cases, Input); 21] = [
    ("draw", numbers::draw_cases, numbers::draw_input),
    ("numbers", numbers::number_cases, numbers::number_input),
    ("dominance", rows::dominance_cases, rows::dominance_input),
    ("fronts", rows::front_cases, rows::front_input),
    ("reference", rows::reference_cases, rows::reference_input),
    (
        "association",
        rows::association_cases,
        rows::association_input,
    ),
    ("kept", kept::kept_cases, kept::kept_input),
    (
        "breeding",
        breeding::breeding_cases,
        breeding::breeding_input,
    ),
    ("session", sessions::session_cases, sessions::session_input),
    ("choose", files::choose_cases, files::choose_input),
    ("water", water::water_cases, water::water_input),
    ("load", load::load_cases, load::load_input),
    (
        "editions",
        editions::edition_cases,
        editions::edition_input,
    ),
    (
        "convert",
        editions::convert_cases,
        editions::convert_input,
    ),
    ("kept_second", second::kept_cases, second::kept_input),
    (
        "breeding_second",
        second::breeding_cases,
        second::breeding_input,
    ),
    (
        "session_second",
        second::session_cases,
        second::session_input,
    ),
    (
        "association_second",
        second::association_cases,
        second::association_input,
    ),
    (
        "session_window",
        windows::session_cases,
        windows::session_input,
    ),
    (
        "breeding_steps",
        steps::breeding_cases,
        steps::breeding_input,
    ),
    (
        "session_steps",
        steps::session_cases,
        steps::session_input,
    ),
];

/// The place of a record.
fn record(kind: &str) -> Result<usize, String> {
    let names = RECORDS.map(|(name, ..)| name);
    let place = names.iter().position(|&name| name == kind);
    place.ok_or(format!("the records are {}", names.join(", ")))
}

/// The named cases of a record; every table; long inputs; and those too long to
/// be stored.
pub fn cases(kind: &str) -> Result<Vec<Line>, String> {
    match kind {
        "tables" => Ok(rows::table_cases()),
        "long" => Ok(long::long_cases()),
        "large" => Ok([files::large_cases(), second::large_cases()].concat()),
        _ => match record(kind) {
            Ok(place) => Ok(RECORDS[place].1()),
            Err(message) => Err(message + ", tables, long, large"),
        },
    }
}

/// `count` inputs of a record. The same seed gives the same lines; the
/// number of objectives goes round from 1 to 8.
pub fn generated(
    seed: u64,
    count: u64,
    kind: &str,
) -> Result<impl Iterator<Item = Line> + use<>, String> {
    let place = record(kind)?;
    Ok((0..count).map(move |at| {
        // Each line has its own stream, so a longer run begins with the
        // lines of a shorter one.
        let mut mix = Mix(seed ^ ((place as u64) << 56) ^ (at << 24));
        mix.word();
        RECORDS[place].2(&mut mix, at)
    }))
}

/// A selection of edition 2 from a pool past the first edition's limit; not of a
/// record, as it is too long to be stored.
pub fn wide_input(seed: u64, at: u64) -> Line {
    second::wide_input(&mut Mix(seed ^ (at << 24)), at)
}

/// The number of objectives of a generated input.
fn objectives(at: u64) -> usize {
    1 + (at % 8) as usize
}

// ---------------------------------------------------------------------------
// Values by chance
// ---------------------------------------------------------------------------

/// 2^53, the farthest bound of a dimension.
const FAR: i64 = 1 << 53;

/// The next double up in magnitude.
fn next(x: f64) -> f64 {
    f64::from_bits(x.to_bits() + 1)
}

fn tiniest() -> f64 {
    f64::from_bits(1)
}

fn subnormal(mix: &mut Mix) -> f64 {
    let x = f64::from_bits(mix.uneven(52));
    if mix.once_in(4) { -x } else { x }
}

/// Any double up to 2^1000 in magnitude.
fn wild(mix: &mut Mix) -> f64 {
    let bits = (mix.below(2024) << 52) | mix.below(1 << 52);
    let x = f64::from_bits(bits).min(two(1000));
    if mix.once_in(2) { -x } else { x }
}

/// A real from `low` to `high`.
fn between(mix: &mut Mix, low: f64, high: f64) -> f64 {
    (low + mix.unit() * (high - low)).clamp(low, high)
}

/// The state whose next word is the one given: the generator's step undone.
fn before_word(word: u64) -> u64 {
    let state = word ^ (word >> 32);
    // The inverse of the multiplier modulo 2^64, by Newton's doubling.
    let mut inverse: u64 = 1;
    for _ in 0..6 {
        let product = fastrand::MULTIPLIER.wrapping_mul(inverse);
        inverse = inverse.wrapping_mul(2u64.wrapping_sub(product));
    }
    state
        .wrapping_sub(fastrand::INCREMENT)
        .wrapping_mul(inverse)
}

/// The greatest draw, times 2^52.
const LAST: u64 = (1 << 52) - 1;

/// The state whose next `f64()` is k / 2^52.
fn before_draw(k: u64) -> u64 {
    before_word(k << 12)
}

// ---------------------------------------------------------------------------
// Rows, constraints, pools
// ---------------------------------------------------------------------------

const ROW_FLAVOURS: u64 = 11;

/// Row `at` of `n`, in one of several manners that a pool has in common.
fn row(mix: &mut Mix, flavour: u64, m: usize, at: usize, n: usize) -> Vec<f64> {
    (0..m)
        .map(|j| match flavour {
            // Whole numbers: equal rows and ties in distance.
            0 => mix.below(4) as f64,
            1 => mix.unit(),
            // Signed zeros beside small values.
            2 => mix.pick(&[0.0, -0.0, 0.0, -0.0, 1.0, -1.0]),
            3 => mix.pick(&[two(1000), -two(1000), two(999), 1.0, 0.0]),
            4 => subnormal(mix),
            // One front: whoever gains in the first loses in the last.
            5 if m > 1 => match j {
                0 => at as f64,
                _ if j == m - 1 => (n - at) as f64,
                _ => mix.below(3) as f64 / 2.0,
            },
            // Many fronts: a chain.
            6 => ((at * 5 + 3) % n.max(1)) as f64,
            7 => 0.25,
            8 => wild(mix),
            // Tenths: sums and quotients that round.
            9 => mix.below(11) as f64 / 10.0,
            // Around the test against 1e-10.
            10 => mix.pick(&[0.0, 0.5e-10, 1e-10, next(1e-10), 2e-10]),
            _ => mix.below(8) as f64,
        })
        .collect()
}

const CONSTRAINT_FLAVOURS: u64 = 7;

fn constraints(mix: &mut Mix, flavour: u64) -> Vec<f64> {
    match flavour {
        0 => Vec::new(),
        1 => vec![-1.0],
        // Some infeasible, with zeros of both signs.
        2 => (0..2)
            .map(|_| mix.pick(&[0.0, -0.0, -1.0, 0.5, 0.25]))
            .collect(),
        // All infeasible.
        3 => (0..mix.within(1, 3))
            .map(|_| 0.125 + mix.below(4) as f64)
            .collect(),
        // Equal violations, differently made up.
        4 => mix.pick(&[vec![0.5], vec![0.25, 0.25], vec![-3.0, 0.5], vec![0.5, 0.0]]),
        // Few and many, large and small.
        5 => (0..mix.below(17)).map(|_| wild(mix)).collect(),
        // With and without.
        _ => {
            if mix.once_in(2) {
                Vec::new()
            } else {
                vec![subnormal(mix), mix.unit() - 0.5]
            }
        }
    }
}

fn pool(mix: &mut Mix, m: usize, n: usize) -> Vec<Plan> {
    // The manners that split fronts come more often.
    let rows = mix.pick(&[0, 0, 1, 1, 2, 3, 4, 5, 5, 5, 6, 7, 8, 9, 9, 10]);
    let bounds = mix.pick(&[0, 0, 0, 0, 2, 2, 3, 4, 4, 5, 6]);
    let mut plans: Vec<Plan> = (0..n)
        .map(|at| Plan {
            number: at as u64,
            values: row(mix, rows, m, at, n),
            constraints: constraints(mix, bounds),
            settings: Vec::new(),
        })
        .collect();
    // A row that another plan has too.
    if n > 2 && mix.once_in(3) {
        let (from, to) = (mix.place(n), mix.place(n));
        plans[to].values = plans[from].values.clone();
    }
    plans
}

fn marks(mix: &mut Mix, m: usize) -> Vec<u64> {
    let maximised = mix.below(3);
    (0..m)
        .map(|_| (maximised == 1 || (maximised == 2 && mix.once_in(2))) as u64)
        .collect()
}

/// Divisions with at most `most` lines.
fn divisions(mix: &mut Mix, m: usize, most: u128) -> u64 {
    mix.within(1, refusals::most_divisions(m, most).max(1))
}

/// Sizes below, at and above the pool.
fn size(mix: &mut Mix, n: usize) -> u64 {
    match mix.below(8) {
        0 => n as u64,
        1 => n as u64 + mix.within(1, 3),
        _ => mix.within(1, n.max(2) as u64 - 1),
    }
}

// ---------------------------------------------------------------------------
// Dimensions and settings
// ---------------------------------------------------------------------------

/// The smallest dimension to write, where it is not looked at.
fn any_dimension() -> Distribution {
    choices(1)
}

fn dimension(mix: &mut Mix) -> Distribution {
    match mix.below(16) {
        0 | 1 => float(0.0, 1.0),
        2 => float(-5.0, 5.0),
        3 => float(2.5, 2.5),
        4 => float(-0.0, 0.0),
        5 => float(-two(53), two(53)),
        6 => float(1.0, next(1.0)),
        7 => float(0.0, tiniest()),
        8 => int(0, 10, None),
        9 => int(-7, 20, Some(3)),
        10 => int(4, 4, None),
        11 => int(-FAR, FAR, None),
        12 => int(1, 100, Some(mix.within(1, 200) as i64)),
        13 => choices(1),
        14 => choices(3),
        _ => choices(65536),
    }
}

fn dimensions(mix: &mut Mix, count: usize) -> Vec<Distribution> {
    let categorical_only = mix.once_in(8);
    (0..count)
        .map(|_| {
            if categorical_only {
                choices(mix.within(1, 5) as usize)
            } else {
                dimension(mix)
            }
        })
        .collect()
}

/// A value within a dimension, ends included.
fn value(mix: &mut Mix, dimension: &Distribution) -> ParamValue {
    match dimension {
        Distribution::Float(d) => {
            let inner = between(mix, d.low, d.high);
            ParamValue::Float(mix.pick(&[d.low, d.high, inner, inner, inner, inner]))
        }
        Distribution::Int(d) => {
            let inner = d.low + mix.below((d.high - d.low) as u64 + 1) as i64;
            ParamValue::Int(mix.pick(&[d.low, d.high, inner, inner, inner]))
        }
        Distribution::Categorical(d) => ParamValue::Categorical(mix.place(d.n_choices)),
    }
}

/// Settings for the first dimensions, in parameter order; then listed in any
/// order, some missing at the end, some added past the last dimension.
fn settings(mix: &mut Mix, values: &[ParamValue], dimension_count: usize) -> Vec<(u64, u64, u64)> {
    let mut number = mix.below(4);
    let mut settings = Vec::new();
    for value in values {
        let [kind, word] = plans::setting_words(value);
        settings.push((number, kind, word));
        number += mix.within(1, 3);
    }
    match mix.below(6) {
        0 if !settings.is_empty() => {
            settings.truncate(mix.place(settings.len() + 1));
        }
        1 if settings.len() == dimension_count && dimension_count < MAX_DIMENSIONS => {
            settings.push((number, mix.below(3), mix.below(100)));
        }
        _ => {}
    }
    if mix.once_in(2) {
        mix.shuffle(&mut settings);
    }
    settings
}

/// A Float and then Ints, all 0.
fn so_many_settings(count: usize) -> Vec<(u64, u64, u64)> {
    (0..count as u64).map(|n| (n, n.min(1), 0)).collect()
}

/// A value within each dimension.
fn values(mix: &mut Mix, dimensions: &[Distribution]) -> Vec<ParamValue> {
    dimensions.iter().map(|d| value(mix, d)).collect()
}

fn fit_settings(mix: &mut Mix, dimensions: &[Distribution]) -> Vec<(u64, u64, u64)> {
    let values = values(mix, dimensions);
    settings(mix, &values, dimensions.len())
}

fn eta(mix: &mut Mix) -> f64 {
    let any = mix.below(100) as f64;
    mix.pick(&[0.0, 1.0, 2.0, 5.0, 20.0, 30.0, 99.0, -0.0, any, any])
}

fn probability(mix: &mut Mix) -> f64 {
    let any = mix.unit();
    mix.pick(&[1.0, 1.0, 0.0, 0.5, 0.9, -0.0, any])
}

fn operators(mix: &mut Mix) -> Operators {
    Operators {
        probability: probability(mix),
        crossover_eta: eta(mix),
        mutation_eta: eta(mix),
    }
}

// ---------------------------------------------------------------------------
// Writing lines
// ---------------------------------------------------------------------------

fn plan(values: &[f64], constraints: &[f64]) -> Plan {
    Plan {
        constraints: constraints.to_vec(),
        ..Plan::record(0, values, &[])
    }
}

fn pool_of(rows: &[&[f64]]) -> Vec<Plan> {
    let numbered = (0..).zip(rows);
    numbered.map(|(n, row)| Plan::record(n, row, &[])).collect()
}

/// Inputs are varied one field at a time.
trait But: Clone {
    fn but(&self, change: impl Fn(&mut Self)) -> Self {
        let mut changed = self.clone();
        change(&mut changed);
        changed
    }
}

impl But for Call {}

impl But for Opening {}

impl Call {
    fn select(&self) -> Line {
        self.write(match self.edition {
            Edition::First => SELECT,
            Edition::Second => SELECT_SECOND,
        })
    }

    fn step(&self) -> Line {
        self.write(match self.edition {
            Edition::First => STEP,
            Edition::Second => STEP_SECOND,
        })
    }

    /// As a pool file; the ideal is not part of it.
    fn file(&self) -> Vec<u8> {
        let mut file = Vec::new();
        let m = self.marks.len() as u64;
        for number in [
            m,
            self.divisions,
            self.size,
            self.pool.len() as u64,
            self.state,
        ] {
            pool_file::encode(&mut file, number);
        }
        for &mark in &self.marks {
            pool_file::encode(&mut file, mark);
        }
        for plan in &self.pool {
            for &value in &plan.values {
                pool_file::encode(&mut file, of_real(value));
            }
            pool_file::encode(&mut file, plan.constraints.len() as u64);
            for &constraint in &plan.constraints {
                pool_file::encode(&mut file, of_real(constraint));
            }
        }
        file
    }

    fn choose(&self) -> Line {
        file_line(&self.file())
    }
}

fn file_line(file: &[u8]) -> Line {
    let mut line = vec![95, file.len() as u64];
    line.extend(file.iter().map(|&byte| u64::from(byte)));
    line
}
