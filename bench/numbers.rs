//! Times the proved square root, P, R and draw beside the Rust's on the same
//! inputs, each behind a call that is not inlined, and compares the square
//! root with the hardware's. Exit code 1 where a value differs.

#![allow(dead_code)]

#[path = "../oracle/stand-ins/fastrand.rs"]
mod fastrand;
#[path = "../oracle/src/mix.rs"]
mod mix;
#[path = "../oracle/src/powers.rs"]
mod powers;
mod timing;

use std::hint::black_box;

use mix::Mix;
use timing::ns;

mod proved {
    #[link(name = "numbers_export", kind = "static")]
    unsafe extern "C" {
        pub fn numbers_sqrt(x: f64) -> f64;
        pub fn numbers_power(y: f64, k: u64) -> f64;
        pub fn numbers_root(v: f64, k: u64) -> f64;
        pub fn numbers_draw_f64(state: &mut u64) -> f64;
    }
}

/// eta 20, the usual index of mutation, makes the exponent 21.
const K: u32 = 21;
const INPUTS: usize = 1024;
const ROUNDS: usize = 300;

fn proved_sqrt(x: f64) -> f64 {
    unsafe { proved::numbers_sqrt(x) }
}

fn proved_power(y: f64) -> f64 {
    unsafe { proved::numbers_power(y, black_box(K) as u64) }
}

fn proved_root(v: f64) -> f64 {
    unsafe { proved::numbers_root(v, black_box(K) as u64) }
}

#[inline(never)]
extern "C" fn rust_sqrt(x: f64) -> f64 {
    x.sqrt()
}

#[inline(never)]
extern "C" fn rust_power(y: f64) -> f64 {
    powers::power(y, black_box(K))
}

#[inline(never)]
extern "C" fn rust_root(v: f64) -> f64 {
    powers::root(v, black_box(K))
}

#[inline(never)]
extern "C" fn rust_draw(rng: &mut fastrand::Rng) -> f64 {
    rng.f64()
}

/// ns of all the calls.
fn once(inputs: &[f64], passes: usize, f: &mut impl FnMut(f64) -> f64) -> f64 {
    ns(|| {
        for _ in 0..passes {
            for &x in inputs {
                black_box(f(black_box(x)));
            }
        }
    })
}

/// Times two functions and prints the time of a call.
fn timed(
    name: &str,
    inputs: &[f64],
    passes: usize,
    mut proved: impl FnMut(f64) -> f64,
    mut rust: impl FnMut(f64) -> f64,
) {
    let [ours, theirs] = timing::by_turns(
        ROUNDS,
        || once(inputs, passes, &mut proved),
        || once(inputs, passes, &mut rust),
    );
    let calls = (passes * inputs.len()) as f64;
    let [ours, theirs, ratio] = timing::beside(ours / calls, theirs / calls);
    timing::row(&[name, &ours, &theirs, &ratio]);
}

fn same(x: f64, y: f64) -> bool {
    x.to_bits() == y.to_bits() || (x.is_nan() && y.is_nan())
}

/// How many of the inputs the two functions answer differently.
fn differing(inputs: &[f64], f: impl Fn(f64) -> f64, g: impl Fn(f64) -> f64) -> usize {
    inputs.iter().filter(|&&x| !same(f(x), g(x))).count()
}

/// Every exponent and sign, with the significands next to the ends, the
/// middle and each power of two.
fn edge_patterns() -> Vec<f64> {
    let mut digits = vec![];
    for i in 0..52 {
        let power = 1_u64 << i;
        digits.extend([power - 1, power, power + 1, (1 << 52) - power]);
    }
    let mut patterns = vec![];
    for top in 0..4096_u64 {
        patterns.extend(digits.iter().map(|&d| f64::from_bits(top << 52 | d)));
    }
    patterns
}

fn main() {
    let mut mix = Mix(1);
    let mut units = |scale: f64| -> Vec<f64> { (0..INPUTS).map(|_| mix.unit() * scale).collect() };
    let (roots, powers, values) = (units(1e6), units(1.0), units(2.0));

    timing::head(&["", "proved", "Rust", "ratio"]);
    timed("sqrt", &roots, 8, proved_sqrt, |x| rust_sqrt(x));
    timed("P, k 21", &powers, 50, proved_power, |x| rust_power(x));
    timed("R, k 21", &values, 1, proved_root, |x| rust_root(x));
    let (mut state, mut rng) = (7, fastrand::Rng::with_seed(7));
    let draw = |_| unsafe { proved::numbers_draw_f64(&mut state) };
    timed("draw", &powers, 100, draw, |_| rust_draw(&mut rng));

    let random: Vec<f64> = (0..1_000_000).map(|_| f64::from_bits(mix.word())).collect();
    let edges = edge_patterns();
    let mut wrong = differing(&powers, proved_power, |x| rust_power(x));
    wrong += differing(&values, proved_root, |x| rust_root(x));
    wrong += usize::from(state != rng.s);
    let of_random = differing(&random, proved_sqrt, f64::sqrt);
    let of_edges = differing(&edges, proved_sqrt, f64::sqrt);
    println!(
        "\n{wrong} values of P, R and the draw differ; of the square root {of_random} of {} random patterns and {of_edges} of {} edge patterns",
        timing::count(random.len()),
        timing::count(edges.len())
    );
    if wrong + of_random + of_edges > 0 {
        std::process::exit(1);
    }
}
