//! Stand-ins for `powf`, as document 01 gives them: P by repeated rounded
//! multiplication, R by halving over bit patterns.

use std::sync::atomic::{AtomicBool, Ordering};

/// P(y, 1) = y, P(y, j + 1) = P(y, j) × y rounded.
pub fn power(y: f64, k: u32) -> f64 {
    let mut product = y;
    for _ in 1..k {
        product *= y;
    }
    product
}

/// R(0, k) = 0; else the lower end of the halving between the bit patterns
/// of 0 and 2^52 that keeps P(lower) <= v < P(upper).
pub fn root(v: f64, k: u32) -> f64 {
    if v == 0.0 {
        return 0.0;
    }
    let mut lower = 0.0_f64.to_bits();
    let mut upper = 4503599627370496.0_f64.to_bits();
    while upper - lower > 1 {
        let middle = (lower + upper) / 2;
        if power(f64::from_bits(middle), k) <= v {
            lower = middle;
        } else {
            upper = middle;
        }
    }
    f64::from_bits(lower)
}

/// Set only while the gap is measured: the real powers, as the Rust has them.
pub static REAL: AtomicBool = AtomicBool::new(false);

/// The exponent eta + 1 as document 01's k.
fn k_of(exponent: f64) -> u32 {
    assert!(
        exponent >= 1.0 && exponent <= 100.0 && exponent.fract() == 0.0,
        "exponent {exponent} is not a whole number 1 to 100"
    );
    exponent as u32
}

/// What the build puts in the place of `.powf(eta + 1.0)` and
/// `.powf(1.0 / (eta + 1.0))`.
pub trait StandIn {
    fn stand_in_power(self, exponent: f64) -> f64;
    fn stand_in_root(self, exponent: f64) -> f64;
}

impl StandIn for f64 {
    fn stand_in_power(self, exponent: f64) -> f64 {
        if REAL.load(Ordering::Relaxed) {
            return self.powf(exponent);
        }
        power(self, k_of(exponent))
    }

    fn stand_in_root(self, exponent: f64) -> f64 {
        if REAL.load(Ordering::Relaxed) {
            return self.powf(1.0 / exponent);
        }
        root(self, k_of(exponent))
    }
}
