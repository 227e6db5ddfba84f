//! The intercepts that edition 2 hands the Rust: those of the plane through the
//! extreme plans, written from document 02's M-102 alone.

/// "under the Rust's weights 1 and 1e-6": the weight off the objective's own.
const ELSEWHERE: f64 = 1e-6;

/// An intercept has to be above this.
const LEAST: f64 = 1e-10;

/// 2^100, which no normalised value of the pool may exceed.
const MOST: f64 = (1_u128 << 100) as f64;

/// Why the old intercepts serve for all objectives.
#[derive(Clone, Copy, Debug, PartialEq, Eq)]
pub enum Fallback {
    /// Two extremes are the same plan.
    OnePlan,
    /// A pivot is 0.
    NoPivot,
    /// A number of the elimination, or an intercept, is not finite.
    NotFinite,
    /// An intercept is not above 1e-10.
    Low,
    /// A pool plan's normalised value would exceed 2^100.
    Far,
}

/// A number of the elimination.
fn finite(x: f64) -> Result<f64, Fallback> {
    if x.is_finite() { Ok(x) } else { Err(Fallback::NotFinite) }
}

/// `asf` of a plan for an objective: the greatest over j of (value - ideal) / weight.
fn asf(row: &[f64], ideal: &[f64], objective: usize) -> f64 {
    let mut greatest = f64::NEG_INFINITY;
    for (j, (value, z)) in row.iter().zip(ideal).enumerate() {
        let weight = if j == objective { 1.0 } else { ELSEWHERE };
        greatest = greatest.max((value - z) / weight);
    }
    greatest
}

/// "the extreme plan per objective is the pool's first with least `asf`".
pub fn extremes(rows: &[Vec<f64>], ideal: &[f64]) -> Vec<usize> {
    let extreme = |objective| {
        let (mut first, mut least) = (0, asf(&rows[0], ideal, objective));
        for (plan, row) in rows.iter().enumerate().skip(1) {
            let measure = asf(row, ideal, objective);
            if measure < least {
                (first, least) = (plan, measure);
            }
        }
        first
    };
    (0..ideal.len()).map(extreme).collect()
}

/// Linear equations, each with its right side behind it: the unknowns. Partial
/// pivoting by row swaps, "the first row as they then stand on equal
/// magnitudes"; "a step subtracts (entry / pivot) times the pivot row;
/// back-substitution subtracts known terms left to right".
fn solved(mut equations: Vec<Vec<f64>>) -> Result<Vec<f64>, Fallback> {
    let m = equations.len();
    for step in 0..m {
        let mut chosen = step;
        for row in step + 1..m {
            if equations[row][step].abs() > equations[chosen][step].abs() {
                chosen = row;
            }
        }
        equations.swap(step, chosen);
        let (above, below) = equations.split_at_mut(step + 1);
        let pivot_row = &above[step];
        let pivot = pivot_row[step];
        if pivot == 0.0 {
            return Err(Fallback::NoPivot);
        }
        for row in below {
            let quotient = finite(row[step] / pivot)?;
            for (entry, term) in row.iter_mut().zip(pivot_row) {
                *entry = finite(*entry - finite(quotient * term)?)?;
            }
        }
    }
    let mut unknowns = vec![0.0; m];
    for at in (0..m).rev() {
        let equation = &equations[at];
        let mut rest = equation[m];
        for known in at + 1..m {
            rest = finite(rest - finite(equation[known] * unknowns[known])?)?;
        }
        unknowns[at] = finite(rest / equation[at])?;
    }
    Ok(unknowns)
}

/// The plane's intercepts, or why the old ones serve. The rows are those of the
/// pool in minimise-space.
pub fn intercepts(rows: &[Vec<f64>], ideal: &[f64]) -> Result<Vec<f64>, Fallback> {
    let extremes = extremes(rows, ideal);
    let twice = |(at, plan)| extremes[..at].contains(plan);
    if extremes.iter().enumerate().any(twice) {
        return Err(Fallback::OnePlan);
    }
    let equation = |&plan: &usize| {
        let mut equation: Vec<f64> = rows[plan].iter().zip(ideal).map(|(value, z)| value - z).collect();
        equation.push(1.0);
        equation
    };
    let unknowns = solved(extremes.iter().map(equation).collect())?;
    let mut intercepts = Vec::new();
    for unknown in unknowns {
        intercepts.push(finite(1.0 / unknown)?);
    }
    if intercepts.iter().any(|&intercept| !(intercept > LEAST)) {
        return Err(Fallback::Low);
    }
    for row in rows {
        for (j, value) in row.iter().enumerate() {
            if (value - ideal[j]) / intercepts[j] > MOST {
                return Err(Fallback::Far);
            }
        }
    }
    Ok(intercepts)
}
