//! Document 02's two editions, and where they part. Of the Rust, the lines that
//! `oracle/build` lists for edition 2 ask here; in edition 1 they are answered
//! as they stood.

use std::borrow::Cow;
use std::cell::Cell;

use crate::distribution::{Distribution, FloatDistribution};
use crate::multi_objective::MultiObjectiveTrial;
use crate::param::ParamValue;
use crate::pareto;
use crate::plane;
use crate::sampler::genetic::{Candidate, DimensionInfo};
use crate::sampler::nsga3;
use crate::types::Direction;

#[derive(Clone, Copy, Debug, PartialEq, Eq)]
pub enum Edition {
    First,
    Second,
}

/// The line of a plan that has none.
pub const NO_LINE: usize = usize::MAX;

thread_local! {
    /// The edition that the Rust is run in.
    static RUN_IN: Cell<Edition> = const { Cell::new(Edition::First) };
}

impl Edition {
    pub fn number(self) -> u64 {
        match self {
            Edition::First => 1,
            Edition::Second => 2,
        }
    }

    /// The most plans of a pool: "Edition 2's pools may reach 2,048" (M-100).
    pub fn most_plans(self) -> usize {
        match self {
            Edition::First => 1024,
            Edition::Second => 2048,
        }
    }

    /// Whether the kept plans wait for the next generation's pool (M-100).
    pub fn keeps_parents(self) -> bool {
        self == Edition::Second
    }

    /// Runs the Rust in this edition.
    pub fn run<T>(self, run: impl FnOnce() -> T) -> T {
        let outside = RUN_IN.replace(self);
        let answer = run();
        RUN_IN.set(outside);
        answer
    }
}

/// The sort that ranks for tournaments, called by the Rust's generation step:
/// "The oracle for edition 2 passes constraints to the ranking sort" (M-101).
pub fn ranking_sort(
    rows: &[Vec<f64>],
    directions: &[Direction],
    population: &[&MultiObjectiveTrial],
) -> Vec<Vec<usize>> {
    match RUN_IN.get() {
        Edition::First => pareto::fast_non_dominated_sort(rows, directions),
        Edition::Second => {
            let constraints = |trial: &&MultiObjectiveTrial| trial.constraints.clone();
            let constraints: Vec<Vec<f64>> = population.iter().map(constraints).collect();
            pareto::fast_non_dominated_sort_constrained(rows, directions, &constraints)
        }
    }
}

/// What the Rust's distance leaf hands out: "In edition 2 the distance leaf hands
/// out the sum of squares"; "the oracle's root is left out there" (M-105).
pub fn distance(squares: f64) -> f64 {
    match RUN_IN.get() {
        Edition::First => squares.sqrt(),
        Edition::Second => squares,
    }
}

/// The intercepts of a pool, asked by the Rust where a front is split: "the
/// oracle receives the intercepts" (M-102). The old ones are the Rust's own.
pub fn intercepts(rows: &[Vec<f64>], ideal: &[f64]) -> Vec<f64> {
    let old = nsga3::find_intercepts(rows, ideal);
    match RUN_IN.get() {
        Edition::First => old,
        Edition::Second => plane::intercepts(rows, ideal).unwrap_or(old),
    }
}

/// The plans that shape the scale where a front is split, by their places in the
/// pool; none are named where all do.
pub struct Shapers {
    plans: usize,
    places: Option<Vec<usize>>,
}

/// Asked by the Rust where a front is split: "if every member of the split front
/// is feasible, this generation's own part of the ideal, the greatest values, the
/// extremes and the 2^100 check come from feasible plans only"; "otherwise [..]
/// all come from the whole pool" (M-112).
pub fn shapers(population: &[&MultiObjectiveTrial], split_front: &[usize]) -> Shapers {
    let plans = population.len();
    let feasible = |&plan: &usize| population[plan].constraints.iter().all(|&c| c <= 0.0);
    let chosen = RUN_IN.get() == Edition::Second && split_front.iter().all(feasible);
    let places = chosen.then(|| (0..plans).filter(feasible).collect());
    Shapers { plans, places }
}

impl Shapers {
    pub fn places(&self) -> Vec<usize> {
        self.places.clone().unwrap_or_else(|| (0..self.plans).collect())
    }

    /// Their rows, of those of the pool.
    pub fn rows<'a>(&self, rows: &'a [Vec<f64>]) -> Cow<'a, [Vec<f64>]> {
        match &self.places {
            None => Cow::Borrowed(rows),
            Some(places) => places.iter().map(|&plan| rows[plan].clone()).collect(),
        }
    }

    /// Their lines and distances, at their places in the pool: "infeasible plans
    /// get no line". Whoever counted a plan on no line would end the program.
    pub fn at_their_places(&self, associations: Vec<(usize, f64)>) -> Vec<(usize, f64)> {
        let Some(places) = &self.places else {
            return associations;
        };
        let mut all = vec![(NO_LINE, f64::NAN); self.plans];
        assert_eq!(places.len(), associations.len(), "one association each");
        for (&plan, association) in places.iter().zip(associations) {
            all[plan] = association;
        }
        all
    }
}

/// The offspring of the Rust's generation step: "In edition 2 every Float of a
/// dimension with a step in a bred child is moved once, after mutation", while
/// edition 1 "leaves it off the step, like the Rust" (M-103).
pub fn on_steps(mut offspring: Vec<Candidate>, dimensions: &[DimensionInfo]) -> Vec<Candidate> {
    if RUN_IN.get() == Edition::Second {
        for child in &mut offspring {
            for (setting, info) in child.params.iter_mut().zip(dimensions) {
                if let (ParamValue::Float(v), Distribution::Float(d)) = (setting, &info.distribution)
                {
                    *v = on_step(d, *v);
                }
            }
        }
    }
    offspring
}

/// "k = round((v - low) / step), held within the range of k", 0 to
/// floor((high - low) / step), and its value, "here also clamped".
fn on_step(d: &FloatDistribution, v: f64) -> f64 {
    let Some(step) = d.step else {
        return v;
    };
    let last = ((d.high - d.low) / step).floor() as i64;
    let k = (((v - d.low) / step).round() as i64).clamp(0, last);
    (d.low + k as f64 * step).clamp(d.low, d.high)
}
