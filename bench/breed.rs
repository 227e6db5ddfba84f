//! Times the static library's generation steps and session calls beside the
//! Rust's on the same inputs, and compares first what both hand out. Exit
//! code 1 where anything differs.

#![allow(dead_code)]

include!("common.rs");

use std::collections::HashSet;
use std::hint::black_box;
use std::ops::Range;

use distribution::Distribution;
use mix::Mix;
use multi_objective::MultiObjectiveSampler;
use param::ParamValue;
use plans::{choices, float, int, setting_words};
use sampler::genetic::Phase;
use sampler::nsga3::Nsga3Sampler;
use sampler::{genetic, nsga3};
use session::Session;
use words::bits;

const STEP_ROUNDS: usize = 40;
const SESSION_ROUNDS: usize = 20;

/// Ten dimensions of all kinds.
fn dimensions() -> Vec<Distribution> {
    vec![
        float(0.0, 1.0),
        float(-5.0, 5.0),
        int(0, 1000, None),
        choices(3),
        float(0.0, 100.0),
        int(-50, 50, Some(5)),
        float(0.125, 0.25),
        choices(12),
        int(1, 64, None),
        int(0, 90, Some(10)),
    ]
}

// ---- generation steps

/// n plans, rows drawn from 0 to 1 and settings from their dimensions.
fn pool(n: usize, m: usize, mix: &mut Mix) -> Vec<Plan> {
    let mut rng = fastrand::Rng::with_seed(mix.word());
    let dimensions = dimensions();
    let drawn = |number| {
        let values: Vec<f64> = (0..m).map(|_| mix.unit()).collect();
        let settings = dimensions.iter().map(|d| genetic::sample_random(&mut rng, d));
        Plan::record(number, &values, &settings.collect::<Vec<_>>())
    };
    (0..n as u64).map(drawn).collect()
}

/// Where both hand out the same kept list, rules, offspring, ideal and state: the
/// number of fronts, and whether one is split.
fn agree(call: &Call) -> Option<(usize, bool)> {
    let mut ours = Proved::of(call);
    let code = ours.step();
    let theirs = answers::step(call);
    let settings = theirs.offspring.iter().flatten();
    let same = code == 0
        && ours.kept[..ours.n_kept] == theirs.kept
        && ours.rules(ours.n_kept) == theirs.rules
        && ours.offspring == settings.map(|v| setting_words(v)[1]).collect::<Vec<_>>()
        && bits(&ours.ideal) == bits(&theirs.ideal)
        && ours.state == theirs.state;
    let fronts = ours.fronts.iter().max()? + 1;
    same.then_some((fronts, ours.lines.iter().any(|&line| line != raw::NO_LINE)))
}

/// Times a step and prints its row; answers whether the two agree.
fn compared(edition: Edition, pool: &[Plan], size: usize) -> bool {
    let lines = pool.len() / 2;
    let most = refusals::most_divisions(3, 1024) as usize;
    let divisions = genetic::auto_divisions(3, lines).min(most);
    let mut call = Call::new(3, divisions as u64, size as u64, 7, pool.to_vec());
    call.edition = edition;
    call.marks = vec![0, 1, 0];
    call.dimensions = dimensions();
    let (n, split) = (pool.len(), size < pool.len());
    let fronts = match agree(&call) {
        Some((fronts, found)) if found == split => fronts,
        other => {
            println!("edition {}, N {n}, size {size}: the answers differ, or the split is another: {other:?}", edition.number());
            return false;
        }
    };
    let proved = |ours: &mut Proved| {
        black_box(ours.step());
    };
    let [ours, theirs] = timed(&call, STEP_ROUNDS, proved, |state, population, directions| {
        black_box(nsga3::nsga3_generate_offspring(state, population, directions));
    });
    let lines = genetic::das_dennis(3, divisions).len();
    let split = if split { "yes" } else { "no" };
    let [n, size, fronts, lines] = [n, size, fronts, lines].map(timing::count);
    let edition = edition.number().to_string();
    timing::row(&[&[edition, n, size, fronts, split.to_string(), lines][..], &timing::beside(ours, theirs)].concat());
    true
}

/// Steps of both editions from the same pools, of twice the size and of the size, and one of edition 2 from 2,048 plans; answers how many differ.
fn steps() -> usize {
    let (mut mix, mut wrong) = (Mix(1), 0);
    println!("Generation steps: m 3, ten dimensions.\n");
    timing::head(&["edition", "N", "size", "fronts", "split", "lines", "proved", "Rust", "ratio"]);
    for n in [128, 512, 1024] {
        let pool = pool(n, 3, &mut mix);
        for size in [n / 2, n] {
            for edition in [Edition::First, Edition::Second] {
                wrong += usize::from(!compared(edition, &pool, size));
            }
        }
    }
    wrong + usize::from(!compared(Edition::Second, &pool(2048, 3, &mut mix), 1024))
}

// ---- sessions

const SIZE: u64 = 100;
const GENERATIONS: u64 = 40;

/// What a session's call has to do: hand out a setting; look for the plans
/// of its generation in the history, where one is missing; breed.
#[derive(Clone, Copy, PartialEq)]
enum Work {
    Hands,
    Looks,
    Breeds,
}

/// One call: the plan, its dimension, and which records are handed in.
struct Asked {
    plan: u64,
    dimension: usize,
    history: Range<usize>,
    work: Work,
}

/// Plan 0 finds the dimensions. The others ask for all their settings one
/// plan after the other; a plan's record is there once it has them. The
/// history has all records so far, or those of the generation.
fn calls(whole: bool) -> Vec<Asked> {
    let count = dimensions().len();
    let mut calls = vec![];
    for plan in 0..=GENERATIONS * SIZE {
        for dimension in 0..count {
            let first = plan > SIZE && plan % SIZE == 1 && dimension == 0;
            let last = plan > 0 && plan % SIZE == 0 && dimension > 0;
            let work = match (first, last) {
                (true, _) => Work::Breeds,
                (_, true) => Work::Looks,
                _ => Work::Hands,
            };
            // A call that breeds needs the generation before.
            let needed = plan.saturating_sub(1) / SIZE - first as u64;
            let from = if whole || plan == 0 { 0 } else { needed * SIZE + 1 };
            calls.push(Asked {
                plan,
                dimension,
                history: from as usize..plan as usize,
                work,
            });
        }
    }
    calls
}

/// Where in its dimension a setting lies, from 0 to 1.
fn share(dimension: &Distribution, value: &ParamValue) -> f64 {
    match (dimension, value) {
        (Distribution::Float(d), ParamValue::Float(x)) => (x - d.low) / (d.high - d.low),
        (Distribution::Int(d), ParamValue::Int(n)) => (n - d.low) as f64 / (d.high - d.low) as f64,
        (Distribution::Categorical(d), ParamValue::Categorical(c)) => *c as f64 / d.n_choices as f64,
        _ => unreachable!("a setting of another kind"),
    }
}

/// A row of the plane of sum g (the problem DTLZ1 with squares for g): the
/// first shares say where on the plane, the others how far out it lies.
fn row(m: usize, shares: &[f64]) -> Vec<f64> {
    let (place, rest) = shares.split_at(m - 1);
    let mut left = 1.0 + rest.iter().map(|x| (x - 0.5) * (x - 0.5)).sum::<f64>();
    let mut row = vec![];
    for x in place {
        row.push(left * (1.0 - x));
        left *= x;
    }
    row.push(left);
    row
}

/// A dimension.
type Words = [u64; raw::DIMENSION_WORDS];

/// A call of the static library: kind and word of the setting.
fn sample(session: &mut raw::Session, dimensions: &[Words], call: &Asked, history: &[u64]) -> Result<[u64; 2], u64> {
    let history = &history[call.history.start * raw::PLAN_WORDS..call.history.end * raw::PLAN_WORDS];
    session.sample(&dimensions[call.dimension], call.plan, history, raw::WHOLE)
}

/// The records that a session's plans get, where after every call answer,
/// generator, generation, number of plans and the plans that wait are the same.
fn records(opening: &Opening, calls: &[Asked]) -> Option<Vec<Plan>> {
    let dimensions = dimensions();
    let words: Vec<Words> = dimensions.iter().map(dimension_words).collect();
    let mut ours = open(opening, raw::SESSION_WORDS).ok()?;
    let mut theirs = Session::open(opening).ok()?;
    let (mut records, mut history, mut settings, mut start) = (vec![], vec![], vec![], 0);
    for call in calls {
        // The oracle holds the records of the last call's history.
        let Range { start: from, end } = call.history;
        let keep = if from == start { theirs.history().len() } else { 0 };
        theirs.set_history(keep, 1, &records[from + keep..end]).ok()?;
        start = from;

        let value = theirs.call(&dimensions[call.dimension], call.plan, false).ok()?;
        let setting = sample(&mut ours, &words, call, &history);
        let mut theirs_report = vec![];
        theirs.report(false, &mut theirs_report);
        let bred = call.plan.saturating_sub(1) / SIZE;
        if setting != Ok(setting_words(&value)) || theirs_report != report(&ours) || theirs_report[1] != bred {
            return None;
        }
        // After each breeding; between them nobody else waits.
        if call.work == Work::Breeds && !theirs.waiting().iter().map(|p| p.number).eq(waiting(&ours)) {
            return None;
        }
        settings.push(value);
        if settings.len() == dimensions.len() {
            let shares: Vec<f64> = dimensions.iter().zip(&settings).map(|(d, v)| share(d, v)).collect();
            let plan = Plan::record(call.plan, &row(opening.marks.len(), &shares), &settings);
            history.extend(laid_out(std::slice::from_ref(&plan)));
            records.push(plan);
            settings.clear();
        }
    }
    Some(records)
}

/// One round: ns of each stretch of calls with the same work, kept where it is the least so far.
fn round(stretches: &[&[Asked]], least: &mut [f64], mut sample: impl FnMut(&Asked)) {
    for (stretch, least) in stretches.iter().zip(least) {
        *least = least.min(ns(|| stretch.iter().for_each(&mut sample)));
    }
}

/// The Rust's sampler; in edition 2 with the plans that wait, which it is handed before the children.
struct Sampler {
    edition: Edition,
    sampler: Nsga3Sampler,
    waiting: Vec<MultiObjectiveTrial>,
}

impl Sampler {
    fn sample(
        &mut self,
        dimension: &Distribution,
        plan: u64,
        history: &[MultiObjectiveTrial],
        directions: &[Direction],
    ) -> ParamValue {
        if self.edition.keeps_parents() {
            // What the sampler does past discovery, but for the pool.
            let mut state = self.sampler.state.lock();
            if matches!(state.evo.phase, Phase::Active) {
                if let Some(children) = genetic::collect_evaluated_generation(&state.evo, history) {
                    let numbers: HashSet<u64> = self.waiting.iter().map(|trial| trial.id).collect();
                    let new = children.into_iter().filter(|child| !numbers.contains(&child.id));
                    let pool: Vec<&MultiObjectiveTrial> = self.waiting.iter().chain(new).collect();
                    let kept = session::breed(self.edition, &mut state, &pool, directions).kept;
                    self.waiting = kept.iter().map(|&place| pool[place].clone()).collect();
                }
                return genetic::sample_from_candidate(&mut state.evo, plan);
            }
        }
        self.sampler.sample(dimension, plan, history, directions)
    }
}

/// Times a session whose answers agreed. Both sides' ns for each stretch, or
/// none where a timed round ends elsewhere than the other side's.
fn timed_session(opening: &Opening, stretches: &[&[Asked]], records: &[Plan]) -> Option<[Vec<f64>; 2]> {
    let dimensions = dimensions();
    let trials: Vec<MultiObjectiveTrial> = records.iter().map(Plan::trial).collect();
    let history = laid_out(records);
    let words: Vec<Words> = dimensions.iter().map(dimension_words).collect();
    let directions = plans::directions(&opening.marks);
    let mut least = [(); 2].map(|_| vec![f64::INFINITY; stretches.len()]);
    for _ in 0..SESSION_ROUNDS {
        let mut ours = open(opening, raw::SESSION_WORDS).ok()?;
        round(stretches, &mut least[0], |call| {
            let _ = black_box(sample(&mut ours, &words, call, &history));
        });
        let mut theirs = Sampler {
            edition: opening.edition,
            sampler: opening.sampler(),
            waiting: vec![],
        };
        round(stretches, &mut least[1], |call| {
            let dimension = &dimensions[call.dimension];
            black_box(theirs.sample(dimension, call.plan, &trials[call.history.clone()], &directions));
        });
        let state = theirs.sampler.state.lock();
        let plans = state.evo.generation_trial_ids.len() as u64;
        let same = report(&ours) == [state.evo.rng.s, state.evo.generation as u64, plans];
        if !same || !theirs.waiting.iter().map(|trial| trial.id).eq(waiting(&ours)) {
            return None;
        }
    }
    Some(least)
}

/// Prints the average of the calls with one of these works.
fn averages(name: String, stretches: &[&[Asked]], least: &[Vec<f64>; 2], works: &[Work]) {
    let chosen = |s: &&[Asked]| works.contains(&s[0].work);
    let calls: usize = stretches.iter().filter(|s| chosen(s)).map(|s| s.len()).sum();
    let [ours, theirs] = least.each_ref().map(|times| {
        let times = stretches.iter().zip(times).filter(|(s, _)| chosen(s));
        times.map(|(_, t)| t).sum::<f64>() / calls as f64
    });
    timing::row(&[&[name, timing::count(calls)][..], &timing::beside(ours, theirs)].concat());
}

/// Times a session and prints its rows; answers whether the two agree.
fn compared_session(edition: Edition, m: usize, whole: bool) -> bool {
    let mut opening = Opening::new(m, Some(SIZE), None, 7);
    opening.edition = edition;
    let edition = edition.number();
    let calls = calls(whole);
    let stretches: Vec<&[Asked]> = calls.chunk_by(|a, b| a.work == b.work).collect();
    let agreed = records(&opening, &calls);
    let timed = agreed.and_then(|records| timed_session(&opening, &stretches, &records));
    let history = if whole { "all records" } else { "its generation" };
    let Some(least) = timed else {
        println!("edition {edition}, m {m}, {history}: the answers differ");
        return false;
    };
    let name = |work| format!("edition {edition}, m {m}, {history}: {work}");
    averages(name("no breeding"), &stretches, &least, &[Work::Hands, Work::Looks]);
    averages(name("of these, looking"), &stretches, &least, &[Work::Looks]);
    averages(name("breeding"), &stretches, &least, &[Work::Breeds]);
    true
}

/// Four sessions of each edition; answers how many differ.
fn sessions() -> usize {
    let mut wrong = 0;
    println!("\nSessions: size {SIZE}, ten dimensions, {GENERATIONS} generations; the average of a call.\n");
    timing::head(&["edition, objectives, history: work", "calls", "proved", "Rust", "ratio"]);
    for edition in [Edition::First, Edition::Second] {
        for m in [2, 3] {
            for whole in [false, true] {
                wrong += usize::from(!compared_session(edition, m, whole));
            }
        }
    }
    wrong
}

fn main() {
    let wrong = [steps(), sessions()];
    println!("\n{} of 13 steps and {} of 8 sessions answered differently", wrong[0], wrong[1]);
    if wrong != [0, 0] {
        std::process::exit(1);
    }
}
