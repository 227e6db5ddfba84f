// What bench/select, bench/breed and bench/compare share: the oracle's Rust, the static library's calls, and how an input of the one is laid out for the other.

#[path = "../target/oracle/src/answers.rs"]
mod answers;
#[path = "../target/oracle/src/convert.rs"]
mod convert;
#[path = "../target/oracle/src/distribution.rs"]
mod distribution;
#[path = "../target/oracle/src/edition.rs"]
mod edition;
#[path = "../target/oracle/src/load.rs"]
mod load;
#[path = "../target/oracle/src/mix.rs"]
mod mix;
#[path = "../target/oracle/src/multi_objective.rs"]
mod multi_objective;
#[path = "../target/oracle/src/param.rs"]
mod param;
#[path = "../target/oracle/src/parameter.rs"]
mod parameter;
#[path = "../target/oracle/src/pareto.rs"]
mod pareto;
#[path = "../target/oracle/src/plane.rs"]
mod plane;
#[path = "../target/oracle/src/plans.rs"]
mod plans;
#[path = "../target/oracle/src/pool_file.rs"]
mod pool_file;
#[path = "../target/oracle/src/powers.rs"]
mod powers;
#[path = "../wrapper/src/raw.rs"]
mod raw;
#[path = "../target/oracle/src/refusals.rs"]
mod refusals;
#[path = "../target/oracle/src/rng_util.rs"]
mod rng_util;
#[path = "../target/oracle/src/sampler/mod.rs"]
mod sampler;
#[path = "../target/oracle/src/session.rs"]
mod session;
mod timing;
#[path = "../target/oracle/src/trial.rs"]
mod trial;
#[path = "../target/oracle/src/types.rs"]
mod types;
#[path = "../target/oracle/src/watch.rs"]
mod watch;
#[path = "../target/oracle/src/water.rs"]
mod water;
#[path = "../target/oracle/src/words.rs"]
mod words;

use answers::Call;
use edition::Edition;
use multi_objective::MultiObjectiveTrial;
use plans::{Plan, dimension_words};
use sampler::nsga3::Nsga3State;
use session::Opening;
use timing::ns;
use types::Direction;

fn laid_out(plans: &[Plan]) -> Vec<u64> {
    let words = |plan: &Plan| {
        let settings: Vec<[u64; 3]> = plan.settings.iter().map(|&(p, k, w)| [p, k, w]).collect();
        raw::plan_words(plan.number, &plan.values, &plan.constraints, &settings)
    };
    plans.iter().flat_map(words).collect()
}

fn direction_bytes(marks: &[u64]) -> Vec<u8> {
    marks.iter().map(|&mark| mark.min(255) as u8).collect()
}

/// What the static library's selection and step read and write.
struct Proved {
    edition: u64,
    pool: Vec<u64>,
    directions: Vec<u8>,
    divisions: usize,
    size: usize,
    dimensions: Vec<u64>,
    operators: raw::Operators,
    state: u64,
    ideal: Vec<f64>,
    kept: Vec<usize>,
    rules: Vec<u8>,
    fronts: Vec<usize>,
    lines: Vec<usize>,
    offspring: Vec<u64>,
    n_kept: usize,
}

impl Proved {
    fn of(call: &Call) -> Self {
        let n = call.pool.len();
        // A greater size is refused.
        let room = call.size.min(2048) as usize;
        Proved {
            edition: call.edition.number(),
            pool: laid_out(&call.pool),
            directions: direction_bytes(&call.marks),
            divisions: call.divisions as usize,
            size: call.size as usize,
            dimensions: call.dimensions.iter().flat_map(dimension_words).collect(),
            operators: call.operators.reals(),
            state: call.state,
            ideal: call.ideal.clone(),
            kept: vec![0; room],
            rules: vec![0; room],
            fronts: vec![0; n],
            lines: vec![0; n],
            offspring: vec![0; room * call.dimensions.len()],
            n_kept: 0,
        }
    }

    /// What the call is lent, and what only a step is.
    fn lent(&mut self) -> (raw::Selecting<'_>, &[u64], &mut [u64], &mut usize) {
        let selecting = raw::Selecting {
            edition: self.edition,
            pool: &self.pool,
            directions: &self.directions,
            divisions: self.divisions,
            size: self.size,
            state: &mut self.state,
            ideal: &mut self.ideal,
            kept: &mut self.kept,
            rules: &mut self.rules,
            fronts: &mut self.fronts,
            lines: &mut self.lines,
        };
        (selecting, &self.dimensions, &mut self.offspring, &mut self.n_kept)
    }

    /// The marks of the first so many rules.
    fn rules(&self, kept: usize) -> Vec<u64> {
        self.rules[..kept].iter().map(|&mark| mark.into()).collect()
    }

    /// One of the two lists loses its last place: by the generator's state the one or the other.
    fn cut_short(&mut self) {
        if self.state.is_multiple_of(2) {
            self.kept.pop();
        } else {
            self.rules.pop();
        }
    }

    fn select(&mut self) -> u64 {
        raw::select(self.lent().0)
    }

    fn step(&mut self) -> u64 {
        let operators = self.operators;
        let (selecting, dimensions, offspring, n_kept) = self.lent();
        raw::generate_offspring(selecting, dimensions, operators, offspring, n_kept)
    }
}

/// The static library's session, in so many words.
fn open(opening: &Opening, session_words: usize) -> Result<raw::Session, u64> {
    let directions = direction_bytes(&opening.marks);
    let [size, divisions, window] = [opening.size, opening.divisions, opening.window].map(|n| n.map(|n| n as usize));
    let (edition, operators) = (opening.edition.number(), opening.operators.reals());
    raw::Session::open(edition, &directions, opening.seed, size, divisions, operators, window, session_words)
}

/// The numbers of the plans that wait.
fn waiting(session: &raw::Session) -> Vec<u64> {
    session.waiting().iter().map(|plan| plan[0]).collect()
}

/// Generator, generation and number of plans.
fn report(session: &raw::Session) -> [u64; 3] {
    [raw::SESSION_STATE, raw::SESSION_GENERATION, raw::SESSION_PLAN_COUNT].map(|at| session.words()[at])
}

/// ns of the static library's call and of the Rust's, by turns.
fn timed(
    call: &Call,
    rounds: usize,
    proved: impl Fn(&mut Proved),
    rust: impl Fn(&mut Nsga3State, &[&MultiObjectiveTrial], &[Direction]),
) -> [f64; 2] {
    let mut ours = Proved::of(call);
    answers::with_state(call, |state, population, directions| {
        let proved = || {
            ours.state = call.state;
            ours.ideal.clone_from(&call.ideal);
            ns(|| proved(&mut ours))
        };
        let rust = || {
            state.evo.rng = fastrand::Rng::with_seed(call.state);
            state.ideal_point.clone_from(&call.ideal);
            ns(|| rust(state, population, directions))
        };
        timing::by_turns(rounds, proved, rust)
    })
}
