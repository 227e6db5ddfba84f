//! Sessions: the sampler's own calls, with document 01's refusals in front. In
//! edition 2 the driver hands the Rust's generation step the joined pool
//! (document 02, M-100). With a window it hands it the ideal (M-109).

use crate::answers::push_settings;
use crate::distribution::Distribution;
use crate::edition::{self, Edition};
use crate::multi_objective::{MultiObjectiveSampler, MultiObjectiveTrial};
use crate::param::ParamValue;
use crate::pareto;
use crate::plans::{self, Plan};
use crate::refusals;
use crate::sampler::genetic::{self, EvolutionaryState, Phase};
use crate::sampler::nsga3::{self, Nsga3Sampler, Nsga3State};
use crate::types::Direction;
use crate::watch;
use crate::words::{Reader, push_counted_reals, push_optional, push_reals};

/// The commands of a session, of either edition, and of one that may have a window.
pub const SESSION: u64 = 90;
pub const SESSION_SECOND: u64 = 91;
pub const SESSION_WINDOW: u64 = 92;
pub const SESSION_SECOND_WINDOW: u64 = 93;

/// The operators that breed.
#[derive(Clone, Copy, Debug)]
pub struct Operators {
    pub probability: f64,
    pub crossover_eta: f64,
    pub mutation_eta: f64,
}

impl Operators {
    /// The sampler's own.
    pub const OWN: Self = Operators {
        probability: 1.0,
        crossover_eta: 30.0,
        mutation_eta: 20.0,
    };

    pub fn read(r: &mut Reader) -> Result<Self, String> {
        Ok(Operators {
            probability: r.real()?,
            crossover_eta: r.real()?,
            mutation_eta: r.real()?,
        })
    }

    /// In the order in which they are written and handed to a call.
    pub fn reals(&self) -> [f64; 3] {
        [self.probability, self.crossover_eta, self.mutation_eta]
    }
}

/// What a session is opened with.
#[derive(Clone, Debug)]
pub struct Opening {
    pub edition: Edition,
    pub short: bool,
    pub marks: Vec<u64>,
    pub size: Option<u64>,
    pub divisions: Option<u64>,
    pub operators: Operators,
    pub seed: u64,
    pub window: Option<u64>,
}

impl Opening {
    /// Of edition 1, all objectives minimised, the sampler's own operators.
    pub fn new(m: usize, size: Option<u64>, divisions: Option<u64>, seed: u64) -> Self {
        Opening {
            edition: Edition::First,
            short: false,
            marks: vec![0; m],
            size,
            divisions,
            operators: Operators::OWN,
            seed,
            window: None,
        }
    }

    /// What stands behind the command, which says the edition and whether a
    /// window may follow the seed.
    pub fn read(edition: Edition, windowed: bool, r: &mut Reader) -> Result<Self, String> {
        Ok(Opening {
            edition,
            short: r.flag()?,
            marks: plans::read_marks(r)?,
            size: r.optional()?,
            divisions: r.optional()?,
            operators: Operators::read(r)?,
            seed: r.number()?,
            window: if windowed { r.optional()? } else { None },
        })
    }

    /// The command and the opening.
    pub fn write(&self, line: &mut Vec<u64>) {
        line.push(match (self.edition, self.window) {
            (Edition::First, None) => SESSION,
            (Edition::Second, None) => SESSION_SECOND,
            (Edition::First, Some(_)) => SESSION_WINDOW,
            (Edition::Second, Some(_)) => SESSION_SECOND_WINDOW,
        });
        line.push(self.short as u64);
        plans::write_marks(line, &self.marks);
        push_optional(line, self.size);
        push_optional(line, self.divisions);
        push_reals(line, &self.operators.reals());
        line.push(self.seed);
        if self.window.is_some() {
            push_optional(line, self.window);
        }
    }

    /// The sampler, made by the Rust's own builder.
    pub fn sampler(&self) -> Nsga3Sampler {
        let mut builder = Nsga3Sampler::builder()
            .crossover_prob(self.operators.probability)
            .crossover_eta(self.operators.crossover_eta)
            .mutation_eta(self.operators.mutation_eta)
            .seed(self.seed);
        if let Some(size) = self.size {
            builder = builder.population_size(size as usize);
        }
        if let Some(divisions) = self.divisions {
            builder = builder.n_divisions(divisions as usize);
        }
        builder.build()
    }
}

/// A session: the sampler, the edition and the directions given at opening, the
/// history that the calls hand in, and the plans that wait.
pub struct Session {
    pub sampler: Nsga3Sampler,
    edition: Edition,
    directions: Vec<Direction>,
    history: Vec<Plan>,
    trials: Vec<MultiObjectiveTrial>,
    waiting: Vec<Plan>,
    window: Option<usize>,
    /// The own parts of the generations before the present one, with a window:
    /// the least value of each objective, the oldest generation first.
    remembered: Vec<Vec<f64>>,
    bred: Bred,
}

/// The least of each objective, in minimise-space, of an ideal and the plans of
/// a pool; of equals the first.
fn least(mut ideal: Vec<f64>, pool: &[&Plan], directions: &[Direction]) -> Vec<f64> {
    for plan in pool {
        for (least, value) in ideal.iter_mut().zip(minimised(&plan.values, directions)) {
            if value < *least {
                *least = value;
            }
        }
    }
    ideal
}

/// Maximised values are negated.
fn minimised(values: &[f64], directions: &[Direction]) -> Vec<f64> {
    let turned = |(value, direction): (&f64, &Direction)| match direction {
        Direction::Minimize => *value,
        Direction::Maximize => -value,
    };
    values.iter().zip(directions).map(turned).collect()
}

/// How many generations a session of edition 2 has bred, and in how many of
/// them a front was split.
#[derive(Clone, Copy, Default)]
pub struct Bred {
    pub generations: usize,
    pub split: usize,
}

/// The Rust's generation step from a pool, in an edition, and its new
/// generation; what it told.
pub fn breed(
    edition: Edition,
    state: &mut Nsga3State,
    pool: &[&MultiObjectiveTrial],
    directions: &[Direction],
) -> watch::Told {
    let step = || nsga3::nsga3_generate_offspring(state, pool, directions);
    let (offspring, told) = watch::watched(|| edition.run(step));
    genetic::advance_generation(&mut state.evo, offspring);
    told
}

impl Session {
    /// Opens a session, or gives the refusal.
    pub fn open(opening: &Opening) -> Result<Self, u64> {
        // 14 comes right after 5.
        let mut conditions = refusals::opening(opening).to_vec();
        conditions.extend([
            (5, refusals::bad_operators(&opening.operators)),
            (14, opening.window.is_some_and(|w| !(1..=64).contains(&w))),
            (10, opening.short),
        ]);
        if let Some(number) = refusals::first(&conditions) {
            return Err(number);
        }
        Ok(Session {
            sampler: opening.sampler(),
            edition: opening.edition,
            directions: plans::directions(&opening.marks),
            history: Vec::new(),
            trials: Vec::new(),
            waiting: Vec::new(),
            window: opening.window.map(|window| window as usize),
            remembered: Vec::new(),
            bred: Bred::default(),
        })
    }

    /// Keeps the first `keep` records of the history and appends `records`
    /// `copies` times.
    pub fn set_history(
        &mut self,
        keep: usize,
        copies: usize,
        records: &[Plan],
    ) -> Result<(), String> {
        if keep > self.history.len() {
            return Err(format!("the history has no {keep} records to keep"));
        }
        self.history.truncate(keep);
        self.trials.truncate(keep);
        for _ in 0..copies {
            for plan in records {
                self.history.push(plan.clone());
                self.trials.push(plan.trial());
            }
        }
        Ok(())
    }

    pub fn history(&self) -> &[Plan] {
        &self.history
    }

    /// The plans that wait for the next generation's pool, in its order.
    pub fn waiting(&self) -> &[Plan] {
        &self.waiting
    }

    pub fn bred(&self) -> Bred {
        self.bred
    }

    /// One call: the setting that the Rust answers, or the refusal.
    pub fn call(
        &mut self,
        distribution: &Distribution,
        plan: u64,
        short: bool,
    ) -> Result<ParamValue, u64> {
        let (refused, breeds, generation) = self.judge(distribution, plan, short);
        if let Some(number) = refused {
            return Err(number);
        }
        let parts = breeds.then(|| self.windowed()).flatten();
        if breeds && self.edition.keeps_parents() {
            self.breed_joined();
        }
        let value = self
            .sampler
            .sample(distribution, plan, &self.trials, &self.directions);
        if let Some((own, ideal)) = parts {
            self.remember(own, ideal);
        }
        let state = self.sampler.state.lock();
        assert_eq!(
            state.evo.generation,
            generation + breeds as usize,
            "breeding as document 01 tells it"
        );
        Ok(value)
    }

    /// A call of a line, as often as it is made, the plan number rising: the
    /// last one's answer.
    pub fn calls(&mut self, call: &Call) -> Result<Result<ParamValue, u64>, String> {
        self.set_history(call.keep, call.copies, &call.records)?;
        let mut last = Err(0);
        for at in 0..call.times {
            last = self.call(&call.distribution, call.plan.wrapping_add(at), call.short);
        }
        Ok(last)
    }

    /// The plans bred from, where the call breeds. The children are the first
    /// ones of the generation, each by the last record of its number; all have
    /// to stand in history. The plans that wait come first, and a child whose
    /// number one of them has is left out.
    fn bred_from(&self, evo: &EvolutionaryState) -> Option<Vec<&Plan>> {
        let (size, numbers) = (evo.population_size, &evo.generation_trial_ids);
        if matches!(evo.phase, Phase::Discovery) || numbers.len() < size {
            return None;
        }
        let record = |&number: &u64| self.history.iter().rev().find(|p| p.number == number);
        let children: Vec<&Plan> = numbers[..size].iter().map(record).collect::<Option<_>>()?;
        let new = |child: &&Plan| self.waiting.iter().all(|p| p.number != child.number);
        let children = children.into_iter().filter(new);
        Some(self.waiting.iter().chain(children).collect())
    }

    /// With a window, before a generation is bred: the selection starts from
    /// the least of what is remembered. The generation's own part, and the ideal
    /// that there is to be after it, split or not.
    fn windowed(&mut self) -> Option<(Vec<f64>, Vec<f64>)> {
        self.window?;
        let unknown = vec![f64::INFINITY; self.directions.len()];
        let mut start = unknown.clone();
        for part in &self.remembered {
            for (least, value) in start.iter_mut().zip(part) {
                if value < least {
                    *least = *value;
                }
            }
        }
        let mut state = self.sampler.state.lock();
        let pool = self.bred_from(&state.evo).expect("a call that breeds");
        let sources = self.sources(&pool, state.evo.population_size);
        let own = least(unknown, &sources, &self.directions);
        let ideal = least(start.clone(), &sources, &self.directions);
        state.ideal_point = start;
        Some((own, ideal))
    }

    /// The plans that a pool's own part comes from: those that shape the scale
    /// where a front is split, and all where none is (M-112).
    fn sources<'a>(&self, pool: &[&'a Plan], size: usize) -> Vec<&'a Plan> {
        let rows: Vec<Vec<f64>> = pool.iter().map(|p| p.values.clone()).collect();
        let constraints: Vec<Vec<f64>> = pool.iter().map(|p| p.constraints.clone()).collect();
        let fronts = pareto::fast_non_dominated_sort_constrained(&rows, &self.directions, &constraints);
        let mut before = 0;
        for front in &fronts {
            if before + front.len() > size {
                if before == size {
                    break;
                }
                let trials: Vec<MultiObjectiveTrial> = pool.iter().map(|plan| plan.trial()).collect();
                let trials: Vec<&MultiObjectiveTrial> = trials.iter().collect();
                let shapers = self.edition.run(|| edition::shapers(&trials, front));
                return shapers.places().iter().map(|&place| pool[place]).collect();
            }
            before += front.len();
        }
        pool.to_vec()
    }

    /// A generation is bred: where it split a front, the Rust has moved its
    /// ideal to the same. The own part is remembered, and the oldest forgotten
    /// where there would be more than the window has beside the present one.
    fn remember(&mut self, own: Vec<f64>, ideal: Vec<f64>) {
        self.sampler.state.lock().ideal_point = ideal;
        self.remembered.push(own);
        while self.remembered.len() > self.window.expect("a window") - 1 {
            self.remembered.remove(0);
        }
    }

    /// Breeds from the joined pool; the plans kept, as they stood in it, wait.
    fn breed_joined(&mut self) {
        let mut state = self.sampler.state.lock();
        let pool = self.bred_from(&state.evo).expect("a call that breeds");
        let trials: Vec<MultiObjectiveTrial> = pool.iter().map(|plan| plan.trial()).collect();
        let trials: Vec<&MultiObjectiveTrial> = trials.iter().collect();
        let watch::Told { counts, kept } = breed(self.edition, &mut state, &trials, &self.directions);
        let size = state.evo.population_size;
        assert!((size..=2 * size).contains(&pool.len()), "no plan is listed twice");
        assert_eq!(kept.len(), size, "as many wait as the size");
        self.waiting = kept.iter().map(|&place| pool[place].clone()).collect();
        drop(state);
        self.bred.generations += 1;
        // Niching picks only where a front is split.
        self.bred.split += usize::from(!counts.is_empty());
    }

    /// The refusal, whether the call breeds, and the generation so far.
    fn judge(
        &self,
        distribution: &Distribution,
        plan: u64,
        short: bool,
    ) -> (Option<u64>, bool, usize) {
        let state = self.sampler.state.lock();
        let evo = &state.evo;
        let discovers = matches!(evo.phase, Phase::Discovery);
        let adds = discovers && evo.discovery_trial_id.is_none_or(|first| first == plan);

        let parents = self.bred_from(evo);
        let m = self.directions.len();
        let bad_parent = |bad: &dyn Fn(&Plan) -> bool| {
            parents
                .as_ref()
                .is_some_and(|plans| plans.iter().any(|p| bad(p)))
        };
        let breeds = parents.is_some();
        let refused = refusals::lowest(&[
            (
                6,
                adds && (refusals::bad_dimension(distribution)
                    || evo.dimensions.len() >= refusals::MAX_DIMENSIONS),
            ),
            (12, adds && refusals::bad_step(distribution)),
            (7, self.history.len() > 4096),
            (8, bad_parent(&|p| refusals::bad_row(p, m))),
            (
                9,
                bad_parent(&|p| refusals::bad_settings(p, &evo.dimensions)),
            ),
            (10, short),
            (
                11,
                !discovers
                    && !breeds
                    && !evo.generation_trial_ids.contains(&plan)
                    && evo.generation_trial_ids.len() >= 2048,
            ),
        ]);
        (refused, breeds, evo.generation)
    }

    /// Generator, generation and number of plans; in full, the rest too, which
    /// in edition 2 ends with the plans that wait, and with a window with what
    /// is remembered.
    pub fn report(&self, full: bool, a: &mut Vec<u64>) {
        let state = self.sampler.state.lock();
        let evo = &state.evo;
        let plans = &evo.generation_trial_ids;
        a.extend([evo.rng.s, evo.generation as u64, plans.len() as u64]);
        if !full {
            return;
        }
        let active = matches!(evo.phase, Phase::Active);
        a.push(active as u64);
        push_optional(a, evo.discovery_trial_id);
        a.push(evo.dimensions.len() as u64);
        for dimension in &evo.dimensions {
            plans::write_dimension(a, &dimension.distribution);
        }
        // The Rust settles the size where discovery ends.
        a.push(if active {
            evo.population_size as u64
        } else {
            0
        });
        a.push(evo.assigned_count as u64);
        assert_eq!(evo.trial_progress.len(), plans.len());
        assert_eq!(
            evo.assigned_count,
            plans.len(),
            "as many are assigned as there are plans"
        );
        for (at, number) in plans.iter().enumerate() {
            let progress = &evo.trial_progress[number];
            assert_eq!(
                progress.candidate_idx, at,
                "a plan's candidate is its place"
            );
            // Document 01 stops it at the dimension count.
            a.extend([*number, progress.next_dim.min(evo.dimensions.len()) as u64]);
        }
        a.push(evo.candidates.len() as u64);
        for candidate in &evo.candidates {
            push_settings(a, &candidate.params);
        }
        push_counted_reals(a, &state.ideal_point);
        if self.edition.keeps_parents() {
            a.push(self.waiting.len() as u64);
            a.extend(self.waiting.iter().map(|plan| plan.number));
        }
        if self.window.is_some() {
            a.push(self.remembered.len() as u64);
            self.remembered.iter().for_each(|part| push_reals(a, part));
        }
    }
}

/// A call of a session's line: how often it is made, and the history that it
/// hands in.
pub struct Call {
    pub times: u64,
    pub plan: u64,
    pub distribution: Distribution,
    pub short: bool,
    pub keep: usize,
    pub copies: usize,
    pub records: Vec<Plan>,
    pub full: bool,
}

impl Call {
    pub fn read(r: &mut Reader) -> Result<Self, String> {
        let (times, plan) = (r.number()?, r.number()?);
        if times == 0 {
            return Err("a call is made at least once".to_string());
        }
        Ok(Call {
            times,
            plan,
            distribution: plans::read_dimension(r)?,
            short: r.flag()?,
            keep: r.count()?,
            copies: r.count()?,
            records: r.counted(Plan::read)?,
            full: r.flag()?,
        })
    }

    pub fn write(&self, line: &mut Vec<u64>) {
        line.extend([self.times, self.plan]);
        plans::write_dimension(line, &self.distribution);
        line.extend([self.short as u64, self.keep as u64, self.copies as u64]);
        plans::write_plans(line, &self.records);
        line.push(self.full as u64);
    }
}

/// One line is one session: its opening and its calls.
pub fn answer(edition: Edition, windowed: bool, r: &mut Reader) -> Result<Vec<u64>, String> {
    let opening = Opening::read(edition, windowed, r)?;
    let calls = r.count()?;
    let mut session = Session::open(&opening);
    let mut a = vec![*session.as_ref().err().unwrap_or(&0)];
    for _ in 0..calls {
        let call = Call::read(r)?;
        let Ok(session) = session.as_mut() else {
            continue;
        };
        match session.calls(&call)? {
            Err(number) => a.push(number),
            Ok(value) => {
                a.push(0);
                plans::write_setting(&mut a, &value);
            }
        }
        session.report(call.full, &mut a);
    }
    Ok(a)
}
