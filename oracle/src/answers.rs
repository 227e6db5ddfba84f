//! One answer for each input line: reads the input, asks the refusals where
//! the call has any, runs the Rust, and writes what it answered.

use crate::convert;
use crate::distribution::Distribution;
use crate::edition::{self, Edition};
use crate::load;
use crate::multi_objective::MultiObjectiveTrial;
use crate::param::ParamValue;
use crate::pareto;
use crate::plans::{self, Plan};
use crate::powers;
use crate::refusals;
use crate::rng_util;
use crate::sampler::nsga3::Nsga3State;
use crate::sampler::{common, genetic, nsga3};
use crate::session::{Opening, Operators};
use crate::types::Direction;
use crate::watch;
use crate::water;
use crate::words::{Reader, bits, digest, of_int, of_real, push_counted_reals, push_reals, told};
use crate::{pool_file, session};

/// The mark of a plan without a line.
pub const NO_LINE: u64 = edition::NO_LINE as u64;

/// What put a plan on the kept list: its front was listed whole, it was the
/// nearest on a line whose niche count was 0, it was drawn on a line whose count
/// was above 0, or it pads the list.
pub const WHOLE_FRONT: u64 = 0;
pub const NEAREST: u64 = 1;
pub const DRAWN: u64 = 2;
pub const PADDING: u64 = 3;

/// The commands of a selection and of a generation step, of either edition.
pub const SELECT: u64 = 70;
pub const SELECT_SECOND: u64 = 71;
pub const STEP: u64 = 87;
pub const STEP_SECOND: u64 = 88;

/// The commands of normalisation, of the nearest lines and of a distance, of
/// either edition.
pub const NORMALIZE: u64 = 60;
pub const NORMALIZE_SECOND: u64 = 65;
pub const ASSOCIATE: u64 = 61;
pub const ASSOCIATE_SECOND: u64 = 63;
pub const DISTANCE: u64 = 62;
pub const DISTANCE_SECOND: u64 = 64;

/// The edition of a command that is of either.
fn edition_of(command: u64) -> Edition {
    match command {
        SELECT_SECOND | STEP_SECOND => Edition::Second,
        NORMALIZE_SECOND | ASSOCIATE_SECOND | DISTANCE_SECOND => Edition::Second,
        _ => Edition::First,
    }
}

/// Whether a command is a generation step.
fn steps(command: u64) -> bool {
    matches!(command, STEP | STEP_SECOND)
}

pub fn answer(input: &[u64]) -> Result<Vec<u64>, String> {
    let mut reader = Reader::new(input);
    let r = &mut reader;
    let command = r.number()?;
    let mut a: Vec<u64> = Vec::new();
    match command {
        // Draw, setting and dimension: the generator's state stands first, and
        // the state after last.
        10..=14 | 80..=86 => {
            let mut rng = fastrand::Rng::with_seed(r.number()?);
            drawn(command, &mut rng, r, &mut a)?;
            a.push(rng.s);
        }

        // Worked-out numbers
        20 | 21 => {
            let (x, k) = (r.real()?, r.number()?);
            if !(1..=100).contains(&k) {
                return Err("k is not 1 to 100".to_string());
            }
            let leaf = if command == 20 {
                powers::power
            } else {
                powers::root
            };
            a.push(of_real(leaf(x, k as u32)));
        }
        22 => a.push(of_real(r.real()?.sqrt())),
        23 => a.push(of_real(r.real()?.round())),
        24 => a.push(of_real(f64::midpoint(r.real()?, r.real()?))),
        25 => {
            let (x, low, high) = (r.real()?, r.real()?, r.real()?);
            if !(low <= high) {
                return Err("an empty range".to_string());
            }
            a.push(of_real(x.clamp(low, high)));
        }

        // Objective row
        30 | 31 => {
            let directions = plans::read_directions(r)?;
            let m = directions.len();
            let (x, y) = (r.reals(m)?, r.reals(m)?);
            // Selection compares rows in minimise-space; both ways agree.
            let minimised = all_minimize(m);
            let (u, v) = (minimize(&x, &directions), minimize(&y, &directions));
            let dominates = pareto::dominates(&x, &y, &directions);
            assert_eq!(dominates, pareto::dominates(&u, &v, &minimised));
            let answer = if command == 30 {
                dominates
            } else {
                let (cu, cv) = (r.counted(Reader::real)?, r.counted(Reader::real)?);
                pareto::constrained_dominates(&u, &v, &cu, &cv, &minimised)
            };
            a.push(answer as u64);
        }
        32 => {
            let directions = plans::read_directions(r)?;
            let row = r.reals(directions.len())?;
            push_reals(&mut a, &minimize(&row, &directions));
        }

        // Front list
        40 | 41 => {
            let directions = plans::read_directions(r)?;
            let m = directions.len();
            let (mut rows, mut constraints) = (Vec::new(), Vec::new());
            for _ in 0..r.count()? {
                rows.push(minimize(&r.reals(m)?, &directions));
                if command == 41 {
                    constraints.push(r.counted(Reader::real)?);
                }
            }
            let fronts = if command == 40 {
                pareto::fast_non_dominated_sort(&rows, &all_minimize(m))
            } else {
                pareto::fast_non_dominated_sort_constrained(&rows, &all_minimize(m), &constraints)
            };
            a.push(fronts.len() as u64);
            for front in &fronts {
                push_list(&mut a, front);
            }
        }

        // Reference table
        50 => {
            let (m, h) = (positive(r)?, r.count()?);
            if m > 8 || h > 199 || refusals::lines(m, h as u64) > 100_000 {
                return Err("m is not 1 to 8, h above 199, or too many points".to_string());
            }
            let points = genetic::das_dennis(m, h);
            a.extend([points.len() as u64, m as u64]);
            for point in &points {
                push_reals(&mut a, point);
            }
        }
        54 => {
            let (m, h) = fit_divisions(r)?;
            let points = genetic::das_dennis(m, h);
            let coordinates = points.iter().flatten().map(|&x| of_real(x));
            a.extend([points.len() as u64, digest(coordinates)]);
        }
        51 => {
            let m = positive(r)?;
            a.push(genetic::auto_divisions(m, r.count()?) as u64);
        }
        52 => {
            let (m, h) = (positive(r)?, r.count()?);
            a.push(genetic::n_combinations(h + m - 1, m - 1) as u64);
        }
        53 => {
            let marks = plans::read_marks(r)?;
            let opening = Opening {
                marks,
                ..Opening::new(0, r.optional()?, r.optional()?, 0)
            };
            let refused = refusals::lowest(&refusals::opening(&opening));
            a.push(refused.unwrap_or(0));
            if refused.is_none() {
                let sampler = opening.sampler();
                let mut state = sampler.state.lock();
                nsga3::initialize_nsga3(&mut state, &plans::directions(&opening.marks));
                let h = opening.divisions.unwrap_or_else(|| {
                    let target = opening.size.unwrap_or(100) as usize;
                    genetic::auto_divisions(opening.marks.len(), target) as u64
                });
                a.extend([h, state.reference_points.len() as u64]);
                a.push(state.evo.population_size as u64);
            }
        }

        // Association
        NORMALIZE | NORMALIZE_SECOND => {
            let directions = plans::read_directions(r)?;
            let m = directions.len();
            let mut ideal = r.reals(m)?;
            let count = positive(r)?;
            let rows = r.list(count, |r| Ok(minimize(&r.reals(m)?, &directions)))?;
            let (intercepts, normalized) =
                edition_of(command).run(|| normalize(&mut ideal, &rows));
            push_reals(&mut a, &ideal);
            push_reals(&mut a, &intercepts);
            for row in &normalized {
                push_reals(&mut a, row);
            }
        }
        ASSOCIATE | ASSOCIATE_SECOND => {
            let (m, h) = fit_divisions(r)?;
            let rows = r.counted(|r| r.reals(m))?;
            for (line, distance) in associate(edition_of(command), &rows, &genetic::das_dennis(m, h)) {
                a.extend([line as u64, of_real(distance)]);
            }
        }
        DISTANCE | DISTANCE_SECOND => {
            let m = positive(r)?;
            let (point, reference) = (r.reals(m)?, r.reals(m)?);
            let leaf = || nsga3::perpendicular_distance(&point, &reference);
            a.push(of_real(edition_of(command).run(leaf)));
        }

        // Kept list
        SELECT | SELECT_SECOND => {
            if let Some(call) = accepted(command, r, &mut a)? {
                let kept = select(&call);
                push_list(&mut a, &kept.list);
                a.extend(&kept.rules);
                a.extend(kept.fronts.iter().map(|&front| front as u64));
                a.extend(&kept.lines);
                push_reals(&mut a, &kept.ideal);
                a.push(kept.state);
            }
        }

        // Generation step
        STEP | STEP_SECOND => {
            if let Some(call) = accepted(command, r, &mut a)? {
                let bred = step(&call);
                push_list(&mut a, &bred.kept);
                a.extend(&bred.rules);
                push_reals(&mut a, &bred.ideal);
                a.push(bred.offspring.len() as u64);
                for child in &bred.offspring {
                    push_settings(&mut a, child);
                }
                a.push(bred.state);
            }
        }

        session::SESSION => a = session::answer(Edition::First, false, r)?,
        session::SESSION_SECOND => a = session::answer(Edition::Second, false, r)?,
        session::SESSION_WINDOW => a = session::answer(Edition::First, true, r)?,
        session::SESSION_SECOND_WINDOW => a = session::answer(Edition::Second, true, r)?,

        95 => {
            let text = pool_file::choose(&r.bytes()?);
            a = told(text.as_bytes(), true);
        }
        pool_file::CHOOSE_PARTS | pool_file::CHOOSE_DIGEST => {
            let text = pool_file::choose(&r.parts()?);
            a = told(text.as_bytes(), command == pool_file::CHOOSE_PARTS);
        }

        water::PRICE => a = water::answer(r)?,

        load::LOAD | load::LOAD_DIGEST => a = load::answer(command, r)?,

        convert::CONVERT | convert::CONVERT_DIGEST => a = convert::answer(command, r)?,

        _ => return Err(format!("{command} is no command")),
    }
    r.end()?;
    Ok(a)
}

/// The answer of a command that draws, but for the state.
fn drawn(
    command: u64,
    rng: &mut fastrand::Rng,
    r: &mut Reader,
    a: &mut Vec<u64>,
) -> Result<(), String> {
    match command {
        // Draw
        10 => {
            for _ in 0..r.count()? {
                a.push(rng.word());
            }
        }
        11 => a.push(of_real(rng.f64())),
        12 => {
            let n = positive(r)?;
            a.push(rng.usize(0..n) as u64);
        }
        13 => {
            let (low, high) = (r.int()?, r.int()?);
            if low > high {
                return Err("an empty range".to_string());
            }
            a.push(of_int(rng.i64(low..=high)));
        }
        14 => {
            let (low, high) = (r.real()?, r.real()?);
            a.push(of_real(rng_util::f64_range(rng, low, high)));
        }

        // Setting and dimension
        80 => {
            let dimension = fit_dimension(r)?;
            plans::write_setting(a, &common::sample_random(rng, &dimension));
        }
        81 => {
            let dimensions = fit_dimensions(r)?;
            let plan = Plan::read(r)?;
            if refusals::bad_settings(&plan, &dimensions) {
                return Err("settings that are turned down with 9".to_string());
            }
            let settings = genetic::extract_trial_params(&plan.trial(), &dimensions, rng);
            push_settings(a, &settings);
        }
        82 => {
            let (probability, eta) = (r.real()?, r.real()?);
            let dimensions = fit_dimensions(r)?;
            let first = r.list(dimensions.len(), plans::read_setting)?;
            let second = r.list(dimensions.len(), plans::read_setting)?;
            let (child1, child2) =
                genetic::crossover(rng, &first, &second, &dimensions, probability, eta);
            push_settings(a, &child1);
            push_settings(a, &child2);
        }
        83 => {
            let (p1, p2) = (r.real()?, r.real()?);
            let (low, high, eta) = (r.real()?, r.real()?, r.real()?);
            let (c1, c2) = genetic::sbx_crossover_f64(rng, p1, p2, low, high, eta);
            push_reals(a, &[c1, c2]);
        }
        84 => {
            let eta = r.real()?;
            let dimensions = fit_dimensions(r)?;
            let mut settings = r.list(dimensions.len(), plans::read_setting)?;
            genetic::mutate(rng, &mut settings, &dimensions, eta);
            push_settings(a, &settings);
        }
        85 => {
            let x = r.real()?;
            let (low, high, eta) = (r.real()?, r.real()?, r.real()?);
            let moved = genetic::polynomial_mutation_f64(rng, x, low, high, eta);
            a.push(of_real(moved));
        }
        86 => {
            let count = positive(r)?;
            let ranks = r.list(count, Reader::count)?;
            let winner = nsga3::tournament_select_rank(rng, &ranks, ranks.len());
            a.push(winner as u64);
        }
        _ => return Err(format!("{command} is no command that draws")),
    }
    Ok(())
}

fn positive(r: &mut Reader) -> Result<usize, String> {
    match r.count()? {
        0 => Err("0 stands where at least 1 belongs".to_string()),
        n => Ok(n),
    }
}

/// Objectives and divisions of a table.
fn fit_divisions(r: &mut Reader) -> Result<(usize, usize), String> {
    let (m, h) = (positive(r)?, r.count()?);
    if m > 8 || refusals::bad_divisions(m, h as u64) {
        return Err("m is not 1 to 8, or divisions turned down with 4".to_string());
    }
    Ok((m, h))
}

fn fit_dimension(r: &mut Reader) -> Result<Distribution, String> {
    let dimension = plans::read_dimension(r)?;
    if refusals::bad_dimension(&dimension) || refusals::bad_step(&dimension) {
        return Err("a dimension that is turned down with 6 or 12".to_string());
    }
    Ok(dimension)
}

fn fit_dimensions(r: &mut Reader) -> Result<Vec<genetic::DimensionInfo>, String> {
    Ok(plans::infos(&r.counted(fit_dimension)?))
}

/// Reads a selection or step and writes its refusal or 0: the call, where it
/// is accepted.
fn accepted(command: u64, r: &mut Reader, a: &mut Vec<u64>) -> Result<Option<Call>, String> {
    let call = Call::read(command, r)?;
    let refused = call.refused(command);
    a.push(refused.unwrap_or(0));
    Ok(refused.is_none().then_some(call))
}

fn push_list(answer: &mut Vec<u64>, list: &[usize]) {
    answer.push(list.len() as u64);
    answer.extend(list.iter().map(|&x| x as u64));
}

pub fn push_settings(answer: &mut Vec<u64>, settings: &[ParamValue]) {
    for setting in settings {
        plans::write_setting(answer, setting);
    }
}

fn minimize(row: &[f64], directions: &[Direction]) -> Vec<f64> {
    nsga3::to_minimize_space(row, directions)
}

fn all_minimize(m: usize) -> Vec<Direction> {
    vec![Direction::Minimize; m]
}

/// As `nsga3_select` does it where a front is split: the ideal moves first.
pub fn normalize(ideal: &mut [f64], rows: &[Vec<f64>]) -> (Vec<f64>, Vec<Vec<f64>>) {
    nsga3::update_ideal_point(ideal, rows);
    let intercepts = edition::intercepts(rows, ideal);
    let normalized = nsga3::normalize_objectives(rows, ideal, &intercepts);
    (intercepts, normalized)
}

/// The line of each row and its distance from it, in an edition.
pub fn associate(edition: Edition, rows: &[Vec<f64>], table: &[Vec<f64>]) -> Vec<(usize, f64)> {
    edition.run(|| nsga3::associate_to_reference_points(rows, table))
}

/// The input of a selection or a generation step. A selection has the sampler's
/// own operators, and no dimensions.
#[derive(Clone)]
pub struct Call {
    pub edition: Edition,
    pub short: bool,
    pub marks: Vec<u64>,
    pub divisions: u64,
    pub size: u64,
    pub state: u64,
    pub ideal: Vec<f64>,
    pub pool: Vec<Plan>,
    pub operators: Operators,
    pub dimensions: Vec<Distribution>,
}

impl Call {
    /// Of edition 1, all objectives minimised, the ideal unknown.
    pub fn new(m: usize, divisions: u64, size: u64, state: u64, pool: Vec<Plan>) -> Self {
        Call {
            edition: Edition::First,
            short: false,
            marks: vec![0; m],
            divisions,
            size,
            state,
            ideal: vec![f64::INFINITY; m],
            pool,
            operators: Operators::OWN,
            dimensions: Vec::new(),
        }
    }

    pub fn read(command: u64, r: &mut Reader) -> Result<Self, String> {
        let mut call = Call::new(0, 0, 0, 0, Vec::new());
        call.edition = edition_of(command);
        call.short = r.flag()?;
        call.marks = plans::read_marks(r)?;
        (call.divisions, call.size, call.state) = (r.number()?, r.number()?, r.number()?);
        call.ideal = r.counted(Reader::real)?;
        if steps(command) {
            call.operators = Operators::read(r)?;
            call.dimensions = plans::read_dimensions(r)?;
        }
        call.pool = r.counted(Plan::read)?;
        Ok(call)
    }

    /// The line, with the command in front.
    pub fn write(&self, command: u64) -> Vec<u64> {
        let mut line = vec![command, self.short as u64];
        plans::write_marks(&mut line, &self.marks);
        line.extend([self.divisions, self.size, self.state]);
        push_counted_reals(&mut line, &self.ideal);
        if steps(command) {
            push_reals(&mut line, &self.operators.reals());
            plans::write_dimensions(&mut line, &self.dimensions);
        }
        plans::write_plans(&mut line, &self.pool);
        line
    }

    pub fn refused(&self, command: u64) -> Option<u64> {
        let m = self.marks.len();
        let bad_plan = self.pool.iter().any(|plan| refusals::bad_row(plan, m));
        let mut conditions = vec![
            (2, refusals::bad_marks(&self.marks)),
            (3, refusals::bad_size(self.size)),
            (4, refusals::bad_divisions(m, self.divisions)),
            (7, self.pool.is_empty() || self.pool.len() > self.edition.most_plans()),
            (8, bad_plan || refusals::bad_ideal(&self.ideal, m)),
            (10, self.short),
        ];
        if steps(command) {
            let dimensions = plans::infos(&self.dimensions);
            let bad_dimension = self.dimensions.iter().any(refusals::bad_dimension);
            let bad_parent = |plan: &Plan| refusals::bad_settings(plan, &dimensions);
            conditions.extend([
                (5, refusals::bad_operators(&self.operators)),
                (6, dimensions.len() > refusals::MAX_DIMENSIONS || bad_dimension),
                (12, self.dimensions.iter().any(refusals::bad_step)),
                (9, self.pool.iter().any(bad_parent)),
            ]);
        }
        refusals::lowest(&conditions)
    }

    /// The pool's rows in minimise-space.
    pub fn rows(&self) -> Vec<Vec<f64>> {
        let directions = plans::directions(&self.marks);
        let row = |plan: &Plan| minimize(&plan.values, &directions);
        self.pool.iter().map(row).collect()
    }

    /// The pool's front list.
    pub fn fronts(&self) -> Vec<Vec<usize>> {
        let constraints = |plan: &Plan| plan.constraints.clone();
        let constraints: Vec<Vec<f64>> = self.pool.iter().map(constraints).collect();
        let directions = all_minimize(self.marks.len());
        pareto::fast_non_dominated_sort_constrained(&self.rows(), &directions, &constraints)
    }
}

/// Runs in the call's edition, on the state that the Rust's sampler has before a
/// selection or generation step, with the step's population and directions.
pub fn with_state<T>(
    call: &Call,
    run: impl FnOnce(&mut Nsga3State, &[&MultiObjectiveTrial], &[Direction]) -> T,
) -> T {
    let trials: Vec<MultiObjectiveTrial> = call.pool.iter().map(Plan::trial).collect();
    let population: Vec<&MultiObjectiveTrial> = trials.iter().collect();
    let opening = Opening {
        operators: call.operators,
        ..Opening::new(0, None, None, call.state)
    };
    let sampler = opening.sampler();
    let mut state = sampler.state.lock();
    state.evo.population_size = call.size as usize;
    state.evo.phase = genetic::Phase::Active;
    state.evo.dimensions = plans::infos(&call.dimensions);
    state.reference_points = genetic::das_dennis(call.marks.len(), call.divisions as usize);
    state.ideal_point = call.ideal.clone();
    state.initialized = true;
    let directions = plans::directions(&call.marks);
    call.edition
        .run(|| run(&mut state, &population, &directions))
}

/// What a selection hands out.
pub struct Kept {
    pub list: Vec<usize>,
    pub rules: Vec<u64>,
    pub fronts: Vec<usize>,
    pub lines: Vec<u64>,
    pub ideal: Vec<f64>,
    pub state: u64,
}

/// Runs `nsga3_select`. Fronts and lines are not among its answers: the same
/// functions of the Rust give them for the same pool. Nor are the rules: its
/// niching loop is watched, and the places of whole fronts and of padding are
/// before and after its picks.
pub fn select(call: &Call) -> Kept {
    with_state(call, |state, population, directions| {
        let ((_, list), told) =
            watch::watched(|| nsga3::nsga3_select(state, population, directions));

        let (n, size) = (call.pool.len(), call.size as usize);
        let front_list = call.fronts();
        let mut fronts = vec![0; n];
        for (rank, front) in front_list.iter().enumerate() {
            for &plan in front {
                fronts[plan] = rank;
            }
        }

        let mut before = 0;
        let mut split = None;
        for front in &front_list {
            if before + front.len() > size {
                split = (before < size).then_some(front);
                break;
            }
            before += front.len();
        }
        let picks = if split.is_some() { size - before } else { 0 };
        assert_eq!(told.counts.len(), picks, "the picks of the same split");
        let rule = |&count: &usize| if count == 0 { NEAREST } else { DRAWN };
        let mut rules = vec![WHOLE_FRONT; before];
        rules.extend(told.counts.iter().map(rule));
        rules.resize(list.len(), PADDING);
        let mut ideal = call.ideal.clone();
        let mut lines = vec![NO_LINE; n];
        if let Some(front) = split {
            let shapers = edition::shapers(population, front);
            let (_, normalized) = normalize(&mut ideal, &shapers.rows(&call.rows()));
            let table = &state.reference_points;
            let associations = nsga3::associate_to_reference_points(&normalized, table);
            let associations = shapers.at_their_places(associations);
            lines = associations.into_iter().map(|(line, _)| line as u64).collect();
        }
        assert_eq!(
            bits(&ideal),
            bits(&state.ideal_point),
            "the ideal of the same split"
        );
        Kept {
            list,
            rules,
            fronts,
            lines,
            ideal,
            state: state.evo.rng.s,
        }
    })
}

/// What a generation step hands out; a pool of one keeps nothing.
pub struct Bred {
    pub kept: Vec<usize>,
    pub rules: Vec<u64>,
    pub ideal: Vec<f64>,
    pub offspring: Vec<Vec<ParamValue>>,
    pub state: u64,
}

pub fn step(call: &Call) -> Bred {
    with_state(call, |state, population, directions| {
        let (offspring, told) =
            watch::watched(|| nsga3::nsga3_generate_offspring(state, population, directions));
        // The step keeps its list to itself: selection from the same pool has
        // it, with the rules.
        let (kept, rules) = if population.len() < 2 {
            (Vec::new(), Vec::new())
        } else {
            let kept = select(call);
            (kept.list, kept.rules)
        };
        assert_eq!(kept, told.kept, "the list of the same pool");
        Bred {
            kept,
            rules,
            ideal: state.ideal_point.clone(),
            offspring: offspring.into_iter().map(|child| child.params).collect(),
            state: state.evo.rng.s,
        }
    })
}
