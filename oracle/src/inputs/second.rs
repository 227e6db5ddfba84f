//! Inputs of edition 2 (document 02): selections, generation steps and sessions.

use super::breeding::*;
use super::kept::*;
use super::sessions::*;
use super::*;
use crate::sampler::genetic;

fn second(call: &Call) -> Call {
    call.but(|c| c.edition = Edition::Second)
}

// ---------------------------------------------------------------------------
// Association
// ---------------------------------------------------------------------------

/// A line of the nearest lines or of a distance, in edition 2; the same inputs.
fn by_squares(mut line: Line) -> Option<Line> {
    line[0] = match line[0] {
        ASSOCIATE => ASSOCIATE_SECOND,
        DISTANCE => DISTANCE_SECOND,
        _ => return None,
    };
    Some(line)
}

/// A line of normalisation, in edition 2.
fn by_plane(mut line: Line) -> Line {
    assert_eq!(line[0], NORMALIZE);
    line[0] = NORMALIZE_SECOND;
    line
}

/// Whether the editions associate a point with different lines.
fn parts(point: &[f64], table: &[Vec<f64>]) -> bool {
    let rows = [point.to_vec()];
    let [root, square] = [Edition::First, Edition::Second].map(|e| answers::associate(e, &rows, table));
    root[0].0 != square[0].0
}

pub(super) fn association_cases() -> Vec<Line> {
    // Points as near to two lines by the roots, and not by the squares.
    let apart: [(usize, Vec<f64>); 4] = [
        (2, vec![0.4, 0.6, 0.4]),
        (2, vec![0.3, 0.2, 0.2]),
        (3, vec![0.1, 0.9, 0.9]),
        (1, vec![0.1, 0.6, 0.2, 0.6]),
    ];
    let mut lines = rows::association_cases();
    for (h, point) in &apart {
        let table = genetic::das_dennis(point.len(), *h);
        assert!(parts(point, &table), "the editions part");
        lines.push(rows::associate(point.len(), *h as u64, &[point.clone()]));
    }
    // The two lines of the first.
    lines.push(rows::distance(&apart[0].1, &[0.0, 0.5, 0.5]));
    lines.push(rows::distance(&apart[0].1, &[0.5, 0.5, 0.0]));
    // Squares round too: line 4 is nearer, and line 5 wins.
    lines.push(rows::associate(2, 8, &[vec![0.8179462534424142, 0.6386331363947232]]));
    // Points as far out as a normalised value may be.
    let far = two(100);
    lines.push(rows::associate(2, 3, &[vec![far, 1.0], vec![far, far], vec![0.0, far]]));
    lines.push(rows::distance(&[far; 8], &[0.0, 0.0, 0.0, 0.0, 0.0, 0.0, 0.0, 1.0]));
    let planes = planes::normalize_cases().into_iter().map(by_plane);
    lines.into_iter().filter_map(by_squares).chain(planes).collect()
}

/// Points within 0..1, a point and a line, a point at which the editions part,
/// where one is found; and the half of them normalisations, twenty by twenty.
pub(super) fn association_input(mix: &mut Mix, at: u64) -> Line {
    if at % 40 >= 20 {
        return by_plane(planes::normalize_input(mix, objectives(at - 20)));
    }
    let m = objectives(at);
    let line = match mix.below(3) {
        0 => {
            let n = mix.within(1, 3) as usize;
            rows::associated_points(mix, m, n)
        }
        1 => rows::distant_point(mix, m),
        _ => {
            let h = divisions(mix, m, 40);
            let table = genetic::das_dennis(m, h as usize);
            let mut point = row(mix, 9, m, 0, 1);
            for _ in 0..400 {
                if parts(&point, &table) {
                    break;
                }
                // Two coordinates alike lie between two lines.
                point = row(mix, 9, m, 0, 1);
                point[m - 1] = mix.pick(&point);
            }
            rows::associate(m, h, &[point])
        }
    };
    by_squares(line).expect("nearest lines or a distance")
}

// ---------------------------------------------------------------------------
// Selections and generation steps
// ---------------------------------------------------------------------------

/// Selections on which the editions part by their distances: by the line of a
/// plan, or by the nearest of a line's members.
fn by_distances() -> Vec<Call> {
    let ends: &[&[f64]] = &[&[1.0, 0.0], &[0.0, 1.0]];
    let corners: &[&[f64]] = &[&[1.0, 0.0, 0.0], &[0.0, 1.0, 0.0], &[0.0, 0.0, 1.0]];
    let select = |divisions, size, ends: &[&[f64]], rows: &[&[f64]]| {
        let pool = pool_of(&[ends, rows].concat());
        let call = Call::new(ends[0].len(), divisions, size, 6, pool);
        call.but(|c| c.ideal = vec![0.0; ends[0].len()])
    };
    let calls = vec![
        // A plan between two lines.
        select(2, 2, corners, &[&[0.4, 0.6, 0.4]]),
        select(3, 3, corners, &[&[0.1, 0.9, 0.9]]),
        // Two members of line 1, the second nearer by its square alone.
        select(2, 3, ends, &[&[0.6, 0.8], &[0.65, 0.45]]),
        select(2, 3, ends, &[&[0.12, 0.17], &[0.13, 0.08]]),
    ];
    for call in &calls {
        let other = second(call);
        let [root, square] = [call, &other].map(answers::select);
        assert_ne!((root.list, root.lines), (square.list, square.lines), "the editions part");
    }
    calls
}

pub(super) fn kept_cases() -> Vec<Line> {
    let good = second(&listing());
    let line_of_five = pool_of(&[
        &[0.0, 4.0],
        &[1.0, 3.0],
        &[2.0, 2.0],
        &[3.0, 1.0],
        &[4.0, 0.0],
    ]);
    let split = second(&Call::new(2, 2, 3, 6, line_of_five));
    let row: &[f64] = &[0.0];
    let crowded = second(&Call::new(1, 1, 2, 6, pool_of(&[row; 1025])));
    let calls = [
        good.clone(),
        good.but(|c| c.size = 3),
        // A selection pads, in edition 2 too.
        good.but(|c| c.size = 7),
        split.clone(),
        split.but(|c| c.ideal = vec![-1.0, -0.0]),
        split.but(|c| c.marks = vec![1, 0]),
        // Plan numbers are not looked at: the same plan may stand in the pool twice.
        split.but(|c| {
            let again = c.pool[1..3].to_vec();
            c.pool.extend(again);
        }),
        // The infeasible plans are a front each; the last kept is the less bad.
        split.but(|c| {
            for (at, plan) in c.pool.iter_mut().enumerate() {
                plan.constraints = vec![at as f64 - 1.5, -1.0];
            }
        }),
        // A pool that edition 1 turns down with 7: below.
        crowded.clone(),
        // 2, 3, 4, 7, 8 and 10.
        good.but(|c| c.marks = vec![0, 2]),
        good.but(|c| c.size = 1025),
        good.but(|c| c.divisions = 200),
        good.but(|c| c.pool.clear()),
        good.but(|c| c.pool[2].values[1] = f64::NAN),
        good.but(|c| c.short = true),
        crowded.but(|c| c.edition = Edition::First),
    ];
    let apart = [by_distances(), planes::selections(), hopeless::selections()].concat();
    [calls.to_vec(), apart.iter().map(second).collect()].concat().iter().map(Call::select).collect()
}

/// Six by six, from pools of any kind, pools made for the plane, and such in which
/// infeasible plans have absurd rows.
pub(super) fn kept_input(mix: &mut Mix, at: u64) -> Line {
    match at % 18 {
        0..6 => {}
        6..12 => return second(&planes::selection(mix, objectives(at - 6))).select(),
        _ => return hopeless::selection(mix, objectives(at - 12)).select(),
    }
    let mut call = second(&selection(mix, at, 24));
    // Plans that stand in the pool twice.
    if mix.once_in(4) {
        let again = mix.pick(&call.pool);
        call.pool.push(again);
    }
    if mix.once_in(12) {
        spoil(mix, &mut call);
    }
    call.select()
}

pub(super) fn breeding_cases() -> Vec<Line> {
    let mut mix = Mix(2);
    let dimensions = [float(0.0, 1.0), int(0, 9, None), choices(3)];
    let good = second(&bred(listing().but(|c| c.size = 3), &dimensions, &mut mix));
    let wrong_setting = |c: &mut Call| c.pool[1].settings = vec![(0, 0, of_real(1.5))];
    let calls = [
        good.clone(),
        good.but(|c| c.size = 2),
        good.but(|c| c.size = 5),
        // A pool of one: all drawn, nothing kept.
        good.but(|c| c.pool.truncate(1)),
        good.but(|c| c.dimensions.clear()),
        // An infeasible plan that is kept.
        good.but(|c| c.pool[0].constraints = vec![1.0]),
        // 5, 6, 7, 8 before 9, 9, 10.
        good.but(|c| c.operators.mutation_eta = 0.5),
        good.but(|c| c.dimensions[2] = choices(0)),
        good.but(|c| c.pool.clear()),
        good.but(|c| {
            wrong_setting(c);
            c.pool[2].values.pop();
        }),
        good.but(wrong_setting),
        good.but(|c| c.short = true),
    ];
    // Those on which the editions part.
    let pressed = pressed().iter().map(second).collect();
    let hopeless = hopeless::steps(&mut mix, &dimensions[..1]);
    [calls.to_vec(), pressed, hopeless].concat().iter().map(Call::step).collect()
}

pub(super) fn breeding_input(mix: &mut Mix, at: u64) -> Line {
    let many = at % 20 == 19;
    let count = if many { MAX_DIMENSIONS } else { mix.within(1, 5) as usize };
    let dimensions = dimensions(mix, count);
    let mut call = second(&generated_step(mix, at, if many { 3 } else { 10 }, &dimensions));
    // Of some the infeasible plans have absurd rows.
    if at % 8 >= 6 {
        hopeless::burst(mix, &mut call.pool);
    }
    call.step()
}

// ---------------------------------------------------------------------------
// Sessions
// ---------------------------------------------------------------------------

impl Script {
    /// A session of edition 2 whose dimensions plan 0 has found.
    fn second(m: usize, size: u64, seed: u64, dimensions: &[Distribution]) -> Self {
        let mut script = Script::new(Opening {
            edition: Edition::Second,
            ..Opening::new(m, Some(size), None, seed)
        });
        script.discover(0, dimensions);
        script
    }

    fn opened(&self) -> &Session {
        self.session.as_ref().expect("an open session")
    }

    fn generation(&self) -> usize {
        self.opened().sampler.state.lock().evo.generation
    }

    /// The generator's state.
    fn state(&self) -> u64 {
        self.opened().sampler.state.lock().evo.rng.s
    }

    /// The whole state.
    fn report(&self) -> Line {
        let mut report = Vec::new();
        self.opened().report(true, &mut report);
        report
    }

    /// The numbers of the plans that wait.
    fn waiting(&self) -> Vec<u64> {
        self.opened().waiting().iter().map(|plan| plan.number).collect()
    }

    /// Plans come, each with one call; none of the calls breeds.
    fn come(&mut self, plans: impl IntoIterator<Item = u64>) {
        let generation = self.generation();
        for plan in plans {
            assert!(self.call(plan, false).is_ok());
        }
        assert_eq!(self.generation(), generation, "nothing is bred yet");
    }

    /// A call that hands in records and breeds.
    fn breed(&mut self, plan: u64, records: Vec<Plan>) {
        let generation = self.generation();
        self.fresh = records;
        assert!(self.call(plan, true).is_ok());
        assert_eq!(self.generation(), generation + 1, "this call breeds");
    }

    /// A call that hands in records and is refused.
    fn refused(&mut self, plan: u64, records: Vec<Plan>, short: bool, number: u64) {
        self.fresh = records;
        let answer = self.calls(1, plan, &any_dimension(), short, false);
        assert_eq!(answer.err(), Some(number));
    }
}

/// A Float, an Int and a Categorical, and settings within them.
fn three() -> ([Distribution; 3], [ParamValue; 3]) {
    let fit = [
        ParamValue::Float(0.5),
        ParamValue::Int(3),
        ParamValue::Categorical(2),
    ];
    ([float(0.0, 1.0), int(0, 9, None), choices(3)], fit)
}

/// The record of a plan of two objectives.
fn of_two(number: u64, row: [f64; 2]) -> Plan {
    let (_, mut fit) = three();
    fit[0] = ParamValue::Float((number % 16) as f64 / 16.0);
    Plan::record(number, &row, &fit)
}

/// Plans of which none dominates another, all further out the greater `out` is.
fn front(numbers: impl IntoIterator<Item = u64>, out: f64) -> Vec<Plan> {
    let place = |(at, number): (u64, u64)| of_two(number, [out + at as f64, out + 9.0 - at as f64]);
    (0..).zip(numbers).map(place).collect()
}

/// Plans that stand between those of the front of 0: none dominates another.
fn beside(numbers: impl IntoIterator<Item = u64>) -> Vec<Plan> {
    let mut plans = front(numbers, 0.0);
    for plan in &mut plans {
        plan.values = vec![plan.values[0] + 0.5, plan.values[1] - 0.5];
    }
    plans
}

/// A session of size 4 in which the plans 1 to 4 wait and plan 5 has come.
fn four(seed: u64) -> Script {
    let mut script = Script::second(2, 4, seed, &three().0);
    script.come(1..=4);
    assert_eq!(script.waiting(), [0; 0]);
    script.breed(5, front(1..=4, 0.0));
    // A pool of the size is kept whole.
    assert_eq!(script.waiting(), [1, 2, 3, 4]);
    script
}

/// A session of several generations whose plans ask for a setting each, with
/// records drawn in one manner.
fn several(mix: &mut Mix, m: usize, size: u64, rows: u64, bounds: u64) -> Line {
    let (dimensions, _) = three();
    let mut opening = Opening::new(m, Some(size), None, mix.word());
    opening.edition = Edition::Second;
    opening.marks = marks(mix, m);
    let mut script = Script::new(opening);
    script.discover(0, &dimensions);
    for generation in 0..4 {
        let first = 1 + 100 * generation;
        let rest = if generation == 0 { first } else { first + 1 };
        let _ = script.calls(first + size - rest, rest, &any_dimension(), false, false);
        let mut records: Vec<Plan> = (first..first + size)
            .map(|number| Plan {
                number,
                values: row(mix, rows, m, (number - first) as usize, size as usize),
                constraints: constraints(mix, bounds),
                settings: fit_settings(mix, &dimensions),
            })
            .collect();
        mix.shuffle(&mut records);
        if generation % 2 == 1 {
            script.refused(first + 100, records, true, 10);
            records = Vec::new();
        }
        script.breed(first + 100, records);
    }
    script.line()
}

pub(super) fn session_cases() -> Vec<Line> {
    let (dimensions, fit) = three();
    let mut lines = Vec::new();

    // Openings: 3, 4 and 5; size 0 is 4 plans, and nobody waits.
    let good = Opening::new(2, Some(4), Some(3), 1).but(|o| o.edition = Edition::Second);
    let openings = [
        good.but(|o| o.size = Some(1025)),
        good.but(|o| o.divisions = Some(200)),
        good.but(|o| o.operators.probability = f64::NAN),
        good.but(|o| (o.size, o.divisions) = (Some(0), None)),
    ];
    for opening in openings {
        let mut script = Script::new(opening);
        script.discover(3, &dimensions[..1]);
        let _ = script.call(4, true);
        lines.push(script.line());
    }

    // Three generations: the second splits a front of parents and children, and
    // of the third all are kept before any parent.
    let mut script = four(1);
    script.come(6..=8);
    script.breed(9, beside(5..=8));
    script.come(10..=12);
    script.breed(13, front(9..=12, -20.0));
    assert_eq!(script.waiting(), [9, 10, 11, 12]);
    script.come(14..=16);
    // The children are all worse: the parents stay.
    script.breed(17, front(13..=16, 20.0));
    assert_eq!(script.waiting(), [9, 10, 11, 12]);
    lines.push(script.line());

    // The numbers of waiting plans come again: their records, by which they
    // would be best, are left out of the pool, and no later plan takes their
    // place. A plan of the generation past the first size is not looked at.
    let mut script = four(2);
    script.come([2, 6, 3, 7]);
    let mut records = front([2, 3, 7], -20.0);
    records.extend(front([5, 6], 20.0));
    script.breed(8, records);
    assert_eq!(script.waiting(), [1, 2, 3, 4]);
    lines.push(script.line());

    // A waiting plan's record is changed, for the better and for the worse: it
    // stays as it was when it was bred from.
    let mut script = four(3);
    script.come(6..=8);
    let mut records = beside(5..=8);
    records.extend(front([1, 2], -20.0));
    records.extend(front([3, 4], 20.0));
    script.breed(9, records);
    assert!(script.waiting() != [1, 2, 3, 4]);
    script.come(10..=12);
    script.breed(13, front(9..=12, -0.25));
    lines.push(script.line());

    // All of the first size are left out: as their records are there, the next
    // call breeds, from the waiting plans alone. Of the generation after that
    // all but one are.
    let mut script = four(4);
    script.come([6, 7, 8]);
    script.breed(4, front(5..=8, 20.0));
    assert_eq!(script.waiting(), [1, 2, 3, 4]);
    script.come([3, 2, 1]);
    script.breed(9, front([9], -20.0));
    assert_eq!(script.waiting(), [1, 2, 3, 4]);
    script.come([3, 2, 1]);
    script.breed(2, Vec::new());
    assert!(script.waiting().contains(&9));
    script.come([10, 11, 12]);
    script.breed(13, beside([10, 11, 12]));
    lines.push(script.line());

    // One that is left out has to stand in history all the same; those that
    // wait need not.
    let mut script = four(5);
    script.come([1, 6, 7]);
    let handed = |records: Vec<Plan>| session::Call {
        times: 1,
        plan: 8,
        distribution: any_dimension(),
        short: false,
        keep: 0,
        copies: 1,
        records,
        full: true,
    };
    let mut records = beside(5..=7);
    assert!(script.raw(handed(records.clone())).is_ok());
    assert_eq!(script.generation(), 1);
    records.extend(front([1], 20.0));
    assert!(script.raw(handed(records)).is_ok());
    assert_eq!(script.generation(), 2);
    lines.push(script.line());

    // 8 and 9 look at the joined pool: not at a child that is left out, at a
    // later record of a waiting plan, or at a plan past the first size.
    let mut script = four(6);
    script.come([2, 6, 7, 8]);
    let nan = |number| Plan::record(number, &[f64::NAN, 1.0], &[ParamValue::Float(1.5)]);
    let one_value = Plan::record(6, &[1.0], &fit);
    let other_kind = Plan::record(6, &[1.0, 8.5], &[ParamValue::Int(0)]);
    let mut bad = vec![nan(2), nan(3), nan(8), one_value];
    bad.extend(beside([5]));
    bad.push(of_two(7, [7.5, 2.5]));
    script.refused(9, bad, false, 8);
    script.refused(6, vec![other_kind], true, 9);
    script.refused(2, vec![of_two(6, [1.5, 8.0]), Plan::record(7, &[0.0, 0.0], &[fit[1].clone()])], false, 9);
    script.refused(9, vec![of_two(7, [7.5, 2.5])], true, 10);
    script.breed(9, Vec::new());
    lines.push(script.line());

    // Over 16 constraints meet 8 and too many settings 9, of a child of the
    // second generation; of one that is left out they pass.
    let mut script = four(7);
    script.come([6, 1, 7]);
    let mut records = beside([5, 6, 1, 7]);
    records[1].constraints = vec![-1.0; 17];
    records[2].constraints = vec![-1.0; 17];
    records[2].settings = so_many_settings(MAX_SETTINGS + 1);
    script.refused(8, records, false, 8);
    let mut record = of_two(6, [0.25, 9.25]);
    record.settings = so_many_settings(MAX_SETTINGS + 1);
    script.refused(8, vec![record.clone()], false, 9);
    record.settings.clear();
    script.breed(8, vec![record]);
    lines.push(script.line());

    // The discovery's plan does not wait, whatever its record; its number may
    // come again and then be a plan like any other.
    let mut script = Script::second(2, 4, 8, &dimensions);
    script.come(1..=4);
    let mut records = front(1..=4, 0.0);
    records.extend(front([0], -20.0));
    script.breed(5, records);
    assert_eq!(script.waiting(), [1, 2, 3, 4]);
    script.come([0, 6, 7]);
    script.breed(8, front(5..=7, 20.0));
    assert_eq!(script.waiting()[0], 0);
    lines.push(script.line());

    // Settings that a waiting plan lacks are drawn each time it is bred from.
    let mut script = Script::second(2, 4, 9, &dimensions);
    for generation in 0..3 {
        let first = 1 + 4 * generation;
        script.come(if generation == 0 { first..=first + 3 } else { first + 1..=first + 3 });
        let mut records = front(first..=first + 3, 20.0 * generation as f64);
        for (at, record) in records.iter_mut().enumerate() {
            record.settings.truncate(at);
        }
        script.breed(first + 4, records);
        assert_eq!(script.waiting(), [1, 2, 3, 4]);
    }
    lines.push(script.line());

    // 2,048 plans have come, waiting ones' numbers among them: the next new one
    // gets 11.
    let mut script = four(10);
    let _ = script.calls(2047, 3, &any_dimension(), false, false);
    script.come([2050]);
    assert_eq!(script.call(2051, false).err(), Some(11));
    assert_eq!(script.call(1, false).err(), Some(11));
    script.come([4]);
    script.breed(1, beside([5, 6]));
    lines.push(script.line());

    // A history above 4,096 meets 7, before what a plan bred from has; 4,096
    // records are bred from.
    let mut script = four(11);
    script.come(6..=8);
    let mut wrong = beside(5..=8);
    wrong[2].values[0] = f64::NAN;
    for (copies, records, refused) in [(1025, wrong, Some(7)), (1024, beside(5..=8), None)] {
        let answer = script.raw(session::Call {
            copies,
            ..handed(records)
        });
        assert_eq!(answer.err(), refused);
    }
    assert_eq!(script.generation(), 2);
    lines.push(script.line());

    // Sizes odd and even, one to three objectives, with constraints and without.
    let mut mix = Mix(3);
    for (m, size, rows, bounds) in [(2, 5, 9, 0), (3, 7, 1, 2), (3, 8, 0, 4), (1, 6, 9, 3), (2, 12, 5, 0)] {
        lines.push(several(&mut mix, m, size, rows, bounds));
    }

    // Ranks: the first generation, whose pool is alike in both editions, is kept
    // whole in both and bred from otherwise. In the second, a front of infeasible
    // plans is split.
    let [first, mut second] = [Edition::First, Edition::Second].map(pressed_session);
    assert_ne!(first.state(), second.state(), "the editions part");
    second.come(6..=8);
    let mut records = front(5..=8, -30.0);
    for record in &mut records {
        record.constraints = vec![0.125];
    }
    second.breed(9, records);
    assert_eq!(second.waiting()[..2], [3, 4]);
    lines.push(second.line());

    // Burst hoses: what the infeasible plans' rows are changes neither the plans
    // that wait nor the state.
    let [absurd, other] = [1, 2].map(burst_session);
    assert_eq!(absurd.report(), other.report());
    lines.push(absurd.line());
    lines
}

/// A session of size 4 whose second and third generation are bred from a feasible
/// front that is split, beside infeasible plans with absurd rows.
fn burst_session(seed: u64) -> Script {
    let mut mix = Mix(seed);
    let mut script = four(13);
    script.come(6..=8);
    let mut records = beside(5..=8);
    for at in [1, 3] {
        records[at].constraints = vec![1.0];
    }
    hopeless::burst(&mut mix, &mut records);
    script.breed(9, records);
    script.come(10..=12);
    let mut records = front(9..=12, 0.0);
    records[0].constraints = vec![-1.0, tiniest()];
    hopeless::burst(&mut mix, &mut records);
    script.breed(13, records);
    assert_eq!(script.opened().bred().split, 2, "both split a front");
    script
}

/// A session of size 4 that has bred once, from infeasible plans with the better
/// rows beside feasible ones.
pub(super) fn pressed_session(edition: Edition) -> Script {
    let opening = Opening::new(2, Some(4), None, 12);
    let mut script = Script::new(opening.but(|o| o.edition = edition));
    script.discover(0, &three().0);
    script.come(1..=4);
    let mut records = front([1, 2], -20.0);
    records.extend(front([3, 4], 0.0));
    records[0].constraints = vec![0.5, -1.0];
    records[1].constraints = vec![0.25, 0.5];
    script.breed(5, records);
    script
}

/// A call that hands out a setting or breeds; `come` has the generation's plans.
fn ask(script: &mut Script, come: &mut Vec<u64>, plan: u64, short: bool, full: bool) {
    let generation = script.generation();
    let answer = script.calls(1, plan, &any_dimension(), short, full);
    if script.generation() > generation {
        come.clear();
    }
    if answer.is_ok() && !come.contains(&plan) {
        come.push(plan);
    }
}

pub(super) fn session_input(mix: &mut Mix, at: u64) -> Line {
    let m = objectives(at);
    let divisions = mix.once_in(3).then(|| divisions(mix, m, 12));
    let size = match divisions {
        // Size from the table.
        Some(_) if mix.once_in(2) => None,
        _ => Some(mix.within(0, 9)),
    };
    let mut opening = Opening::new(m, size, divisions, mix.word());
    opening.edition = Edition::Second;
    opening.marks = marks(mix, m);
    opening.operators = operators(mix);
    let mut script = Script::new(opening);

    let first = mix.below(1000);
    let count = mix.within(1, 3) as usize;
    let dimensions = dimensions(mix, count);
    script.discover(first, &dimensions);
    let rows = mix.pick(&[0, 0, 1, 1, 2, 3, 4, 5, 5, 6, 8, 9, 9, 10]);
    let bounds = mix.pick(&[0, 0, 0, 2, 2, 3, 4, 5, 6]);

    let (mut come, mut number) = (Vec::new(), first + 1);
    ask(&mut script, &mut come, number, false, true);
    for _ in 0..mix.within(2, 3) {
        // Plans up to the size and sometimes more: new ones, and some or all of
        // those whose numbers wait.
        let size = script.size() as usize;
        let mut plans = script.waiting();
        mix.shuffle(&mut plans);
        plans.truncate(mix.pick(&[0, 0, 1, 2, size]));
        plans.retain(|plan| !come.contains(plan));
        let wanted = size + mix.pick(&[0, 0, 0, 1, 2]);
        while come.len() + plans.len() < wanted {
            number += mix.within(1, 2);
            plans.push(number);
        }
        mix.shuffle(&mut plans);
        for plan in plans {
            ask(&mut script, &mut come, plan, false, false);
        }

        // Their records, out of order; of plans that wait some are changed, or
        // are such as 8 would turn down.
        let mut records: Vec<Plan> = Vec::new();
        for (i, &number) in come.iter().enumerate() {
            records.push(Plan {
                number,
                values: row(mix, rows, m, i, come.len()),
                constraints: constraints(mix, bounds),
                settings: fit_settings(mix, &dimensions),
            });
        }
        // Of some sessions the infeasible plans have absurd rows.
        if at % 10 >= 8 {
            hopeless::burst(mix, &mut records);
        }
        mix.shuffle(&mut records);
        for plan in script.waiting() {
            if mix.once_in(4) && !come.contains(&plan) {
                let mut changed = mix.pick(&records);
                changed.number = plan;
                if mix.once_in(3) {
                    changed.values[0] = f64::NAN;
                }
                records.push(changed);
            }
        }
        // A wrong record first, and its correction: where its plan waits, the
        // call breeds.
        number += 1;
        if mix.once_in(3) {
            let right = mix.pick(&records);
            let mut wrong = right.clone();
            match mix.below(4) {
                0 => wrong.values.push(0.0),
                1 => wrong.values[0] = f64::INFINITY,
                2 => wrong.settings = vec![(1, 0, 0), (1, 0, 0)],
                _ => wrong.constraints = vec![0.0; 17],
            }
            records.push(wrong);
            script.fresh = std::mem::take(&mut records);
            ask(&mut script, &mut come, number, false, true);
            records.push(right);
        }
        script.fresh = records;
        if mix.once_in(4) {
            ask(&mut script, &mut come, number, true, false);
        }
        ask(&mut script, &mut come, number, false, true);
    }
    script.line()
}

// ---------------------------------------------------------------------------
// Inputs too long to be stored
// ---------------------------------------------------------------------------

/// A selection from 1,025 to 2,048 plans.
pub(super) fn wide_input(mix: &mut Mix, at: u64) -> Line {
    let m = objectives(at);
    let n = mix.within(1025, 2048) as usize;
    let h = divisions(mix, m, 1024);
    let pool = pool(mix, m, n);
    let mut call = second(&Call::new(m, h, mix.within(1, 1024), mix.word(), pool));
    call.marks = marks(mix, m);
    // Two times in three a size that splits a front, where one within the limit does.
    if !mix.once_in(3)
        && let Some(size) = splitting_size(mix, &call)
    {
        call.size = size.min(1024);
    }
    call.select()
}

/// Pools of 1,025 to 2,048 plans, and one plan more; a session of 1,024 plans
/// whose second generation is bred from 2,048.
pub(super) fn large_cases() -> Vec<Line> {
    let mut mix = Mix(13);
    let mut lines = Vec::new();
    for (m, n, rows) in [(1, 1025, 9), (2, 2048, 5), (3, 2048, 1), (5, 1500, 9), (8, 2047, 1)] {
        let mut pool: Vec<Plan> = (0..n)
            .map(|at| plan(&row(&mut mix, rows, m, at, n), &constraints(&mut mix, 2)))
            .collect();
        for plan in pool.iter_mut().take(n / 4 * 3) {
            plan.constraints.clear();
        }
        let most = refusals::most_divisions(m, 1024);
        let call = second(&Call::new(m, most, 1024, mix.word(), pool));
        lines.push(call.select());
        lines.push(call.but(|c| c.size = 1000 - 3 * m as u64).select());
        // Past the first edition's limit, and past this one's.
        lines.push(call.but(|c| c.edition = Edition::First).select());
        lines.push(call.but(|c| c.pool.resize(2049, c.pool[0].clone())).select());
    }
    let dimensions = [float(0.0, 1.0), int(0, 9, Some(2))];
    let pool = (0..2048).map(|at| plan(&row(&mut mix, 1, 3, at, 2048), &[])).collect();
    let step = second(&bred(Call::new(3, 12, 777, 5, pool), &dimensions, &mut mix));
    lines.push(step.step());
    lines.push(step.but(|c| c.edition = Edition::First).step());
    lines.push(step.but(|c| c.pool.push(c.pool[0].clone())).step());

    let size = 1024;
    let mut script = Script::second(2, size, 3, &dimensions);
    for generation in 0..3 {
        let first = 1 + 2000 * generation;
        let rest = if generation == 0 { first } else { first + 1 };
        let _ = script.calls(first + size - rest, rest, &any_dimension(), false, true);
        let mut records: Vec<Plan> = (first..first + size)
            .map(|number| {
                let settings = [ParamValue::Float(0.25)];
                Plan::record(number, &row(&mut mix, 1, 2, 0, 1), &settings)
            })
            .collect();
        mix.shuffle(&mut records);
        script.breed(first + 2000, records);
    }
    assert_eq!(script.generation(), 3);
    lines.push(script.line());
    lines
}
