//! Inputs of the record session.

use super::breeding::*;
use super::*;

/// A session as it is written down; its calls run on the way, so that later
/// calls can use what the earlier ones answered.
pub(super) struct Script {
    pub(super) opening: Opening,
    pub(super) session: Option<Session>,
    pub(super) calls: Vec<session::Call>,
    pub(super) dimensions: Vec<Distribution>,
    /// Records that the next call hands in beside the history so far.
    pub(super) fresh: Vec<Plan>,
}

impl Script {
    pub(super) fn new(opening: Opening) -> Self {
        let session = Session::open(&opening).ok();
        Script {
            opening,
            session,
            calls: Vec::new(),
            dimensions: Vec::new(),
            fresh: Vec::new(),
        }
    }

    /// `times` calls, the plan number rising; answers the last one's.
    pub(super) fn calls(
        &mut self,
        times: u64,
        plan: u64,
        dimension: &Distribution,
        short: bool,
        full: bool,
    ) -> Result<ParamValue, u64> {
        let keep = self.session.as_ref().map_or(0, |s| s.history().len());
        let records = std::mem::take(&mut self.fresh);
        self.raw(session::Call {
            times,
            plan,
            distribution: dimension.clone(),
            short,
            keep,
            copies: 1,
            records,
            full,
        })
    }

    /// The same with its own history.
    pub(super) fn raw(&mut self, call: session::Call) -> Result<ParamValue, u64> {
        let answer = match self.session.as_mut() {
            Some(session) => session.calls(&call).expect("the history is that long"),
            None => Err(0),
        };
        self.calls.push(call);
        answer
    }

    pub(super) fn call(&mut self, plan: u64, full: bool) -> Result<ParamValue, u64> {
        self.calls(1, plan, &any_dimension(), false, full)
    }

    pub(super) fn discover(&mut self, plan: u64, dimensions: &[Distribution]) {
        for (at, dimension) in dimensions.iter().enumerate() {
            let full = at + 1 == dimensions.len();
            if self.calls(1, plan, dimension, false, full).is_ok() {
                self.dimensions.push(dimension.clone());
            }
        }
    }

    pub(super) fn size(&self) -> u64 {
        self.session
            .as_ref()
            .map_or(0, |s| s.sampler.state.lock().evo.population_size as u64)
    }

    pub(super) fn line(&self) -> Line {
        let mut line = Vec::new();
        self.opening.write(&mut line);
        line.push(self.calls.len() as u64);
        for call in &self.calls {
            call.write(&mut line);
        }
        line
    }
}

pub(super) fn session_cases() -> Vec<Line> {
    let unit = float(0.0, 1.0);
    let mut lines = Vec::new();

    // Openings that are turned down, and some that just are not.
    let good = Opening::new(2, Some(4), Some(3), 1);
    let openings = [
        good.but(|o| o.marks = Vec::new()),
        good.but(|o| {
            o.marks = vec![0; 9];
            o.size = Some(2000);
        }),
        good.but(|o| o.marks = vec![0, 2]),
        good.but(|o| o.size = Some(1025)),
        good.but(|o| o.size = Some(1024)),
        good.but(|o| (o.size, o.divisions) = (Some(0), None)),
        good.but(|o| o.divisions = Some(0)),
        good.but(|o| o.divisions = Some(200)),
        Opening::new(3, Some(991), None, 1),
        Opening::new(3, Some(990), None, 1),
        Opening::new(8, Some(793), None, 1),
        good.but(|o| o.operators.crossover_eta = 0.5),
        good.but(|o| {
            o.operators.mutation_eta = 100.0;
            o.short = true;
        }),
        good.but(|o| o.operators.probability = f64::NAN),
        good.but(|o| {
            o.operators.probability = -0.0;
            o.operators.crossover_eta = -0.0;
        }),
        good.but(|o| o.short = true),
    ];
    for opening in openings {
        let mut script = Script::new(opening);
        let _ = script.calls(1, 3, &unit, false, true);
        lines.push(script.line());
    }

    // Size 0 is accepted: 4 plans. Beyond the last dimension the last one is
    // drawn from, and next_dim stops.
    let mut script = Script::new(Opening::new(2, Some(0), None, 9));
    script.discover(0, &[unit.clone(), int(0, 20, Some(5))]);
    for _ in 0..4 {
        let _ = script.call(1, true);
    }
    lines.push(script.line());

    // Each dimension that is turned down; the first plan number stays open.
    let mut script = Script::new(good.clone());
    for (at, dimension) in bad_dimensions().iter().enumerate() {
        let _ = script.calls(1, at as u64, dimension, false, at == 0);
    }
    let _ = script.calls(1, 77, &unit, true, false);
    script.discover(99, &[choices(2)]);
    for (at, dimension) in bad_dimensions().iter().enumerate() {
        let _ = script.calls(1, 99, dimension, false, at == 0);
    }
    // Once another plan comes, the distribution is not looked at.
    for dimension in bad_dimensions().iter().take(3) {
        let _ = script.calls(1, 100, dimension, false, true);
    }
    lines.push(script.line());

    // One dimension too many.
    let mut script = Script::new(good.clone());
    for _ in 0..MAX_DIMENSIONS {
        let _ = script.calls(1, 5, &choices(2), false, false);
    }
    let _ = script.calls(1, 5, &choices(2), false, true);
    let _ = script.call(6, true);
    lines.push(script.line());

    // One setting too many: 9 for a plan that is bred from, and for no other
    // record; as many as there may be pass.
    let mut script = Script::new(good.clone());
    script.discover(0, &[unit.clone(), int(0, 9, None)]);
    let record = |number: u64, count: usize| {
        let mut record = Plan::record(number, &[number as f64, 9.0 - number as f64], &[]);
        record.settings = so_many_settings(count);
        record
    };
    let _ = script.calls(4, 1, &any_dimension(), false, false);
    script.fresh = vec![record(9, MAX_SETTINGS + 1), record(1, MAX_SETTINGS), record(2, 2), record(3, 2)];
    let _ = script.call(5, true);
    script.fresh = vec![record(4, MAX_SETTINGS + 1)];
    let _ = script.call(5, true);
    script.fresh = vec![record(4, MAX_SETTINGS)];
    let _ = script.call(5, true);
    lines.push(script.line());

    // 2,048 plans open: the next new number gets 11, a known one does not;
    // breeding frees all of them.
    let mut script = Script::new(good.clone());
    script.discover(0, &[choices(3)]);
    let _ = script.calls(2048, 1, &any_dimension(), false, false);
    let _ = script.call(2049, false);
    let _ = script.call(2048, false);
    let _ = script.calls(1, 2049, &any_dimension(), true, false);
    script.fresh = (1..=4)
        .map(|n| {
            Plan::record(
                n,
                &[n as f64, 4.0 - n as f64],
                &[ParamValue::Categorical(1)],
            )
        })
        .collect();
    let _ = script.call(2049, true);
    lines.push(script.line());

    // A history above 4,096 meets 7 on every call, discovery included; 4,096
    // records pass.
    let mut script = Script::new(good.clone());
    let any = [Plan::record(1, &[], &[])];
    for (plan, keep, copies, records, full) in [
        (0, 0, 4097, &any[..], true),
        (0, 4096, 0, &[], true),
        (1, 4096, 1, &any, false),
        (1, 0, 0, &[], true),
    ] {
        let _ = script.raw(session::Call {
            times: 1,
            plan,
            distribution: choices(3),
            short: false,
            keep,
            copies,
            records: records.to_vec(),
            full,
        });
    }
    lines.push(script.line());

    // Three generations by hand: records out of order and repeated, the last
    // of a number counting; a bad plan refuses every call until a later
    // record corrects it; a known plan's call breeds and starts it over.
    let mut script = Script::new(Opening::new(2, Some(4), Some(3), 42));
    script.discover(10, &[unit.clone(), int(0, 9, None), choices(3)]);
    let fit = [
        ParamValue::Float(0.5),
        ParamValue::Int(3),
        ParamValue::Categorical(2),
    ];
    for plan in [20, 21, 22] {
        for _ in 0..3 {
            let _ = script.call(plan, false);
        }
    }
    // Only three of four stand in history.
    script.fresh = vec![
        Plan::record(22, &[9.0, 9.0], &fit),
        Plan::record(20, &[1.0, 3.0], &fit),
        Plan::record(21, &[2.0, 2.0], &fit[..2]),
        Plan::record(22, &[0.0, 4.0], &fit),
    ];
    let _ = script.call(23, true);
    let _ = script.call(24, true);
    let bad_row = Plan::record(23, &[1.0], &fit);
    let bad_setting = Plan::record(23, &[3.0, 1.0], &[ParamValue::Float(1.5)]);
    script.fresh = vec![bad_row];
    let _ = script.call(23, true);
    script.fresh = vec![bad_setting.clone()];
    let _ = script.call(30, true);
    let _ = script.calls(1, 30, &any_dimension(), true, false);
    let mut nan = Plan::record(23, &[3.0, f64::NAN], &fit);
    nan.settings = bad_setting.settings;
    script.fresh = vec![nan];
    let _ = script.call(24, false);
    script.fresh = vec![Plan::record(23, &[3.0, 1.0], &fit)];
    let _ = script.calls(1, 23, &any_dimension(), true, false);
    let _ = script.call(23, true);
    for plan in [10, 24, 25, 26] {
        let _ = script.call(plan, false);
    }
    script.fresh = [25, 24, 10, 23, 26]
        .iter()
        .map(|&n| Plan::record(n, &[n as f64, 40.0 - n as f64], &fit))
        .collect();
    let _ = script.call(27, true);
    lines.push(script.line());

    // Infeasible plans with the better rows, as in edition 2's cases.
    lines.push(super::second::pressed_session(Edition::First).line());
    lines
}

pub(super) fn session_input(mix: &mut Mix, at: u64) -> Line {
    let m = objectives(at);
    let many = at % 16 == 9;
    let divisions = mix.once_in(4).then(|| divisions(mix, m, 9));
    let size = match divisions {
        // Size from the table.
        Some(h) if mix.once_in(2) && refusals::lines(m, h) <= 9 => None,
        _ if many => Some(4),
        _ => Some(mix.below(7)),
    };
    let mut opening = Opening::new(m, size, divisions, mix.word());
    opening.marks = marks(mix, m);
    opening.operators = operators(mix);
    let mut script = Script::new(opening);

    // Discovery, with a refused dimension now and then.
    let first = mix.below(1000);
    if mix.once_in(4) {
        let bad = mix.pick(&bad_dimensions());
        let _ = script.calls(1, first + 1, &bad, false, true);
    }
    let count = if many { MAX_DIMENSIONS } else { mix.within(1, 4) as usize };
    let dimensions = dimensions(mix, count);
    script.discover(first, &dimensions);
    if many {
        let _ = script.calls(1, first, &choices(2), false, false);
    }

    let generations = if many { 1 } else { mix.within(2, 3) };
    let mut number = first + 1;
    let row_flavour = mix.below(ROW_FLAVOURS);
    let constraint_flavour = mix.below(CONSTRAINT_FLAVOURS);
    for generation in 0..generations {
        // Plans up to the size and sometimes more; each asks for its settings,
        // sometimes for fewer or for more than there are dimensions.
        let mut open: Vec<(u64, Vec<ParamValue>)> = Vec::new();
        let mut wanted = None;
        while wanted.is_none_or(|w| (open.len() as u64) < w) {
            let mut answered = Vec::new();
            let asks = match mix.below(8) {
                0 => 1,
                1 => count as u64 + 2,
                _ => count as u64,
            };
            for ask in 0..asks {
                // The distribution is not looked at any more, fit or not.
                let passed = match mix.below(12) {
                    0 => mix.pick(&bad_dimensions()),
                    1 => dimension(mix),
                    _ => any_dimension(),
                };
                let full = open.is_empty() && ask == 0;
                if let Ok(value) = script.calls(1, number, &passed, false, full)
                    && answered.len() < count
                {
                    answered.push(value);
                }
            }
            open.push((number, answered));
            number += mix.within(1, 3);
            if wanted.is_none() {
                wanted = Some(script.size() + mix.pick(&[0, 0, 1, 3]));
            }
        }
        if generation + 1 == generations && !many && !mix.once_in(2) {
            break;
        }

        // Their records: out of order, some twice, some of other plans.
        let mut records: Vec<Plan> = open
            .iter()
            .enumerate()
            .map(|(i, (number, answered))| Plan {
                number: *number,
                values: row(mix, row_flavour, m, i, open.len()),
                constraints: constraints(mix, constraint_flavour),
                settings: settings(mix, answered, count),
            })
            .collect();
        mix.shuffle(&mut records);
        if mix.once_in(2) {
            let mut earlier = mix.pick(&records);
            earlier.values = row(mix, 0, m, 0, 1);
            records.insert(0, earlier);
        }
        if mix.once_in(3) {
            let mut other = mix.pick(&records);
            other.number = number + 500;
            records.push(other);
        }
        // Handed in at once or in two calls.
        let (early, late) = records.split_at(mix.place(records.len()));
        if !early.is_empty() {
            script.fresh = early.to_vec();
            let known = open[0].0;
            let _ = script.call(known, false);
        }
        script.fresh = late.to_vec();
        // A wrong record first, and its correction.
        if mix.once_in(3) {
            let mut wrong = mix.pick(late);
            let right = wrong.clone();
            match mix.below(4) {
                0 => wrong.values.push(0.0),
                1 => wrong.values[0] = f64::NAN,
                2 => wrong.settings = vec![(1, 0, 0), (1, 0, 0)],
                _ => wrong.constraints = vec![0.0; 17],
            }
            script.fresh.push(wrong);
            let _ = script.call(number, true);
            script.fresh.push(right);
        }
        if mix.once_in(4) {
            let _ = script.calls(1, number, &any_dimension(), true, false);
        }
        // A known plan's call can breed too, and so can the first plan's.
        match mix.below(6) {
            0 => number = open[0].0,
            1 if generation == 0 => {
                let _ = script.call(first, true);
            }
            _ => {}
        }
    }
    let _ = script.call(number + 1, true);
    script.line()
}
