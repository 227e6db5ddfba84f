//! Inputs of the record setting and dimension, generation steps included.

use super::kept::*;
use super::numbers::*;
use super::*;
use crate::answers::push_settings;

pub(super) fn sample_random(state: u64, dimension: &Distribution) -> Line {
    let mut line = vec![80, state];
    plans::write_dimension(&mut line, dimension);
    line
}

pub(super) fn extract(
    state: u64,
    dimensions: &[Distribution],
    settings: &[(u64, u64, u64)],
) -> Line {
    let mut line = vec![81, state];
    write_dimensions(&mut line, dimensions);
    let plan = Plan {
        settings: settings.to_vec(),
        ..plan(&[], &[])
    };
    plan.write(&mut line);
    line
}

pub(super) fn crossover(
    state: u64,
    probability: f64,
    eta: f64,
    dimensions: &[Distribution],
    first: &[ParamValue],
    second: &[ParamValue],
) -> Line {
    let mut line = vec![82, state, of_real(probability), of_real(eta)];
    write_dimensions(&mut line, dimensions);
    push_settings(&mut line, first);
    push_settings(&mut line, second);
    line
}

pub(super) fn mutate(
    state: u64,
    eta: f64,
    dimensions: &[Distribution],
    settings: &[ParamValue],
) -> Line {
    let mut line = vec![84, state, of_real(eta)];
    write_dimensions(&mut line, dimensions);
    push_settings(&mut line, settings);
    line
}

/// sbx (83) or polynomial mutation (85): state, reals, eta last.
pub(super) fn leaf(command: u64, state: u64, reals: &[f64]) -> Line {
    let mut line = vec![command, state];
    push_reals(&mut line, reals);
    line
}

/// A generation step whose plans have settings.
pub(super) fn bred(mut call: Call, dimensions: &[Distribution], mix: &mut Mix) -> Call {
    call.dimensions = dimensions.to_vec();
    for plan in &mut call.pool {
        plan.settings = fit_settings(mix, dimensions);
    }
    call
}

pub(super) fn breeding_cases() -> Vec<Line> {
    let half = 1_u64 << 51;
    let f = ParamValue::Float;
    let i = ParamValue::Int;
    let c = ParamValue::Categorical;
    let unit = float(0.0, 1.0);
    let quarters = |state, probability| {
        let dimensions = std::slice::from_ref(&unit);
        crossover(state, probability, 2.0, dimensions, &[f(0.25)], &[f(0.75)])
    };
    let mut lines = vec![
        sample_random(1, &unit),
        sample_random(before_draw(LAST), &float(1.0, next(1.0))),
        sample_random(1, &int(0, 10, Some(3))),
        sample_random(before_word(3), &int(0, 10, Some(3))),
        sample_random(1, &int(0, 10, Some(11))),
        sample_random(1, &int(-FAR, FAR, None)),
        sample_random(before_word(u64::MAX), &int(-FAR, FAR, Some(1))),
        sample_random(1, &int(4, 4, Some(2))),
        sample_random(1, &choices(1)),
        sample_random(1, &choices(65536)),
        // By parameter number, not as they arrive; extra ones are ignored.
        extract(
            1,
            &[unit.clone(), int(0, 9, None)],
            &[(8, 1, 4), (2, 0, of_real(0.5)), (9, 2, 1)],
        ),
        // Missing ones are drawn.
        extract(
            1,
            &[unit.clone(), int(0, 9, None), choices(3)],
            &[(u64::MAX, 0, of_real(0.25))],
        ),
        extract(1, &[unit.clone()], &[]),
        extract(1, &[], &[(3, 2, 1)]),
        // P11: probability 0 and draw 0, crossover runs.
        quarters(before_draw(0), 0.0),
        quarters(before_draw(1), 0.0),
        quarters(before_draw(0), -0.0),
        // A draw that equals the probability runs too.
        quarters(before_draw(half), 0.5),
        // No dimension: one word.
        crossover(1, 1.0, 30.0, &[], &[], &[]),
        // Closer than 1e-14, and just 1e-14 apart.
        crossover(1, 1.0, 30.0, &[unit.clone()], &[f(0.0)], &[f(9e-15)]),
        crossover(1, 1.0, 30.0, &[unit.clone()], &[f(0.0)], &[f(1e-14)]),
        // Equal Ints take no draw; Categorical pairs always one.
        crossover(
            1,
            1.0,
            0.0,
            &[int(0, 9, None), choices(3), int(0, 9, Some(2))],
            &[i(3), c(0), i(2)],
            &[i(3), c(2), i(7)],
        ),
        crossover(1, 1.0, 30.0, &[int(-FAR, FAR, None)], &[i(-FAR)], &[i(FAR)]),
        mutate(1, 20.0, &[], &[]),
        mutate(1, 20.0, &[unit.clone()], &[f(0.5)]),
        mutate(1, 20.0, &[choices(1)], &[c(0)]),
        // A degenerate range draws and stays.
        mutate(
            1,
            20.0,
            &[float(2.5, 2.5), int(4, 4, None)],
            &[f(2.5), i(4)],
        ),
        mutate(3, 0.0, &[int(-FAR, FAR, None)], &[i(FAR)]),
        vec![86, 4, 1, 0],
        vec![86, 4, 3, 2, 1, 1],
        vec![86, before_word(1), 4, 0, 3, 1, 2],
    ];
    for eta in [0.0, 30.0, 99.0] {
        for k in [0, 1, half - 1, half, half + 1, LAST] {
            lines.push(leaf(83, before_draw(k), &[0.25, 0.75, 0.0, 1.0, eta]));
            lines.push(leaf(85, before_draw(k), &[0.25, 0.0, 1.0, eta]));
        }
        lines.push(leaf(85, before_draw(0), &[0.0, 0.0, 1.0, eta]));
        lines.push(leaf(85, before_draw(0), &[1.0, 0.0, 1.0, eta]));
        lines.push(leaf(85, before_draw(LAST), &[1.0, 0.0, 1.0, eta]));
        lines.push(leaf(85, before_draw(LAST), &[0.0, 0.0, 1.0, eta]));
    }
    lines.extend([
        leaf(85, 1, &[2.5, 2.5, 2.5, 20.0]),
        // The clamp leaves -0.0 where low is +0.0.
        leaf(83, before_draw(half), &[-0.0, -0.0, 0.0, 1.0, 30.0]),
        leaf(
            83,
            before_draw(LAST),
            &[-two(53), two(53), -two(53), two(53), 0.0],
        ),
        leaf(
            83,
            before_draw(LAST),
            &[two(53), 1.0, -two(53), two(53), 0.0],
        ),
        leaf(85, 1, &[tiniest(), 0.0, f64::from_bits(5), 20.0]),
    ]);

    // The generation step: what it accepts at its edges.
    let mut mix = Mix(1);
    let two_dimensions = [unit.clone(), int(0, 9, None)];
    let good = bred(listing().but(|c| c.size = 3), &two_dimensions, &mut mix);
    let alone = good.but(|c| c.pool.truncate(1));
    let mut calls = vec![
        good.clone(),
        good.but(|c| c.size = 2),
        good.but(|c| c.size = 1),
        good.but(|c| c.size = 5),
        // No dimension at all.
        good.but(|c| c.dimensions.clear()),
        // A pool of one: all drawn, nothing kept.
        alone.clone(),
        alone.but(|c| c.size = 1),
        alone.but(|c| c.dimensions.clear()),
        good.but(|c| c.operators.crossover_eta = -0.0),
        good.but(|c| c.operators.mutation_eta = 99.0),
        good.but(|c| c.operators.probability = -0.0),
        // Ranks look at rows only: the infeasible plan 0 wins tournaments.
        good.but(|c| c.pool[0].constraints = vec![1.0]),
    ];
    // What it turns down: 5, 6, 9 and the order of them.
    let wrong_setting = |c: &mut Call| c.pool[1].settings = vec![(0, 0, of_real(1.5))];
    calls.extend([
        good.but(|c| c.operators.crossover_eta = 0.5),
        good.but(|c| c.operators.crossover_eta = 100.0),
        good.but(|c| c.operators.mutation_eta = -1.0),
        good.but(|c| c.operators.mutation_eta = f64::NAN),
        good.but(|c| c.operators.probability = next(1.0)),
        good.but(|c| c.operators.probability = -tiniest()),
        good.but(|c| c.operators.probability = f64::NAN),
        good.but(wrong_setting),
        alone.but(|c| c.pool[0].settings = vec![(0, 0, of_real(1.5))]),
        good.but(|c| {
            wrong_setting(c);
            c.pool[2].values[0] = f64::NAN;
        }),
        good.but(|c| {
            wrong_setting(c);
            c.short = true;
        }),
        good.but(|c| c.short = true),
        good.but(|c| c.pool[0].settings = vec![(0, 0, of_real(f64::NAN))]),
        good.but(|c| c.pool[0].settings = vec![(0, 1, 0)]),
        good.but(|c| c.pool[0].settings = vec![(0, 0, of_real(-0.0)), (1, 1, of_int(9))]),
        good.but(|c| c.pool[0].settings = vec![(0, 0, 0), (1, 1, of_int(10))]),
        good.but(|c| c.pool[0].settings = vec![(4, 0, 0), (4, 1, 0)]),
        // Past the last dimension only number and repeats count.
        good.but(|c| c.pool[0].settings = vec![(7, 2, 9), (0, 0, 0), (1, 1, 0)]),
        good.but(|c| c.pool[0].settings = vec![(7, 2, 9), (0, 0, 0), (1, 1, 0), (7, 2, 9)]),
        good.but(|c| c.pool[0].settings = so_many_settings(MAX_SETTINGS + 1)),
        good.but(|c| c.pool[0].settings = so_many_settings(MAX_SETTINGS)),
        // What document 01 still took.
        good.but(|c| c.pool[0].settings = so_many_settings(32)),
        good.but(|c| c.pool.clear()),
        good.but(|c| c.size = 0),
        // 2 and 4, and both before what comes later.
        good.but(|c| c.marks = vec![0, 2]),
        good.but(|c| c.marks = Vec::new()),
        good.but(|c| c.divisions = 0),
        good.but(|c| c.divisions = 200),
        good.but(|c| {
            c.divisions = 0;
            c.operators.probability = f64::NAN;
        }),
        good.but(|c| {
            c.marks = vec![0; 9];
            c.divisions = 0;
        }),
    ]);
    for dimension in bad_dimensions() {
        let mut call = good.clone();
        call.dimensions[1] = dimension;
        calls.push(call);
    }
    for count in [MAX_DIMENSIONS + 1, MAX_DIMENSIONS, 32] {
        calls.push(good.but(|c| {
            c.pool.truncate(2);
            for plan in &mut c.pool {
                plan.settings.clear();
            }
            c.dimensions = vec![choices(2); count];
        }));
    }
    calls.extend(pressed());
    lines.extend(calls.iter().map(Call::step));
    lines
}

/// Steps on which the editions part: ranks by rows and ranks of the constrained
/// fronts let other plans win tournaments.
pub(super) fn pressed() -> Vec<Call> {
    let rows: &[&[f64]] = &[&[0.0], &[1.0]];
    let chain: &[&[f64]] = &[&[2.0, 2.0], &[0.0, 0.0], &[1.0, 1.0]];
    let front: &[&[f64]] = &[&[0.0, 2.0], &[3.0, 3.0], &[1.0, 1.0], &[2.0, 4.0], &[4.0, 0.0]];
    let step = |rows: &[&[f64]], violations: &[f64], size, state| {
        let mut call = Call::new(rows[0].len(), 2, size, state, pool_of(rows));
        call.dimensions = vec![float(0.0, 1.0), choices(3)];
        for (at, (plan, &violation)) in call.pool.iter_mut().zip(violations).enumerate() {
            plan.constraints = vec![violation];
            let share = at as f64 / rows.len() as f64;
            plan.settings = vec![(0, 0, of_real(share)), (1, 2, at as u64 % 3)];
        }
        call
    };
    let calls = vec![
        // The infeasible plan has the better row.
        step(rows, &[1.0, -1.0], 2, 1),
        // So has the one of the greater violation.
        step(rows, &[1.0, 0.5], 2, 2),
        // Equal violations are one front, the rows a chain; the list is padded.
        step(chain, &[0.5; 3], 4, 3),
        // A front of infeasible plans is split, in which one row is better.
        step(front, &[0.25, -1.0, 0.25, 0.25, 0.0], 4, 4),
    ];
    for call in &calls {
        let other = call.but(|c| c.edition = Edition::Second);
        let [ranked, pressed] = [call, &other].map(answers::step);
        assert_eq!(ranked.kept, pressed.kept, "selection is the same");
        assert_ne!(bred_words(&ranked), bred_words(&pressed), "tournaments are not");
    }
    calls
}

fn bred_words(bred: &answers::Bred) -> Line {
    let mut line = Vec::new();
    for child in &bred.offspring {
        push_settings(&mut line, child);
    }
    line
}

/// Dimensions that meet refusal 6, each for one reason.
pub(super) fn bad_dimensions() -> Vec<Distribution> {
    let over = next(two(53));
    let full = |low, high, log_scale, step| {
        Distribution::Float(FloatDistribution {
            low,
            high,
            log_scale,
            step,
        })
    };
    vec![
        float(1.0, 0.0),
        float(f64::NAN, 1.0),
        float(0.0, f64::INFINITY),
        float(0.0, over),
        float(-over, 0.0),
        full(1.0, 2.0, true, None),
        // Log scale, whatever the step.
        full(1.0, 2.0, true, Some(0.125)),
        int(1, 0, None),
        int(0, FAR + 1, None),
        int(-FAR - 1, 0, None),
        int(0, 9, Some(0)),
        int(0, 9, Some(-1)),
        Distribution::Int(IntDistribution {
            low: 1,
            high: 2,
            log_scale: true,
            step: None,
        }),
        choices(0),
        choices(65537),
    ]
}

pub(super) fn breeding_input(mix: &mut Mix, at: u64) -> Line {
    let state = mix.word();
    let many = at % 20 == 19;
    let count = if many { MAX_DIMENSIONS } else { mix.within(1, 5) as usize };
    let dimensions = dimensions(mix, count);
    match at % 10 {
        0 => sample_random(state, &dimensions[0]),
        1 => {
            let settings = fit_settings(mix, &dimensions);
            extract(state, &dimensions, &settings)
        }
        2 | 3 => {
            let (first, second) = (values(mix, &dimensions), values(mix, &dimensions));
            crossover(
                state,
                probability(mix),
                eta(mix),
                &dimensions,
                &first,
                &second,
            )
        }
        4 => {
            let (low, high) = bounds(mix);
            let (p1, p2) = (between(mix, low, high), between(mix, low, high));
            leaf(83, state, &[p1, p2, low, high, eta(mix)])
        }
        5 => {
            let settings = values(mix, &dimensions);
            mutate(state, eta(mix), &dimensions, &settings)
        }
        6 => {
            let (low, high) = bounds(mix);
            let x = between(mix, low, high);
            leaf(85, state, &[x, low, high, eta(mix)])
        }
        7 => {
            let n = mix.within(1, 9);
            let mut line = vec![86, state, n];
            line.extend((0..n).map(|_| mix.below(3)));
            line
        }
        _ => {
            let turn = at / 10 * 2 + at % 2;
            generated_step(mix, turn, if many { 3 } else { 6 }, &dimensions).step()
        }
    }
}

/// A generation step from at most so many plans; now and then one thing is wrong.
pub(super) fn generated_step(mix: &mut Mix, at: u64, most: u64, dimensions: &[Distribution]) -> Call {
    let mut call = bred(selection(mix, at, most), dimensions, mix);
    call.operators = operators(mix);
    if mix.once_in(8) {
        spoil(mix, &mut call);
    }
    call
}
