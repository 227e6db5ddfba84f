//! Inputs of document 02, M-103: Float dimensions with a step.

use super::breeding::*;
use super::kept::*;
use super::sessions::*;
use super::*;
use crate::answers;

/// "Our valves move in eighths of a turn."
fn valve() -> Distribution {
    stepped(0.0, 2.0, 0.125)
}

/// Dimensions that refusal 12 turns down, each for one reason.
fn bad_steps() -> Vec<Distribution> {
    let below = f64::from_bits(1.0_f64.to_bits() - 1);
    vec![
        stepped(0.0, 1.0, 0.0),
        stepped(0.0, 1.0, -0.0),
        stepped(0.0, 1.0, -0.125),
        stepped(0.0, 1.0, f64::NAN),
        stepped(0.0, 1.0, f64::INFINITY),
        stepped(0.0, 1.0, f64::NEG_INFINITY),
        // One quotient past 2^53, and one past the last double.
        stepped(0.0, two(53), below),
        stepped(0.0, 1.0, tiniest()),
        // 0 / 0 is no number, and a step of 0 is none.
        stepped(2.5, 2.5, 0.0),
    ]
}

/// Steps that divide the range and that do not; tiny, huge and above it.
fn good_steps() -> Vec<Distribution> {
    vec![
        valve(),
        stepped(0.0, 1.0, 0.3),
        stepped(-5.0, 5.0, 0.1),
        stepped(0.0, 1.0, 1.0),
        // Above the range: k is 0.
        stepped(0.0, 1.0, 1.5),
        stepped(-1.0, 1.0, f64::MAX),
        // One double: k is 0, and a word is drawn all the same.
        stepped(2.5, 2.5, 0.5),
        stepped(-0.0, 0.0, 1.0),
        // The last value is past the upper bound before it is clamped.
        stepped(-0.1, 0.3, 0.4),
        stepped(-1.0, 0.1, 1.1),
        // 2^53 steps.
        stepped(0.0, two(53), 1.0),
        stepped(-two(53), two(53), 2.0),
        stepped(0.0, 1.0, two(-53)),
        stepped(0.0, 8.0 * tiniest(), tiniest()),
        // Where a double's own spacing is near the step.
        stepped(two(52) - 1.0, two(52) + 1.0, 0.6875),
        stepped(1.0, next(next(1.0)), tiniest() + two(-52)),
    ]
}

fn any_steps(mix: &mut Mix) -> Distribution {
    let (any, other, few) = (mix.unit(), mix.unit(), 1.0 + mix.unit());
    let low = mix.pick(&[0.0, -1.0, 0.1, -0.3, 1e6, -two(52), any]);
    let span = mix.pick(&[1.0, 0.7, 3.0, 1e-9, 100.0, other]);
    let parts = mix.pick(&[1.0, 2.0, 3.0, 7.5, 10.0, 1000.0, two(40), few]);
    let drawn = stepped(low, low + span, span / parts);
    match mix.below(3) {
        0 => mix.pick(&good_steps()),
        _ if refusals::bad_step(&drawn) => valve(),
        _ => drawn,
    }
}

/// A step of both editions.
fn both(call: &Call) -> [Line; 2] {
    [call.step(), call.but(|c| c.edition = Edition::Second).step()]
}

pub(super) fn breeding_cases() -> Vec<Line> {
    let mut lines = Vec::new();
    for dimension in good_steps() {
        for state in [1, before_word(0), before_word(1), before_word(FAR as u64)] {
            lines.push(sample_random(state, &dimension));
        }
    }
    lines.push(extract(3, &[valve(), stepped(0.0, 1.0, 0.3)], &[(4, 0, of_real(0.3))]));

    let mut mix = Mix(3);
    let dimensions = [valve(), int(0, 9, None), stepped(0.0, 1.0, 0.3)];
    let good = bred(listing().but(|c| c.size = 3), &dimensions, &mut mix);
    for size in [1, 2, 5] {
        lines.extend(both(&good.but(|c| c.size = size)));
    }
    // Neither crossed nor mutated, off the step.
    let still = good.but(|c| {
        c.operators.probability = 0.0;
        for plan in &mut c.pool {
            plan.settings = vec![(0, 0, of_real(0.3)), (1, 1, 4), (2, 0, of_real(0.95))];
        }
    });
    lines.extend(both(&still));
    // A pool of one is drawn, in both.
    lines.extend(both(&good.but(|c| c.pool.truncate(1))));
    // Moving twice would change it.
    let near = [stepped(two(52) - 1.0, two(52) + 1.0, 0.6875)];
    let once = bred(listing().but(|c| c.size = 2), &near, &mut mix).but(|c| {
        for plan in &mut c.pool {
            plan.settings = vec![(0, 0, of_real(two(52) + 1.0))];
        }
    });
    lines.extend(both(&once));
    for call in [&still, &once] {
        let other = call.but(|c| c.edition = Edition::Second);
        let [off, on] = [call, &other].map(|c| answers::step(c).offspring);
        assert_ne!(off, on, "edition 2 moves");
    }
    // 12; after 5 and after 6 of any dimension; before 7, 8, 9 and 10.
    for dimension in bad_steps() {
        lines.push(good.but(|c| c.dimensions[2] = dimension.clone()).step());
    }
    let bad = good.but(|c| c.dimensions[0] = bad_steps()[0].clone());
    let calls = [
        bad.clone(),
        bad.but(|c| c.operators.mutation_eta = 0.5),
        bad.but(|c| c.dimensions[2] = float(1.0, 0.0)),
        bad.but(|c| c.dimensions[0] = stepped(1.0, 0.0, 0.0)),
        bad.but(|c| c.pool.clear()),
        bad.but(|c| c.pool[2].values[0] = f64::NAN),
        bad.but(|c| c.pool[1].settings = vec![(0, 0, of_real(1e9))]),
        bad.but(|c| c.short = true),
    ];
    lines.extend(calls.iter().flat_map(both));
    lines
}

pub(super) fn breeding_input(mix: &mut Mix, at: u64) -> Line {
    if at % 3 == 0 {
        return sample_random(mix.word(), &any_steps(mix));
    }
    let count = mix_count(mix);
    let mut dimensions = dimensions(mix, count);
    for dimension in &mut dimensions {
        if mix.once_in(2) {
            *dimension = any_steps(mix);
        }
    }
    if mix.once_in(12) {
        dimensions[0] = mix.pick(&bad_steps());
    }
    let edition = mix.pick(&[Edition::First, Edition::Second]);
    let call = generated_step(mix, at, 8, &dimensions);
    call.but(|c| c.edition = edition).step()
}

fn mix_count(mix: &mut Mix) -> usize {
    mix.within(1, 4) as usize
}

/// A session of a few generations, whose plans are recorded as they were
/// answered.
fn run(mut script: Script, size: u64, generations: u64) -> Line {
    let count = script.dimensions.len() as u64;
    for generation in 0..generations {
        let plans = 1 + generation * size..1 + (generation + 1) * size;
        let mut records = Vec::new();
        for number in plans {
            let mut settings = Vec::new();
            for at in 0..count {
                settings.extend(script.call(number, at == 0 && number % size == 1));
            }
            let row = [number as f64, (number * 7 % 11) as f64];
            records.push(Plan::record(number, &row, &settings));
        }
        script.fresh = records;
    }
    let _ = script.call(1 + generations * size, true);
    script.line()
}

fn opened(edition: Edition, seed: u64, dimensions: &[Distribution]) -> Script {
    let opening = Opening::new(2, Some(4), None, seed);
    let mut script = Script::new(opening.but(|o| o.edition = edition));
    script.discover(0, dimensions);
    script
}

pub(super) fn session_cases() -> Vec<Line> {
    let dimensions = [valve(), stepped(0.0, 1.0, 0.3), choices(2)];
    let mut lines = Vec::new();
    for edition in [Edition::First, Edition::Second] {
        lines.push(run(opened(edition, 17, &dimensions), 4, 3));
    }
    // 12 for a dimension that would be added, after 6 and before 7 and 10.
    let mut script = Script::new(Opening::new(2, Some(4), None, 5));
    for dimension in bad_steps() {
        let _ = script.calls(1, 7, &dimension, false, false);
    }
    let _ = script.calls(1, 7, &stepped(1.0, 0.0, 0.0), false, false);
    let _ = script.calls(1, 7, &bad_steps()[0], true, false);
    let _ = script.calls(1, 7, &valve(), false, true);
    let _ = script.calls(1, 7, &bad_steps()[1], false, true);
    // Once another plan comes, the distribution is not looked at.
    let _ = script.calls(1, 8, &bad_steps()[1], false, true);
    lines.push(script.line());
    lines
}

pub(super) fn session_input(mix: &mut Mix, at: u64) -> Line {
    let edition = if at % 4 == 3 { Edition::First } else { Edition::Second };
    let dimensions: Vec<Distribution> = (0..mix_count(mix)).map(|_| any_steps(mix)).collect();
    run(opened(edition, mix.word(), &dimensions), 4, 2)
}
