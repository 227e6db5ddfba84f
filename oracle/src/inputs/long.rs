//! Long inputs: near the 8,192 numbers that a replayed line may have.

use super::breeding::*;
use super::kept::*;
use super::sessions::*;
use super::*;

/// A selection from n plans whose size splits a front.
fn split(mix: &mut Mix, m: usize, n: usize, h: u64, rows: u64, bounds: u64) -> Call {
    let pool = (0..n)
        .map(|at| Plan {
            number: at as u64,
            values: row(mix, rows, m, at, n),
            constraints: constraints(mix, bounds),
            settings: Vec::new(),
        })
        .collect();
    let mut call = Call::new(m, h, 1, mix.word(), pool);
    call.marks = marks(mix, m);
    call.size = splitting_size(mix, &call).expect("a front of two plans");
    call
}

/// 60 fronts of five plans, listed in no order.
fn layers() -> Vec<Plan> {
    (0..300)
        .map(|at| {
            let (front, place) = (((at * 7) % 60 * 10) as f64, (at / 60) as f64);
            Plan::record(at, &[front + place, front + 4.0 - place], &[])
        })
        .collect()
}

/// A session of 100 plans a generation, each of which asks for all its
/// settings; three generations are bred from records out of order, one of
/// them twice. Each time a short call is refused first.
fn hundred(mix: &mut Mix, m: usize, dimensions: &[Distribution], bounds: u64) -> Line {
    let size = 100;
    let mut opening = Opening::new(m, Some(size), None, mix.word());
    opening.marks = marks(mix, m);
    let mut script = Script::new(opening);
    script.discover(0, dimensions);
    for generation in 0..=3 {
        let first = 1 + 1000 * generation;
        if generation > 0 {
            let short = script.calls(1, first, &any_dimension(), true, true);
            assert_eq!(short.err(), Some(10));
        }
        for at in 0..dimensions.len() {
            let _ = script.calls(size, first, &any_dimension(), false, at == 0);
        }
        if generation < 3 {
            script.fresh = records(mix, m, &script, first, bounds);
        }
    }
    let session = script.session.as_ref().expect("an open session");
    assert_eq!(session.sampler.state.lock().evo.generation, 3);
    script.line()
}

/// The records of a generation's plans, with the settings that each was
/// answered.
fn records(mix: &mut Mix, m: usize, script: &Script, first: u64, bounds: u64) -> Vec<Plan> {
    let session = script.session.as_ref().expect("an open session");
    let state = session.sampler.state.lock();
    let mut records: Vec<Plan> = (first..)
        .zip(&state.evo.candidates)
        .map(|(number, candidate)| Plan {
            constraints: constraints(mix, bounds),
            ..Plan::record(number, &row(mix, 9, m, 0, 1), &candidate.params)
        })
        .collect();
    mix.shuffle(&mut records);
    let mut earlier = records[0].clone();
    earlier.values = vec![0.0; m];
    records.insert(0, earlier);
    records
}

pub(super) fn long_cases() -> Vec<Line> {
    let mut mix = Mix(11);
    let mix = &mut mix;
    // 1,024 plans, drawn; 500 of tenths, where rows and distances are equal,
    // some of them infeasible; 600 of one objective, in few large fronts.
    let draws = split(mix, 3, 1024, 12, 1, 0);
    let tenths = split(mix, 2, 500, 199, 9, 2);
    let few_fronts = split(mix, 1, 600, 1, 9, 0);
    // 300 plans in 60 fronts, of which the 25th is split; the same for 1,024
    // places, so that plans are drawn again.
    let many_fronts = Call::new(2, 99, 123, mix.word(), layers());
    let padded = many_fronts.but(|c| c.size = 1024);
    // 200 of eight objectives, all infeasible, violations equal; 250 beside
    // 1,001 lines.
    let eight = split(mix, 8, 200, 3, 0, 4);
    let lines = split(mix, 5, 250, 10, 1, 0);
    let calls = [&draws, &tenths, &few_fronts, &many_fronts, &padded, &eight, &lines];
    let mut inputs: Vec<Line> = calls.map(Call::select).to_vec();

    // Front lists, by rows and with constraints.
    for (command, call) in [(40, &many_fronts), (41, &tenths)] {
        let mut line = vec![command];
        write_marks(&mut line, &call.marks);
        line.push(call.pool.len() as u64);
        for plan in &call.pool {
            push_reals(&mut line, &plan.values);
            if command == 41 {
                push_counted_reals(&mut line, &plan.constraints);
            }
        }
        inputs.push(line);
    }

    // Steps of 200 and of 600 plans.
    let mixed = [float(-5.0, 5.0), int(0, 9, None), choices(3)];
    let step = split(mix, 3, 200, 12, 1, 2);
    inputs.push(bred(step.but(|c| c.size = 100), &mixed, mix).step());
    let step = split(mix, 2, 600, 99, 9, 0);
    inputs.push(bred(step.but(|c| c.size = 301), &mixed[1..2], mix).step());

    // Sessions of 100 plans.
    inputs.push(hundred(mix, 3, &mixed, 0));
    inputs.push(hundred(mix, 2, &mixed[1..], 2));

    // A file of some 8,000 bytes.
    inputs.push(split(mix, 3, 280, 12, 1, 0).choose());
    inputs
}
