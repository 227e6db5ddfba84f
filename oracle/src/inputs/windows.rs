//! Sessions with a window (document 02, M-109), of either edition.

use super::sessions::*;
use super::*;

/// One Categorical, so that a line stays short.
fn dimension() -> [Distribution; 1] {
    [choices(3)]
}

/// A session whose dimension plan 0 has found.
fn begun(opening: Opening) -> Script {
    let mut script = Script::new(opening);
    script.discover(0, &dimension());
    script
}

/// Plans come until the generation has `size` of them, and the call after that
/// hands in their records, by which it is bred: its plan is the next one's
/// first.
fn bred_by(script: &mut Script, first: u64, records: Vec<Plan>) {
    let size = records.len() as u64;
    let rest = if first == 1 { first } else { first + 1 };
    if rest < first + size {
        assert!(script.calls(first + size - rest, rest, &any_dimension(), false, false).is_ok());
    }
    script.fresh = records;
    assert!(script.call(first + size, true).is_ok());
}

/// Four plans of two objectives of which none dominates another, all further
/// out the greater `out` is.
fn front(first: u64, out: f64) -> Vec<Plan> {
    let place = |at: u64| {
        let row = [out + at as f64, out + 9.0 - at as f64];
        Plan::record(first + at, &row, &[ParamValue::Categorical(((first + at) % 3) as usize)])
    };
    (0..4).map(place).collect()
}

/// A run of generations, each as far out as is said. Of the second generation
/// one plan breaks its constraint and has absurd values: a burst hose.
fn run(edition: Edition, window: u64, marks: [u64; 2], out: &[f64]) -> Line {
    let mut opening = Opening::new(2, Some(4), None, 7 * window + out.len() as u64);
    (opening.edition, opening.window, opening.marks) = (edition, Some(window), marks.to_vec());
    let mut script = begun(opening);
    for (generation, &out) in out.iter().enumerate() {
        let first = 1 + 4 * generation as u64;
        let mut records = front(first, out);
        if generation == 1 {
            let burst = if marks[0] == 0 { -50.0 } else { 50.0 };
            records[2].values = vec![burst, 40.0];
            records[2].constraints = vec![3.0];
        }
        bred_by(&mut script, first, records);
    }
    script.line()
}

pub(super) fn session_cases() -> Vec<Line> {
    let mut lines = Vec::new();

    // 14 for a window that is not 1 to 64, 0 included: after 5, and before 10.
    let good = Opening::new(2, Some(4), Some(3), 1).but(|o| o.window = Some(1));
    for edition in [Edition::First, Edition::Second] {
        let good = good.but(|o| o.edition = edition);
        let openings = [
            good.but(|o| o.window = Some(0)),
            good.but(|o| o.window = Some(65)),
            good.but(|o| o.window = Some(u64::MAX)),
            good.but(|o| (o.window, o.operators.mutation_eta) = (Some(0), 0.5)),
            good.but(|o| (o.window, o.divisions) = (Some(65), Some(200))),
            good.but(|o| (o.window, o.short) = (Some(65), true)),
            good.clone(),
            good.but(|o| o.window = Some(64)),
        ];
        for opening in openings {
            let mut script = begun(opening);
            let _ = script.call(4, true);
            lines.push(script.line());
        }
    }

    // Windows of 1, 2 and 3 forget, one of 64 is longer than its run: far out,
    // a burst, and further and further out. Equal zeros of either sign: the
    // first met stands.
    let out = [5.0, 4.0, 6.0, 7.0, 8.0, 9.0, 10.0, 9.5, 8.5, 11.0, 12.0, 13.0];
    for (window, marks) in [(1, [0, 0]), (2, [0, 1]), (3, [1, 0]), (5, [1, 1]), (64, [0, 0])] {
        lines.push(run(Edition::First, window, marks, &out[..8]));
        lines.push(run(Edition::Second, window, marks, &out));
    }
    for edition in [Edition::First, Edition::Second] {
        let mut script = begun(Opening::new(1, Some(4), None, 3).but(|o| (o.edition, o.window) = (edition, Some(2))));
        for (generation, zeros) in [[-0.0, 0.0, 1.0, 2.0], [0.0, -0.0, 3.0, 4.0], [0.0, 0.0, 5.0, 6.0]].iter().enumerate() {
            let first = 1 + 4 * generation as u64;
            let record = |(number, &value): (u64, &f64)| Plan::record(number, &[value], &[ParamValue::Categorical(1)]);
            bred_by(&mut script, first, (first..).zip(zeros).map(record).collect());
        }
        lines.push(script.line());
    }

    // A refused call remembers nothing: 8, 9 and a slice that is short.
    for edition in [Edition::First, Edition::Second] {
        let mut script = begun(Opening::new(2, Some(4), None, 5).but(|o| (o.edition, o.window) = (edition, Some(3))));
        bred_by(&mut script, 1, front(1, 0.0));
        assert!(script.calls(3, 6, &any_dimension(), false, false).is_ok());
        let mut records = front(5, 1.0);
        records[1].values[0] = f64::NAN;
        script.fresh = records;
        assert_eq!(script.call(9, true).err(), Some(8));
        script.fresh = vec![Plan::record(6, &[1.0, 1.0], &[ParamValue::Categorical(3)])];
        assert_eq!(script.call(9, true).err(), Some(9));
        script.fresh = vec![front(5, 1.0)[1].clone()];
        assert_eq!(script.calls(1, 9, &any_dimension(), true, true).err(), Some(10));
        assert!(script.call(9, true).is_ok());
        lines.push(script.line());
    }
    lines
}

pub(super) fn session_input(mix: &mut Mix, at: u64) -> Line {
    let m = mix.within(1, 3) as usize;
    let (size, rows, bounds) = (4, mix.within(0, 5), mix.within(0, 3));
    let mut opening = Opening::new(m, Some(size), None, mix.word());
    opening.edition = if at % 2 == 0 { Edition::Second } else { Edition::First };
    opening.window = Some([1, 2, 3, 5, 64][at as usize % 5]);
    opening.marks = marks(mix, m);
    let mut script = begun(opening);
    for generation in 0..5 {
        let first = 1 + size * generation;
        let records = (first..first + size).map(|number| Plan {
            number,
            values: row(mix, rows, m, (number - first) as usize, size as usize),
            constraints: constraints(mix, bounds),
            settings: fit_settings(mix, &dimension()),
        });
        bred_by(&mut script, first, records.collect());
    }
    script.line()
}
