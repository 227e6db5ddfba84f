//! Inputs of the record pool file, and the cases too long to be stored.

use super::kept::*;
use super::sessions::*;
use super::*;

// ---------------------------------------------------------------------------
// Pool file
// ---------------------------------------------------------------------------

pub(super) fn choose_cases() -> Vec<Line> {
    let good = listing();
    let file = good.file();
    let mut lines = vec![good.choose()];
    lines.extend(
        refused_selections()
            .iter()
            .filter(|call| !call.short)
            .filter_map(|call| {
                // A file has no row length of its own.
                let even = call
                    .pool
                    .iter()
                    .all(|plan| plan.values.len() == call.marks.len());
                even.then(|| call.choose())
            }),
    );
    let nothing = Call::new(0, 1, 1, 0, pool_of(&[&[], &[]]));
    let nine = Call::new(9, 1, 1, 0, pool_of(&[&[0.0; 9]]));
    let mut bounded = listing();
    bounded.pool[2].constraints = vec![0.0; 17];
    let with = |place: usize, bytes: &[u8]| {
        let mut changed = file.clone();
        changed.splice(place..place + 1, bytes.iter().copied());
        changed
    };
    let files: Vec<Vec<u8>> = vec![
        Vec::new(),
        vec![0],
        file[..file.len() - 1].to_vec(),
        file[..1].to_vec(),
        [&file[..], &[0]].concat(),
        // m 2 as 130 0 is not the shortest form.
        with(0, &[130, 0]),
        // Seeds: the greatest number, one past it, ten bytes of the rest.
        with(4, &[255, 255, 255, 255, 255, 255, 255, 255, 255, 1]),
        with(4, &[255, 255, 255, 255, 255, 255, 255, 255, 255, 2]),
        with(4, &[255, 255, 255, 255, 255, 255, 255, 255, 255, 129, 1]),
        with(4, &[255, 255, 255, 255, 255, 255, 255, 255, 255, 128, 0]),
        with(4, &[128, 1]),
        with(4, &[128, 128]),
        // A huge count ends early; so does a huge m.
        with(3, &[255, 255, 255, 255, 255, 255, 255, 255, 255, 1]),
        with(0, &[255, 255, 255, 255, 255, 255, 255, 255, 255, 1]),
        // A form that is good, and the same cut short.
        nothing.file(),
        nine.file(),
        nine.file()[..20].to_vec(),
        bounded.file(),
        bounded.file()[..bounded.file().len() - 1].to_vec(),
        // A mark of many bytes.
        with(5, &[128, 1]),
    ];
    lines.extend(files.iter().map(|file| file_line(file)));
    // No split, padding, maximised, one plan.
    let calls = [
        good.but(|c| c.size = 3),
        good.but(|c| c.size = 5),
        good.but(|c| c.marks = vec![1, 0]),
        good.but(|c| c.pool.truncate(1)),
        good.but(|c| c.divisions = 7),
    ];
    lines.extend(calls.iter().map(Call::choose));
    lines
}

pub(super) fn choose_input(mix: &mut Mix, at: u64) -> Line {
    let mut call = selection(mix, at, 8);
    if mix.once_in(10) {
        spoil(mix, &mut call);
    }
    let mut file = call.file();
    match mix.below(16) {
        0 => {
            file.truncate(mix.place(file.len()));
        }
        1 => file.push(mix.below(256) as u8),
        2 => {
            let place = mix.place(file.len());
            file[place] = mix.below(256) as u8;
        }
        _ => {}
    }
    file_line(&file)
}

// ---------------------------------------------------------------------------
// Cases too long to be stored
// ---------------------------------------------------------------------------

pub(super) fn large_cases() -> Vec<Line> {
    let mut mix = Mix(7);
    let mut lines = Vec::new();
    // Full pools, full tables, full sizes.
    for m in 1..=8 {
        let most = refusals::most_divisions(m, 1024);
        let rows = mix.pick(&[1, 9, 5]);
        let mut plans: Vec<Plan> = (0..1024)
            .map(|at| plan(&row(&mut mix, rows, m, at, 1024), &constraints(&mut mix, 2)))
            .collect();
        for plan in plans.iter_mut().take(900) {
            plan.constraints.clear();
        }
        let call = Call::new(m, most, 512 + 64 * m as u64, mix.word(), plans);
        lines.push(call.select());
        lines.push(call.but(|c| c.size = 1024).select());
        lines.push(call.but(|c| c.size = 1023).select());
    }
    // Files of 65,536 bytes and one more, filled by constraints of one plan:
    // far too many (8), or too long a file (1).
    for length in [65_536_usize, 65_537] {
        let mut file = Vec::new();
        for number in [1, 1, 1, 1, 5, 0] {
            pool_file::encode(&mut file, number);
        }
        // A value of one byte, a constraint count of three, and the rest.
        file.push(0);
        pool_file::encode(&mut file, (length - 10) as u64);
        file.resize(length, 0);
        lines.push(file_line(&file));
    }
    // 65,536 bytes that are accepted: 1,024 plans of 7 values, two of which
    // are subnormals short enough to make the length exact.
    let mut pool = vec![plan(&[1.0; 7], &[]); 1024];
    pool[0].values[0] = tiniest();
    pool[1].values[0] = f64::from_bits(1 << 21);
    let full = Call::new(7, 2, 100, 5, pool);
    assert_eq!(full.file().len(), 65_536);
    lines.push(full.choose());
    // A session of 1,024 plans that breeds, and a history of 4,096.
    let mut script = Script::new(Opening::new(2, Some(1024), Some(99), 3));
    script.discover(0, &[float(0.0, 1.0), choices(4)]);
    let _ = script.calls(1024, 1, &any_dimension(), false, true);
    let mut records: Vec<Plan> = (0..4096)
        .map(|n| {
            let number = 1 + (n * 5) % 1024;
            Plan::record(
                number,
                &[n as f64, (4096 - n) as f64],
                &[ParamValue::Float(0.5)],
            )
        })
        .collect();
    mix.shuffle(&mut records);
    script.fresh = records;
    let _ = script.call(2000, true);
    lines.push(script.line());
    lines
}
