//! Inputs of the record kept list.

use super::*;

/// Document 01's listing.
pub(super) fn listing() -> Call {
    Call::new(
        2,
        1,
        2,
        5,
        pool_of(&[&[0.0, 0.0], &[1.0, 3.0], &[4.0, 1.0]]),
    )
}

/// The variations of a selection that meet a refusal, or just do not.
pub(super) fn refused_selections() -> Vec<Call> {
    let good = listing();
    let over = next(two(1000));
    vec![
        good.but(|c| c.short = true),
        good.but(|c| c.marks = vec![0, 2]),
        good.but(|c| c.marks = Vec::new()),
        good.but(|c| c.marks = vec![0; 9]),
        good.but(|c| c.size = 0),
        good.but(|c| c.size = 1025),
        good.but(|c| c.size = u64::MAX),
        good.but(|c| c.divisions = 0),
        good.but(|c| c.divisions = 200),
        good.but(|c| c.divisions = 199),
        good.but(|c| c.pool = Vec::new()),
        // The lowest number among all that apply.
        good.but(|c| {
            c.size = 0;
            c.divisions = 0;
            c.short = true;
        }),
        good.but(|c| {
            c.pool[2].values = vec![f64::NAN, 0.0];
            c.short = true;
        }),
        good.but(|c| c.pool[1].values = vec![1.0]),
        good.but(|c| c.pool[1].values = vec![1.0, 3.0, 0.0]),
        good.but(|c| c.pool[0].constraints = vec![-1.0; 17]),
        good.but(|c| c.pool[0].constraints = vec![-1.0; 16]),
        good.but(|c| c.pool[2].constraints = vec![f64::NAN]),
        // 2^1000 passes, the next double does not.
        good.but(|c| c.pool[2].constraints = vec![two(1000)]),
        good.but(|c| c.pool[2].constraints = vec![over]),
        good.but(|c| c.pool[2].values[0] = -two(1000)),
        good.but(|c| c.pool[2].values[0] = -over),
        good.but(|c| c.pool[2].values[0] = f64::INFINITY),
    ]
}

pub(super) fn kept_cases() -> Vec<Line> {
    let good = listing();
    let over = next(two(1000));
    let line_of_eight = pool_of(&[
        &[0.0, 7.0],
        &[1.0, 6.0],
        &[2.0, 5.0],
        &[3.0, 4.0],
        &[4.0, 3.0],
        &[5.0, 2.0],
        &[6.0, 1.0],
        &[7.0, 0.0],
    ]);
    let mut calls = vec![
        // P7.
        good.clone(),
        // Fronts that fill the size exactly: no split, no line.
        good.but(|c| c.size = 3),
        good.but(|c| c.size = 1),
        // Padding may repeat a plan.
        good.but(|c| c.size = 7),
        // An ideal that stays, one that moves, one of zeros.
        good.but(|c| c.ideal = vec![-1.0, -1.0]),
        good.but(|c| c.ideal = vec![0.5, 2.0]),
        good.but(|c| c.ideal = vec![-0.0, -0.0]),
        good.but(|c| c.ideal = vec![two(1000), -two(1000)]),
        good.but(|c| c.ideal = vec![over, 0.0]),
        good.but(|c| c.ideal = vec![f64::NEG_INFINITY, 0.0]),
        good.but(|c| c.ideal = vec![f64::NAN, 0.0]),
        good.but(|c| c.ideal = vec![0.0]),
        good.but(|c| c.ideal = vec![0.0; 3]),
        good.but(|c| c.marks = vec![1, 1]),
        // A selection does not look at settings, however many.
        good.but(|c| c.pool[1].settings = so_many_settings(MAX_SETTINGS + 1)),
    ];
    // One front on three lines, every size: counts above 0 draw a member.
    for size in 1..=8 {
        calls.push(Call::new(2, 2, size, 11 + size, line_of_eight.clone()));
    }
    // Equal rows are different plans; equal distances take the first listed.
    calls.push(Call::new(2, 1, 3, 9, pool_of(&[&[1.0, 1.0][..]; 6])));
    calls.push(Call::new(1, 5, 2, 9, pool_of(&[&[1.0][..]; 4])));
    // One plan.
    calls.push(Call::new(1, 1, 1, 0, pool_of(&[&[0.0]])));
    calls.push(Call::new(1, 1, 3, 0, pool_of(&[&[0.0]])));
    // A split among the infeasible: equal violations share a front.
    let mut infeasible = line_of_eight.clone();
    for (at, plan) in infeasible.iter_mut().enumerate() {
        plan.constraints = if at < 2 { vec![0.25] } else { vec![0.5, -1.0] };
    }
    calls.push(Call::new(2, 3, 5, 77, infeasible));
    // A whole front that leaves one of two lines empty, and four of the next
    // front's five plans: the nearest on one line, drawn ones on both.
    calls.push(Call::new(
        2,
        1,
        5,
        4,
        pool_of(&[
            &[0.0, 1.0],
            &[1.0, 5.0],
            &[2.0, 4.0],
            &[3.0, 3.0],
            &[4.0, 2.0],
            &[5.0, 1.0],
        ]),
    ));
    calls.extend(refused_selections());
    let mut lines: Vec<Line> = calls.iter().map(Call::select).collect();
    // One plan too many (1,024 of them are among the large cases).
    let many = vec![plan(&[0.0], &[]); 1025];
    lines.push(Call::new(1, 1, 1, 3, many).select());
    lines
}

pub(super) fn selection(mix: &mut Mix, at: u64, most: u64) -> Call {
    let m = objectives(at);
    let n = mix.within(1, most) as usize;
    let most_lines = if mix.once_in(6) { 1024 } else { 12 };
    let h = divisions(mix, m, most_lines);
    let size = size(mix, n);
    let mut call = Call::new(m, h, size, mix.word(), pool(mix, m, n));
    call.marks = marks(mix, m);
    // Two times in three a size that splits a front, where one can be split.
    if !mix.once_in(3) {
        call.size = splitting_size(mix, &call).unwrap_or(size);
    }
    if mix.once_in(3) {
        for (j, z) in call.ideal.iter_mut().enumerate() {
            let near = call.pool[0].values[j];
            *z = mix.pick(&[f64::INFINITY, near, -near, 0.0, -0.0, -two(1000), 0.5]);
        }
    }
    call
}

/// A size that ends inside a front of two or more.
pub(super) fn splitting_size(mix: &mut Mix, call: &Call) -> Option<u64> {
    let mut inside = Vec::new();
    let mut before = 0;
    for front in &call.fronts() {
        inside.extend(before + 1..before + front.len() as u64);
        before += front.len() as u64;
    }
    (!inside.is_empty()).then(|| mix.pick(&inside))
}

/// Now and then one thing is wrong.
pub(super) fn spoil(mix: &mut Mix, call: &mut Call) {
    let plan = mix.place(call.pool.len());
    match mix.below(9) {
        0 => call.short = true,
        1 => call.marks[0] = 2,
        2 => call.size = mix.pick(&[0, 1025]),
        3 => call.divisions = mix.pick(&[0, 200]),
        4 => call.pool[plan].values[0] = f64::NAN,
        5 => call.pool[plan].values.push(0.0),
        6 => call.pool[plan].constraints = vec![0.0; 17],
        7 => call.ideal[0] = f64::NEG_INFINITY,
        _ => call.pool[plan].constraints = vec![f64::INFINITY],
    }
}

pub(super) fn kept_input(mix: &mut Mix, at: u64) -> Line {
    let mut call = selection(mix, at, 12);
    if mix.once_in(12) {
        spoil(mix, &mut call);
    }
    call.select()
}
