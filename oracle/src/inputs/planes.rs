//! Inputs of edition 2 in which the plane through the extremes is looked at
//! (document 02, M-102): normalisations and selections.

use super::kept::splitting_size;
use super::rows::normalize;
use super::*;
use crate::plane::{self, Fallback};

/// A pool, its ideal, and what the plane gives for it.
struct Pool {
    ideal: Vec<f64>,
    rows: Vec<Vec<f64>>,
    plane: Result<Vec<f64>, Fallback>,
}

/// Rows whose least values are the ideal.
fn pool(rows: &[&[f64]], plane: Result<&[f64], Fallback>) -> Pool {
    below(vec![f64::INFINITY; rows[0].len()], rows, plane)
}

/// Rows above an ideal.
fn below(ideal: Vec<f64>, rows: &[&[f64]], plane: Result<&[f64], Fallback>) -> Pool {
    Pool {
        ideal,
        rows: rows.iter().map(|row| row.to_vec()).collect(),
        plane: plane.map(<[f64]>::to_vec),
    }
}

fn pools() -> Vec<Pool> {
    let (far, over) = (two(100), next(two(100)));
    let (large, wide) = (two(1000), two(1001));
    let small = next(1e-10);
    vec![
        // The plane through (1,0,0), (0,2,0) and (0,0,4).
        pool(&[&[1.0, 0.0, 0.0], &[0.0, 2.0, 0.0], &[0.0, 0.0, 4.0]], Ok(&[1.0, 2.0, 4.0])),
        // The extremes are not in the pool's order, and not on the axes.
        pool(&[&[0.0, 0.0, 2.0], &[0.0, 1.0, 1.0], &[1.0, 0.0, 0.0]], Ok(&[1.0, 2.0, 2.0])),
        // A plan past the plane has values above 1.
        pool(&[&[0.0, 2.0], &[1.0, 1.0], &[2.0, 0.0], &[0.0, 20.0]], Ok(&[2.0, 2.0])),
        // The ideal is below the pool.
        below(vec![0.0; 2], &[&[1.0, 1.5], &[2.0, 1.0]], Ok(&[4.0, 2.0])),
        below(vec![-1.0], &[&[0.0], &[5.0]], Ok(&[1.0])),
        // Rows are swapped; and of equal magnitudes the first as they then stand
        // is the pivot.
        below(vec![0.0; 3], &[&[0.0, 1.0, 3.0], &[1.0, 0.0, 2.0], &[2.0, 0.0, 0.0]], Ok(&[2.0, 4.0, 4.0])),
        below(vec![0.0; 3], &[&[0.0, 2.0, 2.0], &[1.0, 0.0, 3.0], &[1.0, 2.0, 0.0]], Ok(&[2.5, 10.0 / 3.0, 5.0])),
        below(
            vec![0.0; 4],
            &[&[0.0, 2.0, 2.0, 1.0], &[1.0, 0.0, 2.0, 0.0], &[1.0, 2.0, 0.0, 0.0], &[1.0, 0.0, 0.0, 2.0]],
            Ok(&[1.6666666666666665, 5.0, 5.0, 5.0]),
        ),
        // Eight objectives.
        Pool {
            ideal: vec![f64::INFINITY; 8],
            rows: (0..8).rev().map(|i| (0..8).map(|j| if i == j { (i + 1) as f64 } else { 0.0 }).collect()).collect(),
            plane: Ok((1..9).map(f64::from).collect()),
        },
        // The first with the least: the plan listed before the one that dominates it.
        below(vec![0.0; 2], &[&[0.5, 2.0], &[0.5, 1.0], &[1.0, 0.0]], Ok(&[1.0, 4.0])),
        below(vec![0.0; 2], &[&[0.5, 1.0], &[0.5, 2.0], &[1.0, 0.0]], Ok(&[1.0, 2.0])),
        // Two extremes are the same plan.
        pool(&[&[1.0, 2.0], &[0.0, 0.0], &[2.0, 1.0]], Err(Fallback::OnePlan)),
        // A pivot is 0, or -0.
        pool(&[&[3.0], &[4.0]], Err(Fallback::NoPivot)),
        pool(&[&[0.0, 1.0, 1.0], &[0.0, 0.0, 1.0], &[0.0, 1.0, 0.0]], Err(Fallback::NoPivot)),
        below(vec![0.0; 3], &[&[-0.0, 1.0, 1.0], &[-0.0, 0.0, 1.0], &[-0.0, 1.0, 0.0]], Err(Fallback::NoPivot)),
        // An unknown is 0, or too great.
        pool(&[&[0.0, 1.0, 1.0], &[0.0, 0.0, 1.0], &[1.0, 0.0, 0.0]], Err(Fallback::NotFinite)),
        pool(&[&[0.0, tiniest()], &[tiniest(), 0.0]], Err(Fallback::NotFinite)),
        // An intercept is below 0; one is 1e-10, and one above it.
        pool(&[&[1.0, 1.0, 1.0], &[0.0, 0.0, 1.0], &[0.0, 1.0, 0.0]], Err(Fallback::Low)),
        pool(&[&[0.0, 1e-10], &[1e-10, 0.0]], Err(Fallback::Low)),
        pool(&[&[0.0, small], &[small, 0.0]], Ok(&[1.0 / (1.0 / small); 2])),
        // A normalised value is 2^100, and the next double.
        pool(&[&[0.0, 1.0], &[1.0, 0.0], &[3.0, far]], Ok(&[1.0, 1.0])),
        pool(&[&[0.0, 1.0], &[1.0, 0.0], &[3.0, over]], Err(Fallback::Far)),
        // The farthest rows.
        pool(&[&[-large, large], &[large, -large], &[0.0, large]], Ok(&[wide, wide])),
        // Scales so far apart that one plan is least for both.
        pool(&[&[-large, 1.0], &[large, 0.0]], Err(Fallback::OnePlan)),
    ]
}

pub(super) fn normalize_cases() -> Vec<Line> {
    let mut lines = Vec::new();
    for pool in pools() {
        let m = pool.ideal.len();
        let least = |j: usize| pool.rows.iter().map(|row| row[j]).fold(pool.ideal[j], f64::min);
        let ideal: Vec<f64> = (0..m).map(least).collect();
        assert_eq!(plane::intercepts(&pool.rows, &ideal), pool.plane, "{:?}", pool.rows);
        lines.push(normalize(&vec![0; m], &pool.ideal, &pool.rows));
    }
    // Maximised.
    lines.push(normalize(&[1, 0], &[f64::INFINITY; 2], &[vec![0.0, 3.0], vec![-2.0, 0.0], vec![-5.0, 5.0]]));
    lines
}

/// Selections whose lines are others by the plane than by the old intercepts.
pub(super) fn selections() -> Vec<Call> {
    let stretched: &[&[f64]] = &[&[0.0, 2.0], &[1.0, 1.0], &[2.0, 0.0], &[0.0, 20.0]];
    let tilted: &[&[f64]] = &[&[0.0, 0.0, 2.0], &[0.0, 1.0, 1.0], &[1.0, 0.0, 0.0], &[0.0, 0.75, 1.25]];
    let inside: &[&[f64]] = &[&[0.0, 1.0], &[1.0, 0.0], &[0.25, 0.25]];
    let select = |rows: &[&[f64]], divisions, size, state| Call::new(rows[0].len(), divisions, size, state, pool_of(rows));
    let mut infeasible = select(&[stretched, &[&[0.0, 1.0]]].concat(), 2, 2, 6);
    infeasible.pool[4].constraints = vec![1.0];
    let mut earlier = select(inside, 4, 2, 6);
    earlier.ideal = vec![-1.0, -3.0];
    let calls = vec![
        select(stretched, 2, 2, 6),
        select(tilted, 1, 3, 6),
        infeasible,
        earlier,
    ];
    for call in &calls {
        let other = call.but(|c| c.edition = Edition::Second);
        let [old, plane] = [call, &other].map(answers::select);
        assert_ne!(old.lines, plane.lines, "the editions part: {:?}", call.pool);
    }
    calls
}

/// A plan's value on an axis of the plane.
fn height(mix: &mut Mix, manner: u64) -> f64 {
    match manner {
        0 | 1 => mix.within(1, 4) as f64,
        2 => mix.within(1, 10) as f64 / 10.0,
        3 => two(mix.within(985, 1000) as i32),
        // Around 1e-10.
        4 => mix.pick(&[0.5e-10, 1e-10, next(1e-10), 2e-10, 1e-9]),
        5 => f64::from_bits(mix.within(1, 9) << mix.pick(&[0, 40, 44, 47])),
        // One objective far from another.
        6 => two(mix.within(0, 20) as i32 - 10) * mix.pick(&[1.0, 1.0, 1.0, two(200)]),
        _ => mix.unit(),
    }
}

/// So many rows: one near each axis, others anywhere, in any order; the rows near
/// the axes are made degenerate, or nearly, or left alone.
pub(super) fn rows(mix: &mut Mix, m: usize, n: usize) -> Vec<Vec<f64>> {
    let manner = mix.below(9);
    let heights: Vec<f64> = (0..m).map(|_| height(mix, manner)).collect();
    let aside = mix.pick(&[0.0, 0.0, 0.0, 1e-7, 0.01, 0.1]);
    let share = |mix: &mut Mix, j: usize, part: f64| heights[j] * part * mix.unit();
    let mut rows: Vec<Vec<f64>> = Vec::new();
    for i in 0..m {
        let value = |j| if j == i { heights[i] } else { share(mix, j, aside) };
        rows.push((0..m).map(value).collect());
    }
    if m > 1 && mix.once_in(4) {
        let (from, to) = (mix.place(m), mix.place(m));
        for j in 0..m {
            rows[to][j] = match mix.below(3) {
                0 => rows[from][j],
                1 => rows[from][j] * (1.0 + f64::EPSILON),
                _ => (rows[from][j] + rows[to][j]).min(two(1000)),
            };
        }
    }
    while rows.len() < n {
        let part = mix.pick(&[1.0, 1.0, 1.0, 2.0, 1e6]);
        rows.push((0..m).map(|j| share(mix, j, part).min(two(1000))).collect());
    }
    // A plan about 2^100 away.
    if mix.once_in(8) {
        let (plan, j) = (mix.place(n), mix.place(m));
        let away = mix.pick(&[two(99), two(100), next(two(100)), two(101)]);
        rows[plan][j] = (heights[j] * away).min(two(1000));
    }
    rows.truncate(n);
    mix.shuffle(&mut rows);
    rows
}

/// An ideal unknown, or below the rows.
fn ideal(mix: &mut Mix, m: usize) -> Vec<f64> {
    let known = mix.once_in(3);
    (0..m)
        .map(|_| if known { mix.pick(&[0.0, -0.0, -1e-12, -0.5, -1.0]) } else { f64::INFINITY })
        .collect()
}

pub(super) fn normalize_input(mix: &mut Mix, m: usize) -> Line {
    let n = m + mix.below(4) as usize;
    let rows = rows(mix, m, n);
    normalize(&vec![0; m], &ideal(mix, m), &rows)
}

pub(super) fn selection(mix: &mut Mix, m: usize) -> Call {
    let n = m + mix.within(1, 6) as usize;
    let mut pool: Vec<Plan> = Vec::new();
    for (number, row) in (0..).zip(rows(mix, m, n)) {
        pool.push(Plan::record(number, &row, &[]));
    }
    let bounds = mix.pick(&[0, 0, 0, 2]);
    for plan in &mut pool {
        plan.constraints = constraints(mix, bounds);
    }
    let h = divisions(mix, m, 40);
    let mut call = Call::new(m, h, n as u64, mix.word(), pool);
    call.size = splitting_size(mix, &call).unwrap_or(1);
    call.ideal = ideal(mix, m);
    call
}
