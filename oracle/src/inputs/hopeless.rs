//! Inputs of edition 2 with infeasible plans whose readings are absurd (document
//! 02, M-112): selections, and pools that differ in such readings alone.

use super::kept::splitting_size;
use super::*;
use crate::answers::NO_LINE;
use crate::sampler::genetic;

fn feasible(plan: &Plan) -> bool {
    plan.constraints.iter().all(|&c| c <= 0.0)
}

/// A reading of a burst hose.
fn absurd(mix: &mut Mix) -> f64 {
    let any = wild(mix);
    mix.pick(&[two(1000), -two(1000), next(two(101)), -9.0, 0.5, any])
}

/// The hose of every infeasible plan bursts: other rows, and nothing else.
pub(super) fn burst(mix: &mut Mix, pool: &mut [Plan]) {
    for plan in pool.iter_mut().filter(|plan| !feasible(plan)) {
        for value in &mut plan.values {
            *value = absurd(mix);
        }
    }
}

/// A selection of two or more objectives; of each plan its row and a constraint.
fn select(divisions: u64, size: u64, plans: &[(&[f64], f64)]) -> Call {
    let rows: Vec<&[f64]> = plans.iter().map(|&(row, _)| row).collect();
    let mut call = Call::new(rows[0].len(), divisions, size, 6, pool_of(&rows));
    call.edition = Edition::Second;
    for (plan, &(_, constraint)) in call.pool.iter_mut().zip(plans) {
        // Most feasible plans have no constraint.
        if constraint != -1.0 {
            plan.constraints = vec![constraint];
        }
    }
    call
}

/// The lines that plans would have in edition 2 if all of the pool shaped the scale.
fn by_all(call: &Call) -> Vec<u64> {
    let (mut ideal, rows) = (call.ideal.clone(), call.rows());
    let (_, normalized) = call.edition.run(|| answers::normalize(&mut ideal, &rows));
    let table = genetic::das_dennis(call.marks.len(), call.divisions as usize);
    let associated = answers::associate(call.edition, &normalized, &table);
    associated.into_iter().map(|(line, _)| line as u64).collect()
}

/// Selections whose split front is feasible: infeasible plans have no line, and
/// their rows change no number of the answer. If they shaped the scale, a
/// feasible plan would have another line.
fn hopeless() -> Vec<Call> {
    let (large, far) = (two(1000), next(two(101)));
    // The three of a front, on lines 0, 1 and 2.
    let three: [(&[f64], f64); 3] = [(&[0.0, 2.0], -1.0), (&[1.0, 1.0], -1.0), (&[2.0, 0.0], -1.0)];
    let beside = |hose: &[f64]| select(2, 2, &[&three[..], &[(hose, 1.0)]].concat());
    let low: &[f64] = &[-10.0, -10.0];
    let calls = vec![
        // Its readings would move the ideal, be an extreme, and stretch the scale.
        beside(low),
        beside(&[0.0, 0.5]),
        select(2, 2, &[(&[1.0, 2.0], -1.0), (&[100.0, 1.0], 1.0), (&[0.0, 0.0], -1.0), (&[2.0, 1.0], -1.0)]),
        // Beyond 2^100 times an intercept the plane would not serve: the old
        // intercepts are others, by a feasible plan far out.
        select(2, 2, &[&three[..], &[(&[0.0, 20.0], -1.0), (&[3.0, far], 1.0)]].concat()),
        // Among the others and before them.
        select(2, 2, &[(&[-large, large], 1.0), three[0], (&[large, -large], 0.5), three[1], three[2]]),
        // The second front is split; the violation is the least there is.
        select(2, 3, &[(&[-5.0, 9.0], tiniest()), three[2], (&[3.0, 1.0], 0.0), three[0], (&[2.0, 3.0], -0.0), (&[1.0, 4.0], -0.5)]),
        // The ideal handed in stays as it was.
        beside(low).but(|c| c.ideal = vec![-1.0, 1.0]),
        beside(&[large, large]).but(|c| c.marks = vec![1, 1]),
        select(
            1,
            3,
            &[
                (&[-large, 0.0, 0.5], 1.0),
                (&[0.0, 0.0, 2.0], -1.0),
                (&[0.0, 1.0, 1.0], -1.0),
                (&[1.0, 0.0, 0.0], -1.0),
                (&[0.0, 0.75, 1.25], -1.0),
            ],
        ),
    ];
    for call in &calls {
        let lines = answers::select(call).lines;
        let mut moved = 0;
        for ((plan, &line), other) in call.pool.iter().zip(&lines).zip(by_all(call)) {
            assert_eq!(line == NO_LINE, !feasible(plan), "infeasible plans get no line");
            moved += usize::from(feasible(plan) && line != other);
        }
        assert!(moved > 0, "it would be otherwise: {:?}", call.pool);
        alike(call);
    }
    calls
}

/// The answer is the same with any rows of infeasible plans.
fn alike(call: &Call) {
    for seed in 0..4 {
        let other = call.but(|c| burst(&mut Mix(seed), &mut c.pool));
        let [one, two] = [call, &other].map(|c| answers::answer(&c.select()));
        assert_eq!(one, two, "{:?}", call.pool);
    }
}

/// Selections in which all of the pool shapes the scale, or nobody does: the
/// split front is infeasible, or none is split.
fn whole() -> Vec<Call> {
    let low: &[f64] = &[-10.0, 40.0];
    let equal: [(&[f64], f64); 3] = [(&[1.0, 1.0], 0.5), (&[2.0, 0.0], 0.5), (&[5.0, 5.0], 0.5)];
    let of = |size, first: f64| select(2, size, &[&[(&[0.0, 2.0][..], first)], &equal[..], &[(low, 1.0)]].concat());
    let split = [of(2, -1.0), of(3, -1.0), of(3, 0.5)];
    for call in &split {
        let kept = answers::select(call);
        assert!(kept.lines.iter().all(|&line| line != NO_LINE), "every plan has a line");
        assert_eq!(kept.ideal, [-10.0, 0.0]);
    }
    // The fronts fill the size, and the list is padded.
    let fit = [of(1, -1.0), of(4, -1.0), of(7, -1.0)];
    for call in &fit {
        let kept = answers::select(call);
        assert!(kept.lines.iter().all(|&line| line == NO_LINE), "no plan has a line");
        assert_eq!(kept.ideal, [f64::INFINITY; 2]);
    }
    [&split[..], &fit[..]].concat()
}

pub(super) fn selections() -> Vec<Call> {
    [hopeless(), whole()].concat()
}

/// Steps from some of these pools: the children are alike too.
pub(super) fn steps(mix: &mut Mix, dimensions: &[Distribution]) -> Vec<Call> {
    let (hopeless, whole) = (hopeless(), whole());
    let mut calls = Vec::new();
    for call in [&hopeless[0], &hopeless[4], &whole[0], &whole[1]] {
        calls.push(breeding::bred(call.clone(), dimensions, mix));
    }
    for call in &calls[..2] {
        let other = call.but(|c| burst(&mut Mix(5), &mut c.pool));
        let [one, two] = [call, &other].map(|c| answers::answer(&c.step()));
        assert_eq!(one, two, "{:?}", call.pool);
    }
    calls
}

/// A pool made for the plane, in which the hoses of some plans burst.
pub(super) fn selection(mix: &mut Mix, m: usize) -> Call {
    let mut call = planes::selection(mix, m);
    let bounds = mix.pick(&[2, 4, 6]);
    for plan in &mut call.pool {
        let spared = bounds == 4 && mix.once_in(2);
        plan.constraints = if spared { Vec::new() } else { constraints(mix, bounds) };
    }
    burst(mix, &mut call.pool);
    call.edition = Edition::Second;
    call.size = splitting_size(mix, &call).unwrap_or(1);
    if answers::select(&call).lines.contains(&NO_LINE) {
        alike(&call);
    }
    call
}
