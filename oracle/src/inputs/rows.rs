//! Inputs of the records objective row, front list, reference table and
//! association.

use super::kept::listing;
use super::*;

// ---------------------------------------------------------------------------
// Objective row
// ---------------------------------------------------------------------------

pub(super) fn dominates(marks: &[u64], x: &[f64], y: &[f64]) -> Line {
    let mut line = vec![30];
    write_marks(&mut line, marks);
    push_reals(&mut line, x);
    push_reals(&mut line, y);
    line
}

pub(super) fn constrained(marks: &[u64], x: &[f64], y: &[f64], cx: &[f64], cy: &[f64]) -> Line {
    let mut line = dominates(marks, x, y);
    line[0] = 31;
    for constraints in [cx, cy] {
        push_counted_reals(&mut line, constraints);
    }
    line
}

pub(super) fn dominance_cases() -> Vec<Line> {
    vec![
        // P5: equal rows.
        dominates(&[0, 0], &[1.0, 2.0], &[1.0, 2.0]),
        dominates(&[0, 0], &[1.0, 2.0], &[1.0, 3.0]),
        dominates(&[0, 1], &[1.0, 2.0], &[1.0, 3.0]),
        dominates(&[0, 0], &[0.0, 2.0], &[1.0, 1.0]),
        dominates(&[0], &[-0.0], &[0.0]),
        dominates(&[1], &[0.0], &[-0.0]),
        dominates(&[0], &[0.0], &[tiniest()]),
        dominates(&[0, 0], &[-two(1000), 0.0], &[two(1000), 0.0]),
        // P6: violations 0.5 and 0.25, the second dominates.
        constrained(&[0], &[0.0], &[1.0], &[0.5], &[0.25]),
        constrained(&[0], &[1.0], &[0.0], &[0.25], &[0.5]),
        // P6: exactly 0 is feasible.
        constrained(&[0], &[1.0], &[0.0], &[0.0], &[tiniest()]),
        constrained(&[0], &[1.0], &[0.0], &[-0.0], &[0.25]),
        constrained(&[0], &[1.0], &[0.0], &[], &[0.25]),
        constrained(&[0], &[0.0], &[1.0], &[], &[-1.0]),
        // Equal sums; negative parts do not count.
        constrained(&[0], &[0.0], &[1.0], &[0.25, 0.25], &[0.5]),
        constrained(&[0], &[0.0], &[1.0], &[0.5, -8.0], &[0.5]),
        // The sum goes left to right: 1 + tiny + tiny stays 1.
        constrained(
            &[0],
            &[0.0],
            &[0.0],
            &[1.0, two(-53), two(-53)],
            &[two(-53), two(-53), 1.0],
        ),
        constrained(&[0], &[0.0], &[0.0], &[two(1000); 16], &[two(1000); 15]),
        vec![32, 2, 0, 1, of_real(0.0), of_real(0.0)],
        vec![32, 2, 1, 0, of_real(-two(1000)), of_real(-0.0)],
    ]
}

pub(super) fn dominance_input(mix: &mut Mix, at: u64) -> Line {
    let m = objectives(at);
    let marks = marks(mix, m);
    let flavour = mix.below(ROW_FLAVOURS);
    let x = row(mix, flavour, m, 0, 2);
    let mut y = row(mix, flavour, m, 1, 2);
    // Rows that differ in one place or none.
    if mix.once_in(2) {
        y = x.clone();
        let place = mix.place(m);
        y[place] = mix.pick(&[y[place], y[place] + 1.0, -1.0]);
    }
    match mix.below(3) {
        0 => dominates(&marks, &x, &y),
        1 => {
            let flavour = mix.within(2, CONSTRAINT_FLAVOURS - 1);
            let (cx, cy) = (constraints(mix, flavour), constraints(mix, flavour));
            constrained(&marks, &x, &y, &cx, &cy)
        }
        _ => {
            let mut line = vec![32];
            write_marks(&mut line, &marks);
            push_reals(&mut line, &x);
            line
        }
    }
}

// ---------------------------------------------------------------------------
// Front list
// ---------------------------------------------------------------------------

pub(super) fn fronts(command: u64, marks: &[u64], pool: &[Plan]) -> Line {
    let mut line = vec![command];
    write_marks(&mut line, marks);
    line.push(pool.len() as u64);
    for plan in pool {
        push_reals(&mut line, &plan.values);
        if command == 41 {
            push_counted_reals(&mut line, &plan.constraints);
        }
    }
    line
}

pub(super) fn front_cases() -> Vec<Line> {
    // A later front is not in rising index: plan 0 frees 2, then plan 3 frees 1.
    let moment = pool_of(&[&[0.0, 3.0], &[4.0, 4.0], &[1.0, 5.0], &[3.0, 0.0]]);
    vec![
        fronts(40, &[0, 0], &listing().pool),
        fronts(40, &[0, 0], &moment),
        fronts(40, &[1, 1], &moment),
        fronts(40, &[0], &[]),
        fronts(
            40,
            &[0, 0],
            &pool_of(&[&[1.0, 1.0], &[1.0, 1.0], &[1.0, 1.0]]),
        ),
        fronts(
            40,
            &[0],
            &pool_of(&[&[3.0], &[1.0], &[2.0], &[1.0], &[0.0], &[-0.0]]),
        ),
        // All infeasible: by violation, equal ones share a front.
        fronts(
            41,
            &[0],
            &[
                plan(&[0.0], &[0.5]),
                plan(&[1.0], &[0.25]),
                plan(&[2.0], &[0.25, 0.25]),
            ],
        ),
        // Feasible first, then by violation; rows do not matter there.
        fronts(
            41,
            &[0, 0],
            &[
                plan(&[0.0, 0.0], &[tiniest()]),
                plan(&[5.0, 5.0], &[0.0]),
                plan(&[1.0, 9.0], &[]),
                plan(&[9.0, 1.0], &[-1.0, -0.0]),
                plan(&[0.0, 0.0], &[1.0]),
            ],
        ),
        // A front that is ordered by the moment of release.
        fronts(
            40,
            &[0, 0],
            &pool_of(&[
                &[2.0, 3.0],
                &[1.0, 6.0],
                &[5.0, 0.0],
                &[6.0, 1.0],
                &[1.0, 7.0],
                &[0.0, 5.0],
            ]),
        ),
    ]
}

pub(super) fn front_input(mix: &mut Mix, at: u64) -> Line {
    let m = objectives(at);
    let n = mix.within(1, 12) as usize;
    let command = 40 + mix.below(2);
    fronts(command, &marks(mix, m), &pool(mix, m, n))
}

// ---------------------------------------------------------------------------
// Reference table
// ---------------------------------------------------------------------------

pub(super) fn population(m: usize, size: Option<u64>, divisions: Option<u64>) -> Line {
    let mut line = vec![53];
    write_marks(&mut line, &vec![0; m]);
    push_optional(&mut line, size);
    push_optional(&mut line, divisions);
    line
}

/// Every reference table that document 01 accepts.
pub(super) fn table_cases() -> Vec<Line> {
    let mut lines = Vec::new();
    for m in 1..=8 {
        for h in 1..=199 {
            if !refusals::bad_divisions(m, h) {
                lines.push(vec![54, m as u64, h]);
            }
        }
    }
    lines
}

pub(super) fn reference_cases() -> Vec<Line> {
    let mut lines = vec![
        // P1, P2.
        vec![50, 3, 2],
        vec![50, 1, 7],
        // P3, P4.
        vec![51, 2, 200],
        vec![51, 2, 201],
        vec![51, 3, 100],
        vec![52, 3, 13],
        vec![50, 3, 12],
        vec![52, 3, 12],
        vec![52, 5, 6],
        vec![50, 2, 1],
        vec![50, 8, 1],
        vec![50, 8, 2],
        vec![51, 1, 1],
        vec![51, 1, 2],
        vec![51, 1, 0],
        vec![51, 8, 1024],
    ];
    for m in 1..=8 {
        lines.push(vec![51, m, 100]);
        lines.push(vec![52, m, 199]);
        lines.push(population(m as usize, None, None));
    }
    // Sizes given: none under 4, and where the lines run over 1,024.
    for (m, size) in [
        (2, 0),
        (2, 1),
        (2, 3),
        (2, 5),
        (2, 201),
        (2, 1024),
        (2, 1025),
        (3, 990),
        (3, 991),
        (8, 792),
        (8, 793),
        (1, 7),
    ] {
        lines.push(population(m, Some(size), None));
    }
    for (m, divisions) in [
        (1, 199),
        (2, 199),
        (2, 200),
        (2, 0),
        (3, 43),
        (3, 44),
        (8, 5),
        (8, 4),
        (2, u64::MAX),
    ] {
        lines.push(population(m, None, Some(divisions)));
    }
    // Fewer places than lines: the size stays as given.
    lines.push(population(3, Some(5), Some(12)));
    lines.push(population(0, None, None));
    lines.push(population(9, Some(2000), Some(0)));
    lines.push(vec![53, 2, 0, 2, 0, 0, 0, 0]);
    lines
}

pub(super) fn reference_input(mix: &mut Mix, at: u64) -> Line {
    let m = objectives(at);
    match mix.below(4) {
        0 => vec![50, m as u64, divisions(mix, m, 24)],
        1 => vec![51, m as u64, mix.uneven(12)],
        2 => vec![52, m as u64, mix.within(1, 199)],
        _ => {
            let size = mix.once_in(2).then(|| mix.below(1100));
            let divisions = mix.once_in(2).then(|| mix.within(1, 30));
            population(m, size, divisions)
        }
    }
}

// ---------------------------------------------------------------------------
// Association
// ---------------------------------------------------------------------------

/// The rows after their count.
fn push_rows(line: &mut Line, rows: &[Vec<f64>]) {
    line.push(rows.len() as u64);
    for row in rows {
        push_reals(line, row);
    }
}

pub(super) fn normalize(marks: &[u64], ideal: &[f64], rows: &[Vec<f64>]) -> Line {
    let mut line = vec![NORMALIZE];
    write_marks(&mut line, marks);
    push_reals(&mut line, ideal);
    push_rows(&mut line, rows);
    line
}

pub(super) fn associate(m: usize, h: u64, rows: &[Vec<f64>]) -> Line {
    let mut line = vec![ASSOCIATE, m as u64, h];
    push_rows(&mut line, rows);
    line
}

pub(super) fn distance(point: &[f64], reference: &[f64]) -> Line {
    let mut line = vec![DISTANCE, point.len() as u64];
    push_reals(&mut line, point);
    push_reals(&mut line, reference);
    line
}

pub(super) fn association_cases() -> Vec<Line> {
    let open = f64::INFINITY;
    vec![
        // P10: a width of exactly 1e-10 gives intercept 1, the next double itself.
        normalize(&[0], &[open], &[vec![0.0], vec![1e-10]]),
        normalize(&[0], &[open], &[vec![0.0], vec![next(1e-10)]]),
        normalize(&[0], &[open], &[vec![0.25]]),
        // An ideal below the pool stays; one above it moves.
        normalize(&[0, 0], &[-1.0, 2.0], &[vec![0.0, 1.0], vec![1.0, 0.0]]),
        normalize(&[1, 0], &[open, open], &[vec![0.0, 1.0], vec![3.0, 5.0]]),
        // Among zeros of both signs the ideal keeps itself, else the first met.
        normalize(&[0], &[0.0], &[vec![-0.0], vec![1.0]]),
        normalize(&[0], &[open], &[vec![-0.0], vec![0.0], vec![1.0]]),
        normalize(&[0], &[open], &[vec![0.0], vec![-0.0], vec![1.0]]),
        normalize(
            &[0],
            &[open],
            &[vec![-two(1000)], vec![two(1000)], vec![0.0]],
        ),
        normalize(&[0], &[open], &[vec![0.0], vec![tiniest()]]),
        // Equal distances: the first line wins.
        associate(2, 1, &[vec![1.0, 1.0], vec![0.0, 0.0], vec![0.25, 0.75]]),
        associate(
            3,
            2,
            &[
                vec![0.0, 0.0, 0.0],
                vec![1.0, 1.0, 1.0],
                vec![0.5, 0.5, 0.5],
            ],
        ),
        associate(1, 9, &[vec![0.0], vec![1.0], vec![0.5]]),
        associate(
            8,
            1,
            &[vec![0.125; 8], vec![1.0, 0.0, 0.0, 0.0, 0.0, 0.0, 0.0, 0.0]],
        ),
        // Squares that differ in the last bit can share a root.
        associate(2, 4, &[vec![0.1, 0.2], vec![0.3, 0.7], vec![1.0, 1e-10]]),
        // Squares that vanish: distances of 0 that are not on the line.
        associate(2, 1, &[vec![1e-200, 1.0], vec![1e-200, 1e-200]]),
        // r·r below 1e-30.
        distance(&[1.0, 0.0], &[0.0, 0.0]),
        distance(&[1.0], &[1e-15]),
        distance(&[1.0], &[next(1e-15)]),
        distance(&[3.0, 4.0], &[1.0, 0.0]),
        distance(&[0.3, 0.4], &[0.5, 0.5]),
        distance(&[-0.0, -0.0], &[0.5, 0.5]),
    ]
}

pub(super) fn association_input(mix: &mut Mix, at: u64) -> Line {
    let m = objectives(at);
    let n = mix.within(1, 6) as usize;
    let flavour = mix.below(ROW_FLAVOURS);
    let rows: Vec<Vec<f64>> = (0..n).map(|i| row(mix, flavour, m, i, n)).collect();
    match mix.below(5) {
        0..3 => {
            let ideal: Vec<f64> = (0..m)
                .map(|j| {
                    let near = rows[0][j];
                    mix.pick(&[f64::INFINITY, f64::INFINITY, near, near - 1.0, 0.0, -0.0])
                })
                .map(|z| {
                    if z.abs() > two(1000) {
                        f64::INFINITY
                    } else {
                        z
                    }
                })
                .collect();
            normalize(&marks(mix, m), &ideal, &rows)
        }
        3 => associated_points(mix, m, n),
        _ => distant_point(mix, m),
    }
}

/// Points within 0..1, as normalisation gives them.
pub(super) fn associated_points(mix: &mut Mix, m: usize, n: usize) -> Line {
    let points: Vec<Vec<f64>> = (0..n)
        .map(|_| {
            let flavour = mix.pick(&[1, 9, 1]);
            row(mix, flavour, m, 0, 1)
        })
        .collect();
    associate(m, divisions(mix, m, 40), &points)
}

/// A point and a line of a table.
pub(super) fn distant_point(mix: &mut Mix, m: usize) -> Line {
    let point: Vec<f64> = (0..m).map(|_| mix.unit()).collect();
    let h = divisions(mix, m, 400) as f64;
    let reference: Vec<f64> = (0..m).map(|_| mix.below(h as u64 + 1) as f64 / h).collect();
    distance(&point, &reference)
}
