//! Inputs of the records draw and worked-out numbers.

use super::*;

// ---------------------------------------------------------------------------
// Draw
// ---------------------------------------------------------------------------

pub(super) fn draw_cases() -> Vec<Line> {
    vec![
        // P12: the first word of seed 0.
        vec![10, 0, 3],
        vec![10, u64::MAX, 2],
        vec![10, 5, 0],
        // The least and the greatest draw, and one half.
        vec![11, before_draw(0)],
        vec![11, before_draw(LAST)],
        vec![11, before_draw(1 << 51)],
        vec![11, 0],
        // One outcome takes a word all the same.
        vec![12, 7, 1],
        vec![12, 7, 2],
        vec![12, 7, 1024],
        vec![12, before_word(u64::MAX), 1000],
        vec![13, 7, of_int(4), of_int(4)],
        vec![13, 7, of_int(-FAR), of_int(FAR)],
        vec![13, before_word(u64::MAX), of_int(-3), of_int(3)],
        vec![14, 7, of_real(0.0), of_real(1.0)],
        vec![14, 7, of_real(2.5), of_real(2.5)],
        vec![14, before_draw(LAST), of_real(-two(53)), of_real(two(53))],
        // The upper end is reached by rounding.
        vec![14, before_draw(LAST), of_real(1.0), of_real(next(1.0))],
        vec![14, before_draw(1 << 51), of_real(1.0), of_real(next(1.0))],
        vec![14, before_draw(LAST), of_real(0.0), of_real(tiniest())],
        vec![14, before_draw(0), of_real(-0.0), of_real(0.0)],
        vec![14, before_draw(0), of_real(-0.0), of_real(-0.0)],
        vec![14, before_draw(LAST), of_real(-1.0), of_real(two(53))],
    ]
}

pub(super) fn draw_input(mix: &mut Mix, at: u64) -> Line {
    let state = mix.word();
    match at % 5 {
        0 => vec![10, state, mix.below(5)],
        1 => vec![11, state],
        2 => vec![12, state, 1 + mix.uneven(20)],
        3 => {
            let low = mix.uneven(54) as i64 - FAR;
            let width = mix.uneven(53) as i64;
            vec![13, state, of_int(low), of_int((low + width).min(FAR))]
        }
        _ => {
            let (x, y) = bounds(mix);
            vec![14, state, of_real(x), of_real(y)]
        }
    }
}

/// Finite bounds up to 2^53, in order.
pub(super) fn bounds(mix: &mut Mix) -> (f64, f64) {
    let end = |mix: &mut Mix| {
        let scale = two(mix.within(0, 106) as i32 - 53);
        ((mix.unit() - 0.5) * 2.0 * scale).clamp(-two(53), two(53))
    };
    let (x, y) = (end(mix), end(mix));
    if mix.once_in(6) {
        (x, x)
    } else {
        (x.min(y), x.max(y))
    }
}

// ---------------------------------------------------------------------------
// Worked-out numbers
// ---------------------------------------------------------------------------

pub(super) fn number_cases() -> Vec<Line> {
    let mut lines = Vec::new();
    // P9: R(1, 31) = 1; then ends and neighbours.
    for k in [31, 1, 2, 100] {
        for v in [1.0, 0.0, two(51), next(1.0), 0.5, two(-51), tiniest(), 2.0] {
            lines.push(vec![21, of_real(v), k]);
        }
    }
    for k in [1, 2, 3, 21, 100] {
        for y in [0.0, 1.0, 0.5, 0.9, 1.0 - two(-53), next(1.0), two(52), 1e-4] {
            lines.push(vec![20, of_real(y), k]);
        }
    }
    let corners = [
        0.0,
        -0.0,
        1.0,
        2.0,
        0.25,
        tiniest(),
        f64::from_bits((1 << 52) - 1),
        f64::from_bits(1 << 52),
        next(1.0),
        f64::from_bits(1.0_f64.to_bits() - 1),
        two(1000),
        f64::MAX,
        f64::INFINITY,
        f64::NAN,
        -1.0,
    ];
    for x in corners {
        lines.push(vec![22, of_real(x)]);
    }
    // P8: halves go away from zero.
    let halves = [
        2.5,
        -2.5,
        0.5,
        -0.5,
        f64::from_bits(0.5_f64.to_bits() - 1),
        -0.2,
        0.0,
        -0.0,
        1.5,
        two(52) + 1.0,
        two(51) + 0.5,
        -two(53),
        tiniest(),
    ];
    for x in halves {
        lines.push(vec![23, of_real(x)]);
    }
    for (x, y) in [
        (1.0, 2.0),
        (-0.0, -0.0),
        (0.0, -0.0),
        (tiniest(), 0.0),
        (tiniest(), tiniest()),
        (two(104), -two(104)),
        (1.0, two(53)),
        (0.1, 0.2),
    ] {
        lines.push(vec![24, of_real(x), of_real(y)]);
    }
    for (x, low, high) in [
        (-0.0, 0.0, 1.0),
        (0.0, -0.0, -0.0),
        (-1.0, -0.0, 1.0),
        (2.0, 0.0, 1.0),
        (0.5, 0.0, 1.0),
        (3.0, 2.5, 2.5),
        (f64::NAN, 0.0, 1.0),
    ] {
        lines.push(vec![25, of_real(x), of_real(low), of_real(high)]);
    }
    lines
}

pub(super) fn number_input(mix: &mut Mix, at: u64) -> Line {
    match at % 6 {
        0 => {
            let u = mix.unit();
            let y = mix.pick(&[u, 1.0 - u * two(-20)]);
            vec![20, of_real(y), mix.within(1, 100)]
        }
        1 => {
            let u = mix.unit();
            let v = if mix.once_in(2) {
                u
            } else {
                1.0 / (2.0 * (1.0 - (0.5 + u / 2.0)))
            };
            vec![21, of_real(v.min(two(51))), mix.within(1, 100)]
        }
        2 => vec![
            22,
            of_real(if mix.once_in(4) {
                subnormal(mix).abs()
            } else {
                wild(mix).abs()
            }),
        ],
        3 => {
            let x = (mix.unit() - 0.5) * two(mix.within(0, 54) as i32);
            let halved = mix.once_in(2);
            vec![23, of_real(if halved { x.floor() + 0.5 } else { x })]
        }
        4 => {
            let (x, y) = bounds(mix);
            vec![24, of_real(x * mix.unit()), of_real(y)]
        }
        _ => {
            let (low, high) = bounds(mix);
            let x = mix.pick(&[low, high, low / 2.0 + high / 2.0, low - 1.0, high + 1.0]);
            vec![25, of_real(x), of_real(low), of_real(high)]
        }
    }
}
