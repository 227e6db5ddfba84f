//! Inputs of the record water: a kept list, litres and bands.

use super::*;
use crate::water::PRICE;

/// A line: how many costs are lent room, the kept list, each plan's litres, the
/// bands' words.
fn line(room: usize, kept: &[u64], litres: &[u64], words: &[u64]) -> Line {
    let mut line = vec![PRICE, room as u64];
    for list in [kept, litres, words] {
        line.push(list.len() as u64);
        line.extend(list);
    }
    line
}

/// The same with as much room as is needed.
fn priced(kept: &[u64], litres: &[u64], words: &[u64]) -> Line {
    line(kept.len(), kept, litres, words)
}

const MOST_LITRES: u64 = 1_000_000_000;
const MOST_PRICE: u64 = 1_000_000;
const THREE: [u64; 6] = [10, 100, 30, 250, 0, 400];

/// So many bands of one litre each, at 1, 2, .. cents.
fn steps(count: u64) -> Vec<u64> {
    (1..=count).flat_map(|i| [i, 100 * i]).collect()
}

pub(super) fn water_cases() -> Vec<Line> {
    let all = [0, 1, 2, 3];
    vec![
        // The upper litre itself, and one more.
        priced(&all, &[10, 11, 30, 31], &THREE),
        priced(&all, &[0, 1, 9, 29], &THREE),
        // The kept list's order, a plan that is padded, one that is left out, nothing kept.
        priced(&[2, 0, 3, 1], &[0, 1, 100, 10], &THREE),
        priced(&[1, 0, 1, 1], &[11, 31, 5], &THREE),
        priced(&[], &[11, 31], &THREE),
        priced(&[], &[], &THREE),
        line(9, &all, &[10, 11, 30, 31], &THREE),
        // Halves, and less; rounded once, not per band.
        priced(&all, &[1, 2, 3, 5], &[0, 50]),
        priced(&all, &[1, 3, 49, 51], &[0, 49]),
        priced(&all, &[1, 2, 3, 4], &[1, 49, 2, 49, 0, 1]),
        priced(&all, &[1, 2, 3, 4], &[1, 50, 2, 50, 0, 50]),
        // One band, a word past the last whole one, price 0, the most of all.
        priced(&all, &[1, 2, 3, MOST_LITRES], &[1, 100]),
        priced(&all, &[1, 2, 3, 4], &[1, 100, 7]),
        priced(&all, &[5, 10, 15, MOST_LITRES], &[10, 0, 0, 0]),
        priced(
            &all,
            &[MOST_LITRES, MOST_LITRES - 1, 1, 0],
            &[0, MOST_PRICE],
        ),
        priced(&[0; 1024], &[MOST_LITRES], &[0, MOST_PRICE]),
        // The last band's upper litre is below the others, or any word; the one before it is the greatest word.
        priced(&all, &[10, 11, 12, 20], &[10, 100, 3, 200]),
        priced(&all, &[10, 11, 12, 20], &[10, 100, 10, 200]),
        priced(&all, &[10, 11, 12, 20], &[10, 100, u64::MAX, 200]),
        priced(
            &all,
            &[10, 11, 12, MOST_LITRES],
            &[10, 100, u64::MAX, 200, 0, 300],
        ),
        // A first band without litres.
        priced(&all, &[0, 1, 10, 11], &[0, 999, 10, 100, 0, 200]),
        // Sixteen bands, and seventeen.
        priced(&all, &[1, 2, 15, 17], &steps(16)),
        priced(&all, &[1, 2, 15, 17], &steps(17)),
        // 10; before 15 and 16.
        line(3, &all, &[10, 11, 30, 31], &THREE),
        line(0, &[0], &[MOST_LITRES + 1], &[]),
        // 15: no bands, half a band, upper litres equal or falling, a price too high; before 16.
        priced(&all, &[10, 11, 30, 31], &[]),
        priced(&all, &[10, 11, 30, 31], &[10]),
        priced(&all, &[10, 11, 30, 31], &[10, 100, 10, 100, 0, 100]),
        priced(&all, &[10, 11, 30, 31], &[10, 100, 9, 100, 0, 100]),
        priced(&all, &[10, 11, 30, 31], &[10, MOST_PRICE + 1, 0, 100]),
        priced(&all, &[10, 11, 30, 31], &[10, 100, 0, MOST_PRICE + 1]),
        priced(&all, &[10, 11, 30, 31], &[10, u64::MAX, 0, 100]),
        priced(&[4], &[10, 11, 30, 31], &[]),
        priced(&[0], &[MOST_LITRES + 1], &[]),
        // 16: a list too long, an index without litres, litres too many, kept or not.
        priced(&[0; 1025], &[1], &THREE),
        priced(&[0, 4], &[10, 11, 30, 31], &THREE),
        priced(&[0, u64::MAX], &[10, 11, 30, 31], &THREE),
        priced(&[0], &[], &THREE),
        priced(&[0, 1], &[10, MOST_LITRES + 1], &THREE),
        priced(&[0, 0], &[10, u64::MAX], &THREE),
    ]
}

fn price(mix: &mut Mix) -> u64 {
    match mix.below(4) {
        0 => mix.pick(&[0, 1, 49, 50, 51, 99, 100, MOST_PRICE - 1, MOST_PRICE]),
        1 => mix.below(200),
        _ => mix.uneven(20).min(MOST_PRICE),
    }
}

/// Bands that 15 lets pass: upper litres that rise, close together or far apart.
fn bands(mix: &mut Mix) -> Vec<u64> {
    let count = if mix.once_in(6) {
        16
    } else {
        mix.within(1, 15)
    };
    let step = mix.within(1, 31);
    let mut upper = if mix.once_in(4) { 0 } else { mix.uneven(step) };
    let mut words = Vec::new();
    for _ in 1..count {
        words.extend([upper, price(mix)]);
        upper += 1 + mix.uneven(step);
    }
    let open = match mix.below(3) {
        0 => 0,
        1 => upper,
        _ => mix.word(),
    };
    words.extend([open, price(mix)]);
    words
}

/// Litres at the bands' edges and anywhere.
fn litres(mix: &mut Mix, words: &[u64]) -> u64 {
    let edge = words[2 * mix.place(words.len() / 2)];
    let anywhere = mix.uneven(30);
    let l = match mix.below(6) {
        0 => edge,
        1 => edge.saturating_add(1),
        2 => edge.saturating_sub(1),
        3 => mix.pick(&[0, 1, MOST_LITRES - 1, MOST_LITRES]),
        _ => anywhere,
    };
    l.min(MOST_LITRES)
}

pub(super) fn water_input(mix: &mut Mix, _at: u64) -> Line {
    let mut words = bands(mix);
    let plans = mix.within(1, 12);
    let mut all: Vec<u64> = (0..plans).map(|_| litres(mix, &words)).collect();
    let length = mix.below(2 * plans + 1);
    let mut kept: Vec<u64> = (0..length).map(|_| mix.below(plans)).collect();
    let mut room = kept.len() + mix.place(3);
    if mix.once_in(3) {
        for _ in 0..mix.within(1, 2) {
            spoil(mix, &mut room, &mut kept, &mut all, &mut words);
        }
    }
    if mix.once_in(5) {
        words.push(mix.word());
    }
    line(room, &kept, &all, &words)
}

/// One thing that a refusal looks at, or the last value that it lets pass.
fn spoil(
    mix: &mut Mix,
    room: &mut usize,
    kept: &mut Vec<u64>,
    litres: &mut [u64],
    words: &mut Vec<u64>,
) {
    let count = words.len() / 2;
    let band = mix.place(count.max(1));
    match mix.below(8) {
        0 => *room = kept.len().saturating_sub(1),
        1 => words.clear(),
        2 => words.extend((0..mix.within(1, 17)).flat_map(|_| [u64::MAX, 1])),
        3 if count > 1 => words[2 * band] = words[0],
        4 if count > 0 => words[2 * band + 1] = MOST_PRICE + mix.below(2),
        5 => kept.push(litres.len() as u64 - mix.below(2)),
        6 => litres[mix.place(litres.len())] = MOST_LITRES + mix.below(2),
        _ => litres[mix.place(litres.len())] = mix.word(),
    }
    if mix.once_in(2) {
        *room = (*room).max(kept.len());
    }
}
