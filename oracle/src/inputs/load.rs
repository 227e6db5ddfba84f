//! Inputs of the record load: seven numbers, good and damaged.

use super::*;
use crate::load::{LOAD, LOAD_DIGEST, Load, ahead, written};
use crate::pool_file::MAX_FILE;

/// A line: how many bytes are lent room, and the bytes of the input.
fn line(command: u64, room: usize, input: &[u8]) -> Line {
    let mut line = vec![command, room as u64, input.len() as u64];
    line.extend(input.iter().map(|&byte| u64::from(byte)));
    line
}

/// The file in whole, or by its digest where it is long.
fn lent(room: usize, input: &[u8]) -> Line {
    let long = written(input).is_ok_and(|file| file.len() > 300);
    line(if long { LOAD_DIGEST } else { LOAD }, room, input)
}

/// With room for every file.
fn loaded(load: Load) -> Line {
    lent(MAX_FILE, &load.input())
}

/// The load of these seven numbers.
fn load(numbers: [u64; 7]) -> Load {
    let [objectives, divisions, size, plans, constraints, seed, skip] = numbers;
    Load {
        objectives,
        divisions,
        size,
        plans,
        constraints,
        seed,
        skip,
    }
}

impl But for Load {}

/// The first seed from which a load of these counts is a file of so many bytes.
fn long(counts: Load, length: usize) -> Load {
    let seeds = (0..10_000).map(|seed| counts.but(|l| l.seed = seed));
    let mut found = seeds.filter(|load| load.file().len() == length);
    found
        .next()
        .expect("half of the constraints have a byte more")
}

const FAR_ON: u64 = 1 << 63;

pub(super) fn load_cases() -> Vec<Line> {
    let small = load([2, 3, 2, 3, 1, 7, 0]);
    let input = small.input();
    let length = small.file().len();
    // About 65,536 bytes: of 3,972 constraints some half have ten bytes and the others nine.
    let nearly = load([3, 12, 64, 993, 4, 0, 0]);
    let mut lines = vec![
        // The issue's own, in whole and by its digest.
        line(
            LOAD,
            MAX_FILE,
            &load([3, 12, 64, 128, 2, 7, FAR_ON]).input(),
        ),
        line(
            LOAD_DIGEST,
            MAX_FILE,
            &load([3, 12, 64, 128, 2, 7, FAR_ON]).input(),
        ),
        // The smallest; all counts at their least and at their greatest.
        loaded(load([1, 1, 1, 1, 0, 0, 0])),
        loaded(load([1, 199, 1024, 1, 16, u64::MAX, u64::MAX])),
        loaded(load([8, 3, 1024, 2, 16, 1, 1])),
        loaded(load([2, 199, 1, 1024, 0, 5, 2])),
        // Files of 65,535, 65,536, 65,537 and 65,538 bytes.
        loaded(long(nearly, MAX_FILE - 1)),
        loaded(long(nearly, MAX_FILE)),
        loaded(long(nearly, MAX_FILE + 1)),
        loaded(long(nearly, MAX_FILE + 2)),
        // 1,023 plans of seven values fit, 1,024 do not.
        loaded(load([7, 4, 100, 1023, 0, 3, 9])),
        loaded(load([7, 4, 100, 1024, 0, 3, 9])),
        // Room: as much as is needed, one byte short, none.
        lent(length, &input),
        lent(length - 1, &input),
        lent(0, &input),
    ];
    // Words further on; 5 on from a state that is one back, and so on, is the same file.
    let on = [
        0,
        1,
        2,
        3,
        6,
        7,
        64,
        1000,
        1 << 32,
        FAR_ON - 1,
        FAR_ON,
        FAR_ON + 1,
        u64::MAX - 1,
        u64::MAX,
    ];
    lines.extend(on.map(|k| loaded(small.but(|l| l.skip = k))));
    for (back, k) in [(5, 5), (5, 0), (1, u64::MAX), (FAR_ON, FAR_ON), (3, FAR_ON)] {
        let seed = ahead(7, u64::MAX - back + 1);
        lines.push(loaded(small.but(|l| (l.seed, l.skip) = (seed, k))));
    }
    // Seeds.
    lines.extend([0, 1, u64::MAX, FAR_ON].map(|seed| loaded(small.but(|l| l.seed = seed))));
    // A value of 0 has one byte; a constraint of draw 0 is -0.5, of one half 0, and the greatest draw.
    let half = 1 << 51;
    for k in [0, 1, half - 1, half, half + 1, LAST] {
        let first = load([1, 1, 1, 1, 1, before_draw(k), 0]);
        let second = first.but(|l| l.seed = ahead(before_draw(k), u64::MAX));
        // The same draw, reached from afar.
        let afar = first.but(|l| (l.seed, l.skip) = (ahead(l.seed, FAR_ON), FAR_ON));
        lines.extend([first, second, afar].map(loaded));
    }
    // 13: each count past its limits, and at them.
    for m in [0, 1, 8, 9, 64, u64::MAX] {
        lines.push(loaded(small.but(|l| l.objectives = m)));
    }
    for size in [0, 1, 1024, 1025, u64::MAX] {
        lines.push(loaded(small.but(|l| l.size = size)));
    }
    for (m, h) in [
        (2, 0),
        (2, 199),
        (2, 200),
        (2, u64::MAX),
        (3, 43),
        (3, 44),
        (8, 4),
        (8, 5),
        (1, 199),
        (1, 200),
    ] {
        lines.push(loaded(small.but(|l| (l.objectives, l.divisions) = (m, h))));
    }
    for plans in [0, 1, 1024, 1025, u64::MAX] {
        lines.push(loaded(small.but(|l| (l.plans, l.constraints) = (plans, 0))));
    }
    for constraints in [0, 16, 17, u64::MAX] {
        lines.push(loaded(small.but(|l| l.constraints = constraints)));
    }
    // 13 before 10: a file too long, a count too great, and no room.
    lines.push(lent(0, &long(nearly, MAX_FILE + 1).input()));
    lines.push(lent(0, &small.but(|l| l.size = 0).input()));
    lines.push(lent(MAX_FILE - 1, &long(nearly, MAX_FILE).input()));
    // 1, before 13 and 10: nothing, cut short, run on, longer forms, numbers from 2^64 on.
    let with = |place: usize, bytes: &[u8]| {
        let mut changed = input.clone();
        changed.splice(place..place + 1, bytes.iter().copied());
        changed
    };
    let most = [255; 9];
    let broken: Vec<Vec<u8>> = vec![
        vec![],
        vec![0],
        input[..6].to_vec(),
        [&input[..], &[0]].concat(),
        [&input[..], &input[..]].concat(),
        with(0, &[130, 0]),
        with(3, &[131, 128, 0]),
        with(6, &[128, 0]),
        with(6, &[128]),
        with(6, &[&most[..], &[1]].concat()),
        with(6, &[&most[..], &[2]].concat()),
        with(6, &[&most[..], &[129, 1]].concat()),
        with(5, &[&most[..], &[1]].concat()),
        with(5, &[&most[..], &[128, 0]].concat()),
        with(5, &[&most[..], &[3]].concat()),
        with(2, &[0, 0]),
    ];
    lines.extend(broken.iter().map(|input| lent(MAX_FILE, input)));
    lines.push(lent(0, &with(0, &[0, 0])));
    lines
}

/// Words further on: none, few, many.
fn skip(mix: &mut Mix) -> u64 {
    match mix.below(4) {
        0 => mix.pick(&[0, 1, FAR_ON, u64::MAX]),
        1 => mix.below(3000),
        2 => mix.uneven(63),
        _ => mix.word(),
    }
}

/// Counts that pass; now and then a file of many plans, on either side of its
/// greatest length.
fn good(mix: &mut Mix, at: u64) -> Load {
    let m = at % 8 + 1;
    let constraints = mix.pick(&[0, 0, 1, 1, 2, 3, 16]);
    let plans = match mix.below(12) {
        0 => mix.within(1, 1024),
        1 => {
            let each = 9 * m + 1 + 19 * constraints / 2;
            (65_536 / each + mix.below(4)).clamp(3, 1026) - 2
        }
        _ => mix.within(1, 4),
    };
    let seed = if mix.once_in(2) {
        mix.word()
    } else {
        mix.below(100)
    };
    load([
        m,
        divisions(mix, m as usize, 1024),
        mix.within(1, 1024),
        plans,
        constraints,
        seed,
        skip(mix),
    ])
}

/// One count at a limit, or past it.
fn spoil(mix: &mut Mix, load: &mut Load) {
    let m = load.objectives as usize;
    match mix.below(6) {
        0 => load.objectives = mix.pick(&[0, 1, 8, 9, 64]),
        1 => load.size = mix.pick(&[0, 1, 1024, 1025]),
        2 => load.divisions = refusals::most_divisions(m, 1024) + mix.below(2),
        3 => load.plans = mix.pick(&[0, 1024, 1025]),
        4 => load.constraints = mix.pick(&[16, 17]),
        _ => load.divisions = mix.pick(&[0, 1, 199, 200]),
    }
    if mix.once_in(8) {
        let far = mix.word();
        match mix.below(4) {
            0 => load.objectives = far,
            1 => load.divisions = far,
            2 => load.plans = far,
            _ => load.constraints = far,
        }
    }
}

/// A byte changed, lost or added, or a longer form.
fn damage(mix: &mut Mix, input: &mut Vec<u8>) {
    let place = mix.place(input.len());
    let byte = mix.below(256) as u8;
    match mix.below(6) {
        0 => input.truncate(place),
        1 => input.push(byte),
        2 => input[place] = byte,
        3 => input.insert(place, byte),
        4 => {
            input.remove(place);
        }
        _ => {
            // A last group of nothing but zeros, or more groups than a word has.
            let last = (place..input.len()).find(|&at| input[at] < 128);
            let last = last.expect("a number ends");
            input[last] |= 128;
            let more = mix.pick(&[vec![0], vec![1], vec![128, 0], vec![255; 9], vec![128; 10]]);
            input.splice(last + 1..last + 1, more);
        }
    }
}

pub(super) fn load_input(mix: &mut Mix, at: u64) -> Line {
    let mut load = good(mix, at);
    if mix.once_in(4) {
        spoil(mix, &mut load);
    }
    let mut input = load.input();
    if mix.once_in(8) {
        damage(mix, &mut input);
    }
    let length = written(&input).map_or(0, |file| file.len());
    let room = match mix.below(8) {
        0 => length,
        1 => length.saturating_sub(1),
        2 => mix.place(length + 1),
        3 => length + mix.place(3),
        _ => MAX_FILE,
    };
    lent(room.min(MAX_FILE), &input)
}
