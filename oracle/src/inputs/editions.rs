//! Inputs of the records editions (files of both editions for `choose`) and
//! convert.

use super::kept::*;
use super::*;
use crate::convert::{CONVERT, CONVERT_DIGEST, converted};
use crate::pool_file::{CHOOSE_DIGEST, CHOOSE_PARTS, Edition, Entry, File, MAX_FILE};

/// A file in parts: its head, a body so many times over, and its tail.
#[derive(Clone)]
struct Parts {
    head: Vec<u8>,
    times: usize,
    body: Vec<u8>,
    tail: Vec<u8>,
}

impl From<Vec<u8>> for Parts {
    fn from(head: Vec<u8>) -> Self {
        Parts {
            head,
            times: 0,
            body: vec![],
            tail: vec![],
        }
    }
}

impl Parts {
    fn new(head: &[u64], times: usize, body: &[u64], tail: &[u64]) -> Self {
        Parts {
            head: bytes(head),
            times,
            body: bytes(body),
            tail: bytes(tail),
        }
    }

    fn file(&self) -> Vec<u8> {
        [&self.head[..], &self.body.repeat(self.times), &self.tail].concat()
    }

    fn put(&self, line: &mut Line) {
        put_bytes(line, &self.head);
        line.push(self.times as u64);
        put_bytes(line, &self.body);
        put_bytes(line, &self.tail);
    }

    /// What `choose` prints for it, by its digest where it is long.
    fn choose(&self) -> Line {
        let long = pool_file::choose(&self.file()).len() > 600;
        let mut line = vec![if long { CHOOSE_DIGEST } else { CHOOSE_PARTS }];
        self.put(&mut line);
        line
    }

    /// What it is converted to, likewise, where so many bytes are lent.
    fn lent(&self, room: usize) -> Line {
        let long = converted(&self.file()).is_ok_and(|text| text.len() > 600);
        let mut line = vec![if long { CONVERT_DIGEST } else { CONVERT }, room as u64];
        self.put(&mut line);
        line
    }

    fn convert(&self) -> Line {
        self.lent(MAX_FILE)
    }
}

fn put_bytes(line: &mut Line, bytes: &[u8]) {
    line.push(bytes.len() as u64);
    line.extend(bytes.iter().map(|&byte| u64::from(byte)));
}

/// Numbers in their form.
fn bytes(numbers: &[u64]) -> Vec<u8> {
    let mut bytes = Vec::new();
    for &number in numbers {
        pool_file::encode(&mut bytes, number);
    }
    bytes
}

impl But for File {}

/// The file of a selection's pool; plans have the numbers and settings that
/// they have there.
fn file_of(call: &Call) -> File {
    let bits = |reals: &[f64]| reals.iter().map(|&x| of_real(x)).collect();
    let entry = |plan: &Plan| Entry {
        number: plan.number,
        values: bits(&plan.values),
        constraints: bits(&plan.constraints),
        settings: plan.settings.clone(),
    };
    File {
        divisions: call.divisions,
        size: call.size,
        state: call.state,
        marks: call.marks.clone(),
        plans: call.pool.iter().map(entry).collect(),
    }
}

fn second(file: &File) -> Parts {
    file.write(Edition::Second).into()
}

fn first(file: &File) -> Parts {
    file.write(Edition::First).into()
}

/// Document 01's pool with settings of each kind: a Float of any bits, the
/// farthest Ints, the greatest Categorical.
fn with_settings() -> File {
    let mut file = file_of(&listing());
    file.plans[0].settings = vec![(1, 0, 1.5_f64.to_bits()), (2, 1, of_int(-3)), (3, 2, 4)];
    file.plans[1].number = u64::MAX;
    file.plans[1].settings = vec![(9, 1, of_int(FAR)), (9, 1, of_int(-FAR)), (0, 2, u64::MAX)];
    file.plans[2].number = 0;
    file.plans[2].settings = vec![(u64::MAX, 0, u64::MAX), (0, 0, 0)];
    file
}

/// A file of the second edition with a changed setting.
fn with_setting(kind: u64, value: u64) -> Parts {
    second(&with_settings().but(|f| f.plans[1].settings[1] = (9, kind, value)))
}

/// Files that break the second form, or just do not.
fn damaged() -> Vec<Parts> {
    let good = second(&with_settings()).head;
    let plain = second(&file_of(&listing())).head;
    let with = |place: usize, bytes: &[u8]| -> Parts {
        let mut changed = plain.clone();
        changed.splice(place..place + 1, bytes.iter().copied());
        changed.into()
    };
    let mut files = vec![
        // Kinds from 0 to 3, and far beyond.
        with_setting(0, of_int(FAR) + 1),
        with_setting(2, of_int(FAR) + 1),
        with_setting(3, 0),
        with_setting(u64::MAX, 0),
        // Ints of -2^53, 2^53, and one past each.
        with_setting(1, 2 * FAR as u64 - 1),
        with_setting(1, 2 * FAR as u64),
        with_setting(1, 2 * FAR as u64 + 1),
        with_setting(1, 2 * FAR as u64 + 2),
        with_setting(1, u64::MAX),
        // 64 alone, 64 twice, m 0 and nothing else.
        vec![64].into(),
        vec![64, 64].into(),
        vec![64, 0, 0, 0, 0, 0].into(),
        vec![64, 0, 0, 0, 0].into(),
        vec![64, 0, 0, 0, 0, 0, 0].into(),
        // Cut short, run on.
        good[..good.len() - 1].to_vec().into(),
        good[..good.len() / 2].to_vec().into(),
        [&good[..], &[0]].concat().into(),
        plain[..plain.len() - 1].to_vec().into(),
        [&plain[..], &[0]].concat().into(),
        // The first edition's file with 64 before it, and without.
        [vec![64], listing().file()].concat().into(),
        plain[1..].to_vec().into(),
        // 64 in a longer form does not open the second edition.
        with(0, &[192, 0]),
        with(0, &[192, 1]),
        with(0, &[65]),
        // m, count and seed in longer forms, from 2^64 on, and huge.
        with(1, &[130, 0]),
        with(4, &[131, 0]),
        with(5, &[255, 255, 255, 255, 255, 255, 255, 255, 255, 1]),
        with(5, &[255, 255, 255, 255, 255, 255, 255, 255, 255, 2]),
        with(4, &[255, 255, 255, 255, 255, 255, 255, 255, 255, 1]),
        with(1, &[255, 255, 255, 255, 255, 255, 255, 255, 255, 1]),
    ];
    // A setting count that the file does not have, and one too few.
    let last = plain.len() - 1;
    files.extend([
        with(last, &[1]),
        with(last, &[1, 0, 0, 0]),
        with(last, &[129, 0]),
    ]);
    files
}

/// 1,024 plans of the second edition in 65,532 bytes and those of the seed:
/// 1,023 times 64 bytes, with two settings each, and 49 without.
fn long_second(seed: u64) -> Parts {
    let real = f64::to_bits;
    let plan = [
        7,
        real(1.0),
        real(0.5),
        real(0.25),
        real(1.5),
        1,
        real(-1.0),
    ];
    let settings = [2, 3, 0, real(0.75), 128, 1, 5];
    let head = [64, 4, 7, 500, 1024, seed, 0, 0, 1, 0];
    let (body, tail) = ([&plan[..], &settings].concat(), [&plan[..], &[0]].concat());
    Parts::new(&head, 1023, &body, &tail)
}

/// A plan of so many constraints: 12 bytes beside them and the seed's, three
/// fewer in the first edition.
fn many_constraints(seed: u64, count: usize) -> Parts {
    Parts::new(
        &[64, 1, 1, 1, 1, seed, 0, 0, 0, count as u64],
        count,
        &[0],
        &[0],
    )
}

/// So many plans of two bytes in the first edition.
fn many_plans(seed: u64, count: usize) -> Parts {
    Parts::new(&[1, 1, 1, count as u64, seed, 0], count, &[0, 0], &[])
}

/// So many directions and no plan, seven bytes beside them, and one for 64.
fn many_marks(edition: Edition, m: usize) -> Parts {
    let opening: &[u64] = match edition {
        Edition::First => &[],
        Edition::Second => &[64],
    };
    Parts::new(&[opening, &[m as u64, 1, 1, 0, 5]].concat(), m, &[1], &[])
}

/// Seeds of one byte to five.
const SEEDS: [u64; 5] = [5, 500, 50_000, 10_000_000, 1_000_000_000];

pub(super) fn edition_cases() -> Vec<Line> {
    let plain = file_of(&listing());
    let full = with_settings();
    let mut files = vec![first(&plain), second(&plain), second(&full)];
    // Each refusal of a selection, in both editions.
    for call in refused_selections() {
        let even = call
            .pool
            .iter()
            .all(|plan| plan.values.len() == call.marks.len());
        if even && !call.short {
            files.push(second(&file_of(&call)));
        }
    }
    files.push(first(&file_of(&Call::new(
        9,
        1,
        1,
        0,
        pool_of(&[&[0.0; 9]]),
    ))));
    // No split, padding, maximised, one plan, plans that share a number, over 24 settings.
    files.extend([
        second(&full.but(|f| f.size = 3)),
        second(&full.but(|f| f.size = 5)),
        second(&full.but(|f| f.marks = vec![1, 0])),
        second(&full.but(|f| f.plans.truncate(1))),
        second(&full.but(|f| f.plans.iter_mut().for_each(|plan| plan.number = 3))),
        second(&full.but(|f| f.plans[2].settings = so_many_settings(40))),
    ]);
    // An inner m of 64, with plans and without; m 0.
    let sixty_four = full.but(|f| {
        f.marks = vec![0; 64];
        f.plans
            .iter_mut()
            .for_each(|plan| plan.values = vec![0; 64]);
    });
    files.push(second(&sixty_four));
    files.push(second(&sixty_four.but(|f| f.plans.clear())));
    files.push(second(&full.but(|f| {
        f.marks.clear();
        f.plans.iter_mut().for_each(|plan| plan.values.clear());
    })));
    files.extend(damaged());
    // 65,536 bytes of the second edition are read, 65,537 are not; the same of constraints far too many.
    let [.., four, five] = SEEDS;
    assert_eq!(long_second(four).file().len(), MAX_FILE);
    files.extend([long_second(four), long_second(five)]);
    files.extend([
        many_constraints(5, MAX_FILE - 13),
        many_constraints(5, MAX_FILE - 12),
    ]);
    // 65,537 bytes of the first.
    files.extend([
        many_marks(Edition::First, MAX_FILE - 7),
        many_marks(Edition::First, MAX_FILE - 6),
    ]);
    files.iter().map(Parts::choose).collect()
}

pub(super) fn convert_cases() -> Vec<Line> {
    let plain = file_of(&listing());
    let bounded = plain.but(|f| {
        f.plans[0].constraints = vec![0, 1 << 63, u64::MAX];
        // Bits of several NaNs, which stay as they are, and a subnormal.
        f.plans[1].values = vec![0x7FF8_0000_0000_0001, 0xFFF0_0000_0000_0001];
        f.plans[2].values = vec![f64::INFINITY.to_bits(), 1];
    });
    let mut lines = Vec::new();
    // There, and back: also what `choose` would turn down.
    let files = [
        plain.clone(),
        bounded.clone(),
        plain.but(|f| f.plans.clear()),
        plain.but(|f| f.marks = vec![7, u64::MAX]),
        plain.but(|f| (f.size, f.divisions, f.state) = (0, u64::MAX, u64::MAX)),
        plain.but(|f| f.plans[2].constraints = vec![3; 40]),
        file_of(&Call::new(9, 1, 1, 0, pool_of(&[&[0.0; 9]]))),
        file_of(&Call::new(0, 1, 1, 0, pool_of(&[&[], &[]]))),
        // Numbers of one byte and of two.
        file_of(&Call::new(
            0,
            1,
            1,
            0,
            (0..130).map(|n| Plan::record(n, &[], &[])).collect(),
        )),
        // 63 and 65 objectives, which no selection takes, are held by both.
        plain.but(|f| (f.marks, f.plans) = (vec![0; 63], vec![])),
        plain.but(|f| (f.marks, f.plans) = (vec![0; 65], vec![])),
    ];
    for file in &files {
        lines.extend([first(file).convert(), second(file).convert()]);
    }
    // 18: other numbers, settings, an inner m of 64.
    let numbered = |numbers: [u64; 3]| {
        plain.but(|f| {
            for (plan, number) in f.plans.iter_mut().zip(numbers) {
                plan.number = number;
            }
        })
    };
    for numbers in [
        [1, 2, 3],
        [0, 1, 3],
        [0, 0, 1],
        [0, 2, 1],
        [0, 1, u64::MAX],
        [0, 1, 2],
    ] {
        lines.push(second(&numbered(numbers)).convert());
    }
    for place in 0..3 {
        lines.push(second(&plain.but(|f| f.plans[place].settings = vec![(0, 0, 0)])).convert());
    }
    lines.push(second(&with_settings()).convert());
    lines.push(second(&plain.but(|f| (f.marks, f.plans) = (vec![0; 64], vec![]))).convert());
    let inner = plain.but(|f| {
        f.marks = vec![1; 64];
        f.plans
            .iter_mut()
            .for_each(|plan| plan.values = vec![0; 64]);
    });
    lines.push(second(&inner).convert());
    // 1 and 17: nothing, a byte, and what breaks either form.
    lines.push(Parts::from(vec![]).convert());
    lines.push(Parts::from(vec![0]).convert());
    lines.push(Parts::from(listing().file()[..20].to_vec()).convert());
    lines.push(Parts::from([listing().file(), vec![0]].concat()).convert());
    lines.extend(damaged().iter().map(Parts::convert));
    // The longest, and one byte more.
    let [one, two, three, four, five] = SEEDS;
    lines.extend([
        // Converted files of 65,536 and 65,537 bytes.
        many_plans(two, 13_131).convert(),
        many_plans(three, 13_131).convert(),
        many_marks(Edition::First, MAX_FILE - 8).convert(),
        many_marks(Edition::First, MAX_FILE - 7).convert(),
        many_marks(Edition::First, MAX_FILE - 6).convert(),
        // Files of the second edition of 65,536 and 65,537.
        many_marks(Edition::Second, MAX_FILE - 8).convert(),
        many_marks(Edition::Second, MAX_FILE - 7).convert(),
        many_constraints(one, MAX_FILE - 13).convert(),
        many_constraints(one, MAX_FILE - 12).convert(),
        long_second(four).convert(),
        long_second(five).convert(),
    ]);
    // 10: room as needed, one byte short, none; after 1, 17 and 18.
    for file in [first(&bounded), second(&bounded)] {
        let length = converted(&file.file()).map_or(0, |text| text.len());
        lines.extend([length, length - 1, 0].map(|room| file.lent(room)));
    }
    lines.push(many_plans(two, 13_131).lent(MAX_FILE - 1));
    lines.push(Parts::from(vec![0]).lent(0));
    lines.push(Parts::from(vec![64]).lent(0));
    lines.push(second(&with_settings()).lent(0));
    lines
}

/// Settings of any number and kind.
fn any_settings(mix: &mut Mix) -> Vec<(u64, u64, u64)> {
    let count = if mix.once_in(10) {
        mix.below(40)
    } else {
        mix.below(5)
    };
    (0..count)
        .map(|_| {
            let parameter = if mix.once_in(4) {
                mix.word()
            } else {
                mix.below(30)
            };
            let int = of_int(mix.below(FAR as u64) as i64);
            let (kind, value) = match mix.below(3) {
                0 => (
                    0,
                    mix.pick(&[0, u64::MAX, of_real(f64::NAN), 1.0_f64.to_bits()]),
                ),
                1 => (
                    1,
                    mix.pick(&[0, 1, int, int + 1, of_int(FAR), of_int(-FAR)]),
                ),
                _ => (2, mix.uneven(63)),
            };
            (parameter, kind, value)
        })
        .collect()
}

/// A file of either edition: plans numbered from 0 without settings, or any.
fn any_file(mix: &mut Mix, at: u64) -> (File, Edition) {
    let mut call = selection(mix, at, 4);
    if mix.once_in(8) {
        spoil(mix, &mut call);
    }
    let mut file = file_of(&call);
    // A row that has another length than m cannot stand in a file.
    let m = file.marks.len();
    file.plans
        .iter_mut()
        .for_each(|plan| plan.values.resize(m, 0));
    let edition = mix.pick(&[Edition::First, Edition::Second, Edition::Second]);
    if edition == Edition::Second && mix.once_in(2) {
        for plan in &mut file.plans {
            plan.settings = any_settings(mix);
        }
    }
    if edition == Edition::Second && mix.once_in(4) {
        for plan in &mut file.plans {
            plan.number = mix.pick(&[plan.number, plan.number + 1, 0, u64::MAX]);
        }
    }
    if mix.once_in(12) {
        // Objectives around 64, without plans or with.
        let m = mix.within(63, 65) as usize;
        file.marks = vec![mix.below(2); m];
        file.plans.truncate(mix.place(2));
        file.plans
            .iter_mut()
            .for_each(|plan| plan.values = vec![0; m]);
    }
    if mix.once_in(12) && !file.plans.is_empty() {
        // A setting that breaks the second form, or just does not.
        let place = mix.place(file.plans.len());
        let farthest = of_int(FAR);
        let setting = mix.pick(&[
            (1, 3, 0),
            (1, 1, farthest + 1),
            (1, 1, farthest + 2),
            (1, 1, farthest),
            (1, 2, farthest + 1),
        ]);
        file.plans[place].settings.push(setting);
    }
    (file, edition)
}

fn damage(mix: &mut Mix, file: &mut Vec<u8>) {
    let place = mix.place(file.len());
    let byte = mix.below(256) as u8;
    match mix.below(8) {
        0 => file.truncate(place),
        1 => file.push(byte),
        2 => file[place] = byte,
        3 => file.insert(place, byte),
        4 => {
            file.remove(place);
        }
        // The other edition's opening.
        5 => file.insert(0, 64),
        6 => {
            file.remove(0);
        }
        _ => {
            // A last group of nothing but zeros.
            if file[place] < 128 {
                file[place] |= 128;
                file.insert(place + 1, 0);
            }
        }
    }
}

fn any_parts(mix: &mut Mix, at: u64) -> Parts {
    let (file, edition) = any_file(mix, at);
    let mut bytes = file.write(edition);
    if mix.once_in(6) {
        damage(mix, &mut bytes);
    }
    bytes.into()
}

/// About the greatest length, of either edition.
fn long_parts(mix: &mut Mix) -> Parts {
    let seed = mix.pick(&SEEDS);
    let near = MAX_FILE - mix.place(20);
    match mix.below(5) {
        0 => long_second(seed),
        1 => many_constraints(seed, near),
        2 => many_plans(seed, mix.within(13_120, 13_135) as usize),
        3 => many_marks(Edition::First, near),
        _ => many_marks(Edition::Second, near),
    }
}

pub(super) fn edition_input(mix: &mut Mix, at: u64) -> Line {
    if mix.once_in(25) {
        return long_parts(mix).choose();
    }
    any_parts(mix, at).choose()
}

pub(super) fn convert_input(mix: &mut Mix, at: u64) -> Line {
    let parts = if mix.once_in(25) {
        long_parts(mix)
    } else {
        any_parts(mix, at)
    };
    let length = converted(&parts.file()).map_or(0, |text| text.len());
    let room = match mix.below(10) {
        0 => length,
        1 => length.saturating_sub(1),
        2 => mix.place(length + 1),
        _ => MAX_FILE,
    };
    parts.lent(room)
}
