//! The pool file and `choose`, read off document 01, and the file's second
//! edition, off document 02 (M-111), around the Rust's `nsga3_select`.

use crate::answers::{self, Call, NO_LINE, SELECT};
use crate::plans::Plan;
use crate::words::{to_int, to_real};

pub const CHOOSE_PARTS: u64 = 96;
pub const CHOOSE_DIGEST: u64 = 97;

/// The most bytes of a file.
pub const MAX_FILE: usize = 65_536;

/// Takes numbers off a file: groups of seven bits, lowest first, top bit set
/// on all but the last byte, shortest form, below 2^64. None breaks the form.
pub struct Bytes<'a> {
    pub rest: &'a [u8],
}

impl Bytes<'_> {
    pub fn number(&mut self) -> Option<u64> {
        let mut value: u128 = 0;
        for place in 0.. {
            let (&byte, rest) = self.rest.split_first()?;
            self.rest = rest;
            if place > 9 {
                return None;
            }
            value |= u128::from(byte & 127) << (7 * place);
            if byte < 128 {
                if byte == 0 && place > 0 {
                    return None;
                }
                break;
            }
        }
        u64::try_from(value).ok()
    }

    pub fn numbers(&mut self, count: u64) -> Option<Vec<u64>> {
        (0..count).map(|_| self.number()).collect()
    }
}

/// A plan as the numbers that stand in a file. The first edition has neither
/// number nor settings (parameter number, kind, value).
#[derive(Clone, PartialEq)]
pub struct Entry {
    pub number: u64,
    pub values: Vec<u64>,
    pub constraints: Vec<u64>,
    pub settings: Vec<(u64, u64, u64)>,
}

/// A file's numbers, of either edition. Reals are their bits as they stand.
#[derive(Clone, PartialEq)]
pub struct File {
    pub divisions: u64,
    pub size: u64,
    pub state: u64,
    pub marks: Vec<u64>,
    pub plans: Vec<Entry>,
}

#[derive(Clone, Copy, PartialEq)]
pub enum Edition {
    First,
    Second,
}

/// "The second edition opens with 64": the one byte that is its shortest form.
pub fn edition(file: &[u8]) -> Edition {
    if file.first() == Some(&64) {
        Edition::Second
    } else {
        Edition::First
    }
}

/// "kind (0 Float, 1 Int, 2 Categorical)", and "Ints lie within 2^53 in
/// magnitude".
fn good_setting(kind: u64, value: u64) -> bool {
    match kind {
        0 | 2 => true,
        1 => to_int(value).unsigned_abs() <= 1 << 53,
        _ => false,
    }
}

impl File {
    /// The whole form; what the numbers mean comes later.
    fn parse(edition: Edition, file: &[u8]) -> Option<Self> {
        if file.len() > MAX_FILE {
            return None;
        }
        let mut bytes = Bytes { rest: file };
        if edition == Edition::Second {
            bytes.number()?;
        }
        let m = bytes.number()?;
        let (divisions, size) = (bytes.number()?, bytes.number()?);
        let (count, state) = (bytes.number()?, bytes.number()?);
        let marks = bytes.numbers(m)?;
        let mut plans = Vec::new();
        for place in 0..count {
            plans.push(Entry::parse(edition, &mut bytes, m, place)?);
        }
        let file = File {
            divisions,
            size,
            state,
            marks,
            plans,
        };
        bytes.rest.is_empty().then_some(file)
    }

    pub fn write(&self, edition: Edition) -> Vec<u8> {
        let mut numbers = match edition {
            Edition::First => vec![],
            Edition::Second => vec![64],
        };
        let (m, count) = (self.marks.len() as u64, self.plans.len() as u64);
        numbers.extend([m, self.divisions, self.size, count, self.state]);
        numbers.extend(&self.marks);
        for plan in &self.plans {
            plan.write(edition, &mut numbers);
        }
        let mut file = Vec::new();
        for number in numbers {
            encode(&mut file, number);
        }
        file
    }

    /// The pool that `choose` selects from: it "passes over numbers and
    /// settings".
    fn call(&self) -> Call {
        let pool = (0..).zip(&self.plans).map(|(number, plan)| Plan {
            number,
            values: reals(&plan.values),
            constraints: reals(&plan.constraints),
            settings: Vec::new(),
        });
        let (divisions, size) = (self.divisions, self.size);
        let call = Call::new(
            self.marks.len(),
            divisions,
            size,
            self.state,
            pool.collect(),
        );
        Call {
            marks: self.marks.clone(),
            ..call
        }
    }
}

impl Entry {
    /// A plan of the first edition has its place for a number.
    fn parse(edition: Edition, bytes: &mut Bytes, m: u64, place: u64) -> Option<Self> {
        let number = match edition {
            Edition::First => place,
            Edition::Second => bytes.number()?,
        };
        let values = bytes.numbers(m)?;
        let count = bytes.number()?;
        let constraints = bytes.numbers(count)?;
        let mut settings = Vec::new();
        if edition == Edition::Second {
            for _ in 0..bytes.number()? {
                let (parameter, kind, value) = (bytes.number()?, bytes.number()?, bytes.number()?);
                if !good_setting(kind, value) {
                    return None;
                }
                settings.push((parameter, kind, value));
            }
        }
        Some(Entry {
            number,
            values,
            constraints,
            settings,
        })
    }

    fn write(&self, edition: Edition, numbers: &mut Vec<u64>) {
        if edition == Edition::Second {
            numbers.push(self.number);
        }
        numbers.extend(&self.values);
        numbers.push(self.constraints.len() as u64);
        numbers.extend(&self.constraints);
        if edition == Edition::Second {
            numbers.push(self.settings.len() as u64);
            for &(parameter, kind, value) in &self.settings {
                numbers.extend([parameter, kind, value]);
            }
        }
    }
}

fn reals(bits: &[u64]) -> Vec<f64> {
    bits.iter().map(|&bits| to_real(bits)).collect()
}

/// The file, or the refusal: 1 of the first edition, 17 of the second.
pub fn parsed(file: &[u8]) -> Result<File, u64> {
    match edition(file) {
        Edition::First => File::parse(Edition::First, file).ok_or(1),
        Edition::Second => File::parse(Edition::Second, file).ok_or(17),
    }
}

/// The pool of a file, or the refusal that `choose` answers.
fn accepted(file: &[u8]) -> Result<Call, u64> {
    let call = parsed(file)?.call();
    call.refused(SELECT).map_or(Ok(call), Err)
}

/// The refusal that `choose` answers.
pub fn refused(file: &[u8]) -> Option<u64> {
    accepted(file).err()
}

/// The text that `choose` prints for a file.
pub fn choose(file: &[u8]) -> String {
    let call = match accepted(file) {
        Ok(call) => call,
        Err(number) => return format!("refused {number}\n"),
    };
    let kept = answers::select(&call);
    let mut text = format!("plans {} kept {}\n", call.pool.len(), kept.list.len());
    for plan in 0..call.pool.len() {
        let line = match kept.lines[plan] {
            NO_LINE => "-".to_string(),
            line => line.to_string(),
        };
        let place = kept
            .list
            .iter()
            .position(|&k| k == plan)
            .map_or(0, |at| at + 1);
        text.push_str(&format!("{plan} {} {line} {place}\n", kept.fronts[plan]));
    }
    text
}

/// A number in the file's form.
pub fn encode(file: &mut Vec<u8>, mut number: u64) {
    while number > 127 {
        file.push((number & 127) as u8 | 128);
        number >>= 7;
    }
    file.push(number as u8);
}
