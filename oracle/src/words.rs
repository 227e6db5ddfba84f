//! Lines as lists of unsigned 64-bit numbers, and how other values are coded
//! in them.

/// The one NaN that goes out.
pub const NAN: u64 = 9221120237041090560;

/// The most bytes of a file in parts: some more than are accepted.
pub const LONGEST: usize = 65_664;

/// Commands by name and number; README describes each.
pub const COMMANDS: [(&str, u64); 50] = [
    ("words", 10),
    ("f64", 11),
    ("usize", 12),
    ("i64", 13),
    ("f64_range", 14),
    ("power", 20),
    ("root", 21),
    ("sqrt", 22),
    ("round", 23),
    ("midpoint", 24),
    ("clamp", 25),
    ("dominates", 30),
    ("constrained_dominates", 31),
    ("minimize_space", 32),
    ("fronts", 40),
    ("fronts_constrained", 41),
    ("das_dennis", 50),
    ("table_digest", 54),
    ("auto_divisions", 51),
    ("point_count", 52),
    ("population", 53),
    ("normalize", 60),
    ("associate", 61),
    ("distance", 62),
    ("associate_second", 63),
    ("distance_second", 64),
    ("normalize_second", 65),
    ("select", 70),
    ("select_second", 71),
    ("sample_random", 80),
    ("extract", 81),
    ("crossover", 82),
    ("sbx", 83),
    ("mutate", 84),
    ("polynomial", 85),
    ("tournament", 86),
    ("step", 87),
    ("step_second", 88),
    ("session", 90),
    ("session_second", 91),
    ("session_window", 92),
    ("session_second_window", 93),
    ("choose", 95),
    ("choose_parts", 96),
    ("choose_digest", 97),
    ("price", 100),
    ("load", 105),
    ("load_digest", 106),
    ("convert", 110),
    ("convert_digest", 111),
];

/// Reads a line: numbers parted by single spaces; the first may be a
/// command's name.
pub fn read(line: &str) -> Result<Vec<u64>, String> {
    let mut numbers = Vec::new();
    for (at, token) in line.split(' ').enumerate() {
        if !token.is_empty() && token.bytes().all(|b| b.is_ascii_digit()) {
            numbers.push(
                token
                    .parse()
                    .map_err(|_| format!("{token} is not below 2^64"))?,
            );
            continue;
        }
        match COMMANDS.iter().find(|(name, _)| *name == token) {
            Some((_, number)) if at == 0 => numbers.push(*number),
            _ => return Err(format!("'{token}' is no number")),
        }
    }
    Ok(numbers)
}

pub fn write(numbers: &[u64]) -> String {
    let texts: Vec<String> = numbers.iter().map(u64::to_string).collect();
    texts.join(" ")
}

/// A real as the number its bits form, every NaN as the one.
pub fn of_real(x: f64) -> u64 {
    if x.is_nan() { NAN } else { x.to_bits() }
}

pub fn push_reals(line: &mut Vec<u64>, reals: &[f64]) {
    line.extend(reals.iter().map(|&x| of_real(x)));
}

/// The reals after their count.
pub fn push_counted_reals(line: &mut Vec<u64>, reals: &[f64]) {
    line.push(reals.len() as u64);
    push_reals(line, reals);
}

/// A mark and a number: mark 0 for none.
pub fn push_optional(line: &mut Vec<u64>, given: Option<u64>) {
    line.extend([given.is_some() as u64, given.unwrap_or(0)]);
}

/// Every number in its place goes into one: from 0 on, times the generator's
/// multiplier plus the number, modulo 2^64.
pub fn digest(numbers: impl IntoIterator<Item = u64>) -> u64 {
    numbers.into_iter().fold(0, |digest: u64, number| {
        digest
            .wrapping_mul(fastrand::MULTIPLIER)
            .wrapping_add(number)
    })
}

/// How many bytes they are, and each of them or their digest.
pub fn told(bytes: &[u8], whole: bool) -> Vec<u64> {
    let numbers = bytes.iter().map(|&byte| u64::from(byte));
    let mut line = vec![bytes.len() as u64];
    if whole {
        line.extend(numbers);
    } else {
        line.push(digest(numbers));
    }
    line
}

/// 2^n as a double.
pub fn two(n: i32) -> f64 {
    f64::from_bits(((n + 1023) as u64) << 52)
}

/// The bits of reals, to compare them: a NaN as it is.
pub fn bits(reals: &[f64]) -> Vec<u64> {
    reals.iter().map(|x| x.to_bits()).collect()
}

pub fn to_real(bits: u64) -> f64 {
    let x = f64::from_bits(bits);
    if x.is_nan() { f64::from_bits(NAN) } else { x }
}

/// An Int n is 2n from zero up and -2n - 1 below.
pub fn of_int(n: i64) -> u64 {
    if n >= 0 {
        2 * n as u64
    } else {
        2 * !n as u64 + 1
    }
}

pub fn to_int(code: u64) -> i64 {
    let half = (code / 2) as i64;
    if code % 2 == 0 { half } else { -half - 1 }
}

/// Takes a line's numbers one after the other.
pub struct Reader<'a> {
    rest: &'a [u64],
}

impl<'a> Reader<'a> {
    pub fn new(numbers: &'a [u64]) -> Self {
        Reader { rest: numbers }
    }

    pub fn number(&mut self) -> Result<u64, String> {
        let (first, rest) = self.rest.split_first().ok_or("the line ends early")?;
        self.rest = rest;
        Ok(*first)
    }

    pub fn count(&mut self) -> Result<usize, String> {
        Ok(self.number()? as usize)
    }

    pub fn real(&mut self) -> Result<f64, String> {
        Ok(to_real(self.number()?))
    }

    pub fn int(&mut self) -> Result<i64, String> {
        Ok(to_int(self.number()?))
    }

    /// 0 or 1.
    pub fn flag(&mut self) -> Result<bool, String> {
        match self.number()? {
            0 => Ok(false),
            1 => Ok(true),
            other => Err(format!("{other} stands where 0 or 1 belongs")),
        }
    }

    /// A mark and a number: mark 0 for none.
    pub fn optional(&mut self) -> Result<Option<u64>, String> {
        let given = self.flag()?;
        let number = self.number()?;
        Ok(given.then_some(number))
    }

    /// So many items; no memory is set aside before they are there.
    pub fn list<T>(
        &mut self,
        count: usize,
        item: impl Fn(&mut Self) -> Result<T, String>,
    ) -> Result<Vec<T>, String> {
        let mut items = Vec::new();
        for _ in 0..count {
            items.push(item(self)?);
        }
        Ok(items)
    }

    /// A count and so many items.
    pub fn counted<T>(
        &mut self,
        item: impl Fn(&mut Self) -> Result<T, String>,
    ) -> Result<Vec<T>, String> {
        let count = self.count()?;
        self.list(count, item)
    }

    pub fn reals(&mut self, count: usize) -> Result<Vec<f64>, String> {
        self.list(count, Self::real)
    }

    /// A count and so many bytes.
    pub fn bytes(&mut self) -> Result<Vec<u8>, String> {
        self.counted(|r| u8::try_from(r.number()?).map_err(|_| "a byte is above 255".to_string()))
    }

    /// A file in parts: its head, a body so many times over, and its tail.
    pub fn parts(&mut self) -> Result<Vec<u8>, String> {
        let head = self.bytes()?;
        let times = self.count()?;
        let (body, tail) = (self.bytes()?, self.bytes()?);
        let length = times.saturating_mul(body.len());
        if times > LONGEST || head.len() + length + tail.len() > LONGEST {
            return Err(format!("a file of more than {LONGEST} bytes"));
        }
        Ok([head, body.repeat(times), tail].concat())
    }

    pub fn end(&self) -> Result<(), String> {
        if self.rest.is_empty() {
            Ok(())
        } else {
            Err(format!("{} numbers too many", self.rest.len()))
        }
    }
}
