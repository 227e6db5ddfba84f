//! A trial load, written from document 02 (M-106) alone: the Rust that is
//! carried over makes no pool files. The generator is the stand-in's.

use crate::pool_file::{self, Bytes, MAX_FILE};
use crate::refusals;
use crate::words::{Reader, of_real, told};

pub const LOAD: u64 = 105;
pub const LOAD_DIGEST: u64 = 106;

/// "m, H, size, plan count, constraint count, seed and k"
#[derive(Clone, Copy)]
pub struct Load {
    pub objectives: u64,
    pub divisions: u64,
    pub size: u64,
    pub plans: u64,
    pub constraints: u64,
    pub seed: u64,
    pub skip: u64,
}

impl Load {
    /// The seven numbers in their order.
    pub fn numbers(&self) -> [u64; 7] {
        let Load {
            objectives,
            divisions,
            size,
            plans,
            constraints,
            seed,
            skip,
        } = *self;
        [objectives, divisions, size, plans, constraints, seed, skip]
    }

    /// In the pool file's form.
    pub fn input(&self) -> Vec<u8> {
        let mut input = Vec::new();
        for number in self.numbers() {
            pool_file::encode(&mut input, number);
        }
        input
    }

    fn parse(input: &[u8]) -> Option<Self> {
        let mut bytes = Bytes { rest: input };
        let numbers = bytes.numbers(7)?;
        if !bytes.rest.is_empty() {
            return None;
        }
        let load = Load {
            objectives: numbers[0],
            divisions: numbers[1],
            size: numbers[2],
            plans: numbers[3],
            constraints: numbers[4],
            seed: numbers[5],
            skip: numbers[6],
        };
        Some(load)
    }

    /// "counts that refusal 2, 3, 4, 7 or 8 would turn down in `choose`"
    fn bad_counts(&self) -> bool {
        !(1..=8).contains(&self.objectives)
            || refusals::bad_size(self.size)
            || refusals::bad_divisions(self.objectives as usize, self.divisions)
            || !(1..=1024).contains(&self.plans)
            || self.constraints > 16
    }

    /// The file, whatever its length, of counts that pass.
    pub fn file(&self) -> Vec<u8> {
        let mut rng = fastrand::Rng::with_seed(ahead(self.seed, self.skip));
        let mut drawn = Vec::new();
        for _ in 0..self.plans {
            for _ in 0..self.objectives {
                pool_file::encode(&mut drawn, of_real(rng.f64()));
            }
            pool_file::encode(&mut drawn, self.constraints);
            for _ in 0..self.constraints {
                pool_file::encode(&mut drawn, of_real(rng.f64() - 0.5));
            }
        }
        // The state after the last draw stands before what was drawn.
        let mut file = Vec::new();
        for number in [
            self.objectives,
            self.divisions,
            self.size,
            self.plans,
            rng.s,
        ] {
            pool_file::encode(&mut file, number);
        }
        file.extend((0..self.objectives).map(|_| 0));
        file.extend(drawn);
        file
    }
}

/// The state k words on. A step is s -> a s + c, so that k of them are
/// a^k s + c (1 + a + .. + a^(k - 1)), and the sum is (a^k - 1) / (a - 1). As
/// a - 1 is 4 times an odd number, the quotient modulo 2^64 is had from a^k
/// modulo 2^66: a quarter of a^k - 1, times the odd number's inverse.
pub fn ahead(state: u64, k: u64) -> u64 {
    let there = closed(state, k);
    // The same by steps: from the start where they are few, and the last ones.
    let few = k.min(1000);
    assert_eq!(
        there,
        stepped(closed(state, k - few), few),
        "the last words by steps"
    );
    // The same in two parts, which add up to k or to 2^64 more.
    for part in [k / 3, k.wrapping_mul(0x9E3779B97F4A7C15)] {
        let rest = k.wrapping_sub(part);
        assert_eq!(
            there,
            closed(closed(state, part), rest),
            "one part and then the other"
        );
    }
    there
}

fn closed(state: u64, k: u64) -> u64 {
    let power = power(fastrand::MULTIPLIER.into(), k);
    let odd = (fastrand::MULTIPLIER - 1) / 4;
    let quarter = ((power - 1) / 4) as u64;
    let sum = quarter.wrapping_mul(inverse(odd));
    (power as u64)
        .wrapping_mul(state)
        .wrapping_add(fastrand::INCREMENT.wrapping_mul(sum))
}

fn stepped(state: u64, k: u64) -> u64 {
    let mut rng = fastrand::Rng::with_seed(state);
    for _ in 0..k {
        rng.word();
    }
    rng.s
}

/// Modulo 2^128, by squares.
fn power(a: u128, k: u64) -> u128 {
    let (mut power, mut square, mut left): (u128, u128, u64) = (1, a, k);
    while left > 0 {
        if left % 2 == 1 {
            power = power.wrapping_mul(square);
        }
        square = square.wrapping_mul(square);
        left /= 2;
    }
    power
}

/// Of an odd number, modulo 2^64: each turn doubles the places that are right.
fn inverse(odd: u64) -> u64 {
    let mut inverse = odd;
    while odd.wrapping_mul(inverse) != 1 {
        inverse = inverse.wrapping_mul(2_u64.wrapping_sub(odd.wrapping_mul(inverse)));
    }
    inverse
}

/// The load's file, or the refusal: 1, then 13.
pub fn written(input: &[u8]) -> Result<Vec<u8>, u64> {
    let load = Load::parse(input).ok_or(1_u64)?;
    if load.bad_counts() {
        return Err(13);
    }
    let file = load.file();
    if file.len() > MAX_FILE {
        return Err(13);
    }
    let refused = pool_file::refused(&file);
    assert_eq!(refused, None, "`choose` turns no load down");
    Ok(file)
}

pub fn answer(command: u64, r: &mut Reader) -> Result<Vec<u64>, String> {
    let room = r.number()?;
    let input = r.bytes()?;
    let file = match written(&input) {
        Err(number) => return Ok(vec![number]),
        Ok(file) if file.len() as u64 > room => return Ok(vec![10]),
        Ok(file) => file,
    };
    Ok([vec![0], told(&file, command == LOAD)].concat())
}

/// What the program prints: the file, or `refused N`.
pub fn printed(input: &[u8]) -> Vec<u8> {
    written(input).unwrap_or_else(|number| format!("refused {number}\n").into_bytes())
}
