//! Measures how far the stand-in powers lie from the platform's `powf`, in
//! doubles between the two results, over the arguments that breeding forms.

use std::sync::atomic::Ordering;

use crate::powers::{self, power, root};
use crate::sampler::genetic;
use crate::words::two;

/// Chance for the arguments (xorshift64*).
struct Chance(u64);

impl Chance {
    fn word(&mut self) -> u64 {
        self.0 ^= self.0 >> 12;
        self.0 ^= self.0 << 25;
        self.0 ^= self.0 >> 27;
        self.0.wrapping_mul(0x2545F4914F6CDD1D)
    }

    /// Uniform from 1 to 2^bits.
    fn even(&mut self, bits: u32) -> u64 {
        (self.word() >> (64 - bits)) + 1
    }

    /// From 1 to 2^bits, every size as likely as any other.
    fn uneven(&mut self, bits: u32) -> u64 {
        let bits = 1 + (self.word() >> 32) as u32 % bits;
        self.even(bits)
    }
}

fn doubles_between(x: f64, y: f64) -> u64 {
    x.to_bits().abs_diff(y.to_bits())
}

/// Between R and the platform's root.
fn root_gap(v: f64, k: u32) -> u64 {
    doubles_between(root(v, k), v.powf(1.0 / f64::from(k)))
}

/// Gaps seen: how often each small one, and the largest with its argument.
#[derive(Clone)]
struct Gaps {
    counts: [u64; 64],
    seen: u64,
    sum: u64,
    largest: u64,
    at: f64,
}

impl Gaps {
    fn new() -> Self {
        Gaps {
            counts: [0; 64],
            seen: 0,
            sum: 0,
            largest: 0,
            at: 0.0,
        }
    }

    fn add(&mut self, gap: u64, argument: f64) {
        self.counts[gap.min(63) as usize] += 1;
        self.seen += 1;
        self.sum += gap;
        if gap > self.largest {
            self.largest = gap;
            self.at = argument;
        }
    }

    fn join(&mut self, other: &Gaps) {
        for (mine, theirs) in self.counts.iter_mut().zip(other.counts) {
            *mine += theirs;
        }
        self.seen += other.seen;
        self.sum += other.sum;
        if other.largest > self.largest {
            self.largest = other.largest;
            self.at = other.at;
        }
    }

    fn median(&self) -> usize {
        let mut below = 0;
        for (gap, count) in self.counts.iter().enumerate() {
            below += count;
            if 2 * below >= self.seen {
                return gap;
            }
        }
        63
    }

    fn show(&self) -> String {
        format!(
            "equal {:5.1} %  median {}  mean {:.2}  largest {} (at bits {})",
            100.0 * self.counts[0] as f64 / self.seen as f64,
            self.median(),
            self.sum as f64 / self.seen as f64,
            self.largest,
            self.at.to_bits(),
        )
    }
}

const RANGES: [&str; 4] = [
    "P over y = j / 2^53",
    "R over v = 2u, u <= 1/2",
    "R over v = 1 / (2 (1 - u)), u > 1/2",
    "R over the mutation's val",
];

/// For one k: uniform draws (typical), and those with many small and large
/// arguments (largest).
fn gaps(k: u32, count: u64, chance: &mut Chance) -> [[Gaps; 2]; 4] {
    let mut all = [(); 4].map(|()| [Gaps::new(), Gaps::new()]);
    let exponent = f64::from(k);
    for turn in 0..2 * count {
        let uneven = (turn % 2) as usize;
        // The first turns go through the ends one by one.
        let part = |chance: &mut Chance, bits: u32| {
            if uneven == 0 {
                chance.even(bits)
            } else if turn / 2 < 512 {
                turn / 2 + 1
            } else {
                chance.uneven(bits)
            }
        };

        let y = part(chance, 53) as f64 / two(53);
        let p = power(y, k);
        // Powers below the normal range are told apart further on.
        if p >= f64::MIN_POSITIVE {
            all[0][uneven].add(doubles_between(p, y.powf(exponent)), y);
        }

        let v = part(chance, 51) as f64 / two(51);
        all[1][uneven].add(root_gap(v, k), v);

        let rest = part(chance, 51).min((1 << 51) - 1) as f64 / two(52);
        let v = 1.0 / (2.0 * rest);
        all[2][uneven].add(root_gap(v, k), v);

        let u = (part(chance, 52) - 1).min((1 << 52) - 1) as f64 / two(52);
        let y = chance.even(53) as f64 / two(53);
        let p = power(y, k);
        let v = if u < 0.5 {
            2.0 * u + (1.0 - 2.0 * u) * p
        } else {
            2.0 * (1.0 - u) + 2.0 * (u - 0.5) * p
        };
        // A draw of 0 hands the bare power on: told apart further on.
        if v >= 2.0 / two(52) {
            all[3][uneven].add(root_gap(v, k), v);
        }
    }
    // Just below 1 the roundings of P can lean one way, most of all near
    // y = 1 - t / 2^26: more of those, one power costing little.
    for turn in 0..20 * count {
        let below = if turn % 2 == 0 {
            chance.uneven(52)
        } else {
            let t = 1 + chance.word() % 4096;
            let around = (1 << 23) / t;
            (t << 27) + chance.word() % (2 * around) - around
        };
        let y = 1.0 - below as f64 / two(53);
        all[0][1].add(doubles_between(power(y, k), y.powf(exponent)), y);
    }
    all
}

fn show(title: &str, all: &[[Gaps; 2]; 4]) {
    println!("{title}");
    for (range, [even, uneven]) in RANGES.iter().zip(all) {
        let mut both = even.clone();
        both.join(uneven);
        println!("  {range}");
        println!("    uniform:     {}", even.show());
        println!("    with ends:   {}", both.show());
    }
}

/// Runs the same call with the stand-ins and with the real powers.
fn both_ways<T>(call: impl Fn() -> T) -> (T, T) {
    let with_stand_ins = call();
    powers::REAL.store(true, Ordering::Relaxed);
    let with_real = call();
    powers::REAL.store(false, Ordering::Relaxed);
    (with_stand_ins, with_real)
}

/// How far a bred setting moves when the real powers take the stand-ins'
/// place: Floats within 0..1, and Ints within 0..1000 as breeding rounds them.
fn measure_children(chance: &mut Chance) {
    println!("bred settings, stand-ins against real powers, Floats in 0..1, Ints in 0..1000");
    for (eta, name) in [(30.0, "eta 30"), (20.0, "eta 20"), (-1.0, "eta 0 to 99")] {
        for sbx in [true, false] {
            let (mut equal, mut largest, mut ints) = (0_u64, 0.0_f64, 0_u64);
            let count = 200_000;
            for _ in 0..count {
                let eta = if eta < 0.0 {
                    (chance.word() % 100) as f64
                } else {
                    eta
                };
                let state = chance.word();
                let x = chance.even(53) as f64 / two(53);
                let y = chance.even(53) as f64 / two(53);
                let child = |scale: f64| {
                    let mut rng = fastrand::Rng::with_seed(state);
                    let (x, y) = ((x * scale).max(0.0), (y * scale).max(0.0));
                    let (x, y) = if scale > 1.0 {
                        (x.round(), y.round())
                    } else {
                        (x, y)
                    };
                    if sbx {
                        genetic::sbx_crossover_f64(&mut rng, x, y, 0.0, scale, eta).0
                    } else {
                        genetic::polynomial_mutation_f64(&mut rng, x, 0.0, scale, eta)
                    }
                };
                let (stand_in, real) = both_ways(|| child(1.0));
                equal += (stand_in.to_bits() == real.to_bits()) as u64;
                largest = largest.max((stand_in - real).abs());
                let (stand_in, real) = both_ways(|| child(1000.0).round());
                ints += (stand_in != real) as u64;
            }
            println!(
                "  {} {name}: equal {:.1} %, largest difference {largest:e}, Ints that differ {ints} of {count}",
                if sbx { "crossover" } else { "mutation " },
                100.0 * equal as f64 / count as f64,
            );
        }
    }
}

pub fn measure() {
    let mut chance = Chance(0x9E3779B97F4A7C15);
    measure_children(&mut chance);
    for k in [1, 2, 3, 6, 21, 31, 100] {
        show(&format!("k = {k}"), &gaps(k, 300_000, &mut chance));
    }
    let mut total = [(); 4].map(|()| [Gaps::new(), Gaps::new()]);
    let mut worst = [(0, 0); 4];
    for k in 1..=100 {
        let all = gaps(k, 30_000, &mut chance);
        for range in 0..4 {
            for part in 0..2 {
                total[range][part].join(&all[range][part]);
                if all[range][part].largest > worst[range].1 {
                    worst[range] = (k, all[range][part].largest);
                }
            }
        }
    }
    show("all k from 1 to 100", &total);
    println!("  largest by range (k, doubles): {worst:?}");

    // A draw of exactly 0 hands the bare power P(y, k) on to R: far smaller
    // arguments than any other draw gives.
    let mut bare = Gaps::new();
    let mut worst = (0, 0.0, 0);
    for k in 1..=100_u32 {
        for _ in 0..20_000 {
            let p = power(chance.uneven(53) as f64 / two(53), k);
            if p < f64::MIN_POSITIVE {
                continue;
            }
            let gap = root_gap(p, k);
            bare.add(gap, p);
            if gap > worst.2 {
                worst = (k, p, gap);
            }
        }
    }
    println!("R of bare powers (draw 0), normal range, k from 1 to 100");
    println!("  {}", bare.show());
    println!(
        "  largest: k = {}, v = {:e}, {} doubles",
        worst.0, worst.1, worst.2
    );

    // Powers below the normal range: P itself, and R of them (draw 0 again).
    let mut below = [Gaps::new(), Gaps::new()];
    worst = (0, 0.0, 0);
    for k in 2..=100_u32 {
        let exponent = f64::from(k);
        // y from the least with a power above 0 to the least with a normal one.
        let low = 2.0_f64.powf(-1074.0 / exponent);
        let high = 2.0_f64.powf(-1022.0 / exponent);
        for _ in 0..2000 {
            let y = low + (high - low) * (chance.even(52) as f64 / two(52));
            let y = (y * two(53)).floor() / two(53);
            let p = power(y, k);
            if p == 0.0 || p >= f64::MIN_POSITIVE {
                continue;
            }
            below[0].add(doubles_between(p, y.powf(exponent)), y);
            let gap = root_gap(p, k);
            below[1].add(gap, p);
            if gap > worst.2 {
                worst = (k, p, gap);
            }
        }
    }
    println!("powers below 2^-1022, k from 2 to 100");
    println!("  P: {}", below[0].show());
    println!("  R of them: {}", below[1].show());
    println!(
        "  R's largest: k = {}, v = {:e}, {} doubles",
        worst.0, worst.1, worst.2
    );
}
