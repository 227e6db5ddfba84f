//! Sessions on the published problems DTLZ1 to DTLZ4, through the Rust wrapper, beside the figures of Deb and Jain 2014. Exit code 1
//! where a call is refused, or where plans that lie on the targets are not at a distance of 0.

#![allow(dead_code)]

mod timing;

use std::f64::consts::PI;

use locustdomino::{Dimension, Direction, Directions, Edition, Operators, Plan, Refusal, Session, Setting};

/// A row of the paper's table: the problem's number, objectives, divisions, size, generations; best, median and worst.
struct Published {
    problem: usize,
    objectives: usize,
    divisions: usize,
    size: usize,
    generations: usize,
    figures: [f64; 3],
}

const fn published(problem: usize, objectives: usize, generations: usize, figures: [f64; 3]) -> Published {
    let (divisions, size) = if objectives == 3 { (12, 92) } else { (6, 212) };
    Published { problem, objectives, divisions, size, generations, figures }
}

const PAPER: [Published; 8] = [
    published(1, 3, 400, [4.880e-4, 1.308e-3, 4.880e-3]),
    published(2, 3, 250, [1.262e-3, 1.357e-3, 2.114e-3]),
    published(3, 3, 1000, [9.751e-4, 4.007e-3, 6.665e-3]),
    published(4, 3, 600, [2.915e-4, 5.970e-4, 4.286e-1]),
    published(1, 5, 600, [5.116e-4, 9.799e-4, 1.979e-3]),
    published(2, 5, 350, [4.254e-3, 4.982e-3, 5.862e-3]),
    published(3, 5, 1000, [3.086e-3, 5.960e-3, 1.196e-2]),
    published(4, 5, 1000, [9.849e-4, 1.255e-3, 1.721e-3]),
];

// ---- problems

impl Published {
    /// How many settings a plan has, each from 0 to 1: one less than the objectives, which say where on the front, and 5 or 10 more,
    /// which say how far from it.
    fn settings(&self) -> usize {
        self.objectives - 1 + if self.problem == 1 { 5 } else { 10 }
    }

    /// The exponent of the settings that say where.
    fn alpha(&self) -> f64 {
        if self.problem == 4 { 100.0 } else { 1.0 }
    }

    /// The objectives' values, all to be minimised.
    fn row(&self, settings: &[f64]) -> Vec<f64> {
        let (places, rest) = settings.split_at(self.objectives - 1);
        let away = rest.iter().map(|x| x - 0.5);
        let g = if self.problem % 2 == 1 {
            100.0 * away.map(|d| 1.0 + d * d - (20.0 * PI * d).cos()).sum::<f64>()
        } else {
            away.map(|d| d * d).sum()
        };
        // Of each place what the objectives before share in, and what is left for the one at it.
        let parts: Vec<(f64, f64)> = match self.problem {
            1 => places.iter().map(|&x| (x, 1.0 - x)).collect(),
            _ => places.iter().map(|x| (x.powf(self.alpha()) * PI / 2.0).sin_cos()).map(|(sin, cos)| (cos, sin)).collect(),
        };
        let radius = if self.problem == 1 { 0.5 } else { 1.0 } * (1.0 + g);
        let value = |objective: usize| {
            let shared = &parts[..parts.len() - objective];
            let own = if objective == 0 { 1.0 } else { parts[parts.len() - objective].1 };
            radius * own * shared.iter().map(|part| part.0).product::<f64>()
        };
        (0..self.objectives).map(value).collect()
    }

    /// Where the reference lines meet the true front: the plane of sum 0.5, or the sphere of radius 1.
    fn targets(&self) -> Vec<Vec<f64>> {
        let mut lines = Vec::new();
        directions(self.objectives, self.divisions, &mut Vec::new(), &mut lines);
        let met = |line: Vec<usize>| {
            let line: Vec<f64> = line.iter().map(|&i| i as f64).collect();
            let length = match self.problem {
                1 => 2.0 * line.iter().sum::<f64>(),
                _ => line.iter().map(|x| x * x).sum::<f64>().sqrt(),
            };
            line.iter().map(|x| x / length).collect()
        };
        lines.into_iter().map(met).collect()
    }

    /// The settings of a plan that lies on a target.
    fn on(&self, target: &[f64]) -> Vec<f64> {
        let place = |objective: usize| {
            // What the objectives before share in, and this one's own.
            let (before, own) = (&target[..objective], target[objective]);
            let share = match self.problem {
                1 => before.iter().sum::<f64>() / (before.iter().sum::<f64>() + own).max(f64::MIN_POSITIVE),
                _ => own.atan2(before.iter().map(|x| x * x).sum::<f64>().sqrt()) / (PI / 2.0),
            };
            share.powf(1.0 / self.alpha())
        };
        let places = (1..self.objectives).rev().map(place);
        places.chain(std::iter::repeat(0.5)).take(self.settings()).collect()
    }
}

/// Every list of so many whole numbers of a sum.
fn directions(left: usize, sum: usize, begun: &mut Vec<usize>, all: &mut Vec<Vec<usize>>) {
    if left == 1 {
        all.push([&begun[..], &[sum]].concat());
        return;
    }
    for i in 0..=sum {
        begun.push(i);
        directions(left - 1, sum - i, begun, all);
        begun.pop();
    }
}

/// The inverted generational distance: the mean over the targets of the distance to the nearest row.
fn distance(targets: &[Vec<f64>], rows: &[Vec<f64>]) -> f64 {
    let apart = |a: &[f64], b: &[f64]| a.iter().zip(b).map(|(a, b)| (a - b) * (a - b)).sum::<f64>().sqrt();
    let nearest = |target: &Vec<f64>| rows.iter().map(|row| apart(target, row)).fold(f64::INFINITY, f64::min);
    targets.iter().map(nearest).sum::<f64>() / targets.len() as f64
}

// ---- sessions

/// How a session is run: its edition, and whether the caller exchanges settings between siblings before the plans are tried.
#[derive(Clone, Copy)]
struct Way {
    edition: Edition,
    exchanges: bool,
}

/// So many times the paper's generations.
const TIMES: [usize; 3] = [1, 3, 10];

const WAYS: [(Way, &str); 3] = [
    (Way { edition: Edition::First, exchanges: false }, "1"),
    (Way { edition: Edition::Second, exchanges: false }, "2"),
    (Way { edition: Edition::Second, exchanges: true }, "2, exchanged by the caller"),
];

/// The caller's own draws (splitmix64).
struct Coin(u64);

impl Coin {
    fn toss(&mut self) -> bool {
        self.0 = self.0.wrapping_add(0x9E3779B97F4A7C15);
        let mixed = (self.0 ^ (self.0 >> 30)).wrapping_mul(0xBF58476D1CE4E5B9);
        let mixed = (mixed ^ (mixed >> 27)).wrapping_mul(0x94D049BB133111EB);
        mixed >> 63 == 1
    }
}

/// The rows of the populations of a session after so many bred generations, a rising list; one generation, the first, is drawn.
fn populations(problem: &Published, after: &[usize], way: Way, seed: u64) -> Result<Vec<Vec<Vec<f64>>>, Refusal> {
    let Published { objectives, divisions, size, .. } = *problem;
    let minimised = Directions::new(&vec![Direction::Minimize; objectives])?;
    let (operators, dimension) = (Operators::default(), Dimension::float(0.0, 1.0)?);
    let mut session = Session::open(way.edition, &minimised, seed, Some(size), Some(divisions), &operators, None)?;
    let (mut coin, mut history, mut rows, mut found) = (Coin(seed), Vec::new(), Vec::new(), Vec::new());
    // The first plan enters the dimensions and is of no generation.
    for _ in 0..problem.settings() {
        session.sample(&dimension, 0, &[])?;
    }
    let mut next = 1;
    for generation in 0..=after[after.len() - 1] {
        let mut plans = Vec::with_capacity(size);
        for number in next..next + size as u64 {
            let mut settings = Vec::with_capacity(problem.settings());
            for _ in 0..problem.settings() {
                let Setting::Float(x) = session.sample(&dimension, number, &history)? else { unreachable!("a Float") };
                settings.push(x);
            }
            plans.push(settings);
        }
        if way.exchanges {
            exchange(&mut plans, &mut coin);
        }
        // The generation's records are all that the next call looks at.
        history.clear();
        for (number, settings) in (next..).zip(&plans) {
            let row = problem.row(settings);
            let settings: Vec<_> = (0..).zip(settings.iter().map(|&x| Setting::Float(x))).collect();
            history.push(Plan::new(number, &row, &[], &settings)?);
            rows.push(row);
        }
        next += size as u64;
        if after.contains(&generation) {
            // A copy's next call selects from this pool. In edition 1 that is the generation, and all of it is kept.
            let mut copy = session.clone();
            copy.sample(&dimension, next, &history)?;
            found.push(match way.edition {
                Edition::First => rows[rows.len() - size..].to_vec(),
                Edition::Second => copy.waiting().iter().map(|&number| rows[number as usize - 1].clone()).collect(),
            });
        }
    }
    Ok(found)
}

/// Of each two siblings, which come one after the other, each setting changes places with probability one half.
fn exchange(plans: &mut [Vec<f64>], coin: &mut Coin) {
    for pair in plans.chunks_exact_mut(2) {
        let [first, second] = pair else { unreachable!("two") };
        for (a, b) in first.iter_mut().zip(second) {
            if coin.toss() {
                std::mem::swap(a, b);
            }
        }
    }
}

/// Best, median and worst of the sessions of so many seeds, after each of these numbers of generations.
fn figures(problem: &Published, after: &[usize], way: Way, seeds: u64) -> Result<Vec<[f64; 3]>, Refusal> {
    let targets = problem.targets();
    let mut all = vec![Vec::new(); after.len()];
    for seed in 1..=seeds {
        for (to, rows) in all.iter_mut().zip(populations(problem, after, way, seed)?) {
            to.push(distance(&targets, &rows));
        }
    }
    let ranked = |mut found: Vec<f64>| {
        found.sort_by(f64::total_cmp);
        let n = found.len();
        [found[0], (found[(n - 1) / 2] + found[n / 2]) / 2.0, found[n - 1]]
    };
    Ok(all.into_iter().map(ranked).collect())
}

impl Published {
    /// The paper's figures. A star: cited from memory, as all but the medians of three objectives are.
    fn cited(&self) -> [String; 3] {
        let [best, median, worst] = cells(self.figures);
        let star = if self.objectives == 3 { "" } else { "*" };
        [best + "*", median + star, worst + "*"]
    }
}

/// Three digits behind the point, as the paper has them.
fn cells(figures: [f64; 3]) -> [String; 3] {
    figures.map(|x| format!("{x:.3e}"))
}

/// How far plans that lie on the targets are from them: what rounding leaves.
fn rounding() -> f64 {
    let of = |problem: &Published| {
        let targets = problem.targets();
        let rows: Vec<Vec<f64>> = targets.iter().map(|target| problem.row(&problem.on(target))).collect();
        distance(&targets, &rows)
    };
    PAPER.iter().map(of).fold(0.0, f64::max)
}

/// The paper's generations, and every way, beside its figures.
fn beside_the_paper(seeds: [u64; 2]) -> Result<(), Refusal> {
    println!("As many generations as the paper has.\n");
    let [best, median, worst] = ["best", "median", "worst"];
    timing::head(&["problem", "objectives", "generations", "seeds", "edition", best, median, worst, "paper: best", median, worst]);
    for problem in &PAPER {
        let seeds = seeds[usize::from(problem.objectives == 5)];
        for (way, name) in WAYS {
            let ours = figures(problem, &[problem.generations], way, seeds)?[0];
            let counts = [problem.objectives, problem.generations, seeds as usize].map(timing::count);
            let cells = [&counts[..], &[name.to_string()], &cells(ours), &problem.cited()].concat();
            timing::row(&[&[format!("DTLZ{}", problem.problem)], &cells[..]].concat());
        }
    }
    Ok(())
}

/// Edition 2 with more generations, three objectives.
fn longer(seeds: u64) -> Result<(), Refusal> {
    println!("\nEdition 2, three objectives, more generations.\n");
    timing::head(&["problem", "generations", "seeds", "best", "median", "worst", "paper's median", "its generations"]);
    for problem in PAPER.iter().filter(|problem| problem.objectives == 3) {
        let after = TIMES.map(|times| times * problem.generations);
        let ours = figures(problem, &after, WAYS[1].0, seeds)?;
        for (generations, ours) in after.into_iter().zip(ours) {
            let [generations, seeds, its] = [generations, seeds as usize, problem.generations].map(timing::count);
            let [_, median, _] = problem.cited();
            let name = format!("DTLZ{}", problem.problem);
            timing::row(&[&[name, generations, seeds][..], &cells(ours), &[median, its]].concat());
        }
    }
    Ok(())
}

fn main() {
    let mut seeds = [20, 5, 3];
    for (to, from) in seeds.iter_mut().zip(std::env::args().skip(1)) {
        *to = from.parse().ok().filter(|&n| n > 0).expect("a number of seeds");
    }
    let rounding = rounding();
    let run = beside_the_paper([seeds[0], seeds[1]]).and_then(|()| longer(seeds[2]));
    if let Err(refusal) = run {
        println!("refused {}: {refusal}", refusal.number());
        std::process::exit(1);
    }
    println!("\nNo call was refused. Plans on the targets are {rounding:.0e} from them at most.");
    if rounding > 1e-12 {
        std::process::exit(1);
    }
}
