//! Each call once accepted and once refused, and what a refusal leaves.

use locustdomino::{
    Band, Bill, Dimension, Direction, Directions, Edition, Ideal, Load, Operators, Plan, Refusal, Rng, Rule, Selection, Session, Setting,
    choose, convert, generate_offspring, price_water, select, write_load,
};

fn two() -> Directions {
    Directions::new(&[Direction::Minimize, Direction::Maximize]).unwrap()
}

/// Plans on a line: each is better in one objective and worse in the other.
fn pool(n: u64) -> Vec<Plan> {
    let plan = |i| {
        let settings = [(0, Setting::Float(i as f64 / n as f64)), (1, Setting::Int(-(i as i64)))];
        Plan::new(i, &[i as f64, i as f64], &[], &settings).unwrap()
    };
    (0..n).map(plan).collect()
}

#[test]
fn selection() {
    let mut rng = Rng::with_seed(1);
    let mut ideal = Ideal::unknown(&two());
    let chosen = select(Edition::First, &pool(8), &two(), 4, 3, &mut rng, &mut ideal).unwrap();
    assert_eq!(chosen.kept.len(), 3);
    assert_eq!(chosen.fronts, [0; 8]);
    assert!(chosen.lines.iter().all(|l| l.is_some_and(|l| l < 5)));
    assert_eq!(ideal.values(), [0.0, -7.0]);

    let state = rng.state();
    assert_eq!(select(Edition::First, &pool(8), &two(), 4, 0, &mut rng, &mut ideal), Err(Refusal::Size));
    assert_eq!(select(Edition::First, &pool(8), &two(), 4, usize::MAX, &mut rng, &mut ideal), Err(Refusal::Size));
    assert_eq!(select(Edition::First, &[], &two(), 4, 3, &mut rng, &mut ideal), Err(Refusal::Count));
    let nan = [Plan::new(0, &[f64::NAN, 0.0], &[], &[]).unwrap()];
    assert_eq!(select(Edition::First, &nan, &two(), 4, 1, &mut rng, &mut ideal), Err(Refusal::Plan));
    assert_eq!(rng.state(), state);
}

/// What a kept list's rules say, held against the list itself where a front is split: a plan of it is the nearest exactly where
/// none before it is on its line.
fn told_by_the_list(chosen: &Selection) {
    assert_eq!(chosen.rules.len(), chosen.kept.len());
    for (i, (&plan, &rule)) in chosen.kept.iter().zip(&chosen.rules).enumerate() {
        let empty = chosen.kept[..i].iter().all(|&before| chosen.lines[before] != chosen.lines[plan]);
        assert_eq!(rule, if empty { Rule::Nearest } else { Rule::Drawn });
    }
}

#[test]
fn rules() {
    let mut rng = Rng::with_seed(1);
    let mut of = |pool: &[Plan], size| {
        select(Edition::Second, pool, &two(), 4, size, &mut rng, &mut Ideal::unknown(&two())).unwrap()
    };
    // One front, split, of plans on five lines: one more is drawn.
    let split = of(&pool(8), 6);
    told_by_the_list(&split);
    assert_eq!(split.rules, [Rule::Nearest, Rule::Nearest, Rule::Nearest, Rule::Nearest, Rule::Nearest, Rule::Drawn]);
    // The front fits, and fits with places left.
    assert_eq!(of(&pool(3), 3).rules, [Rule::WholeFront; 3]);
    assert_eq!(of(&pool(1), 3).rules, [Rule::WholeFront, Rule::Padding, Rule::Padding]);
    // A front before the split one.
    let best = Plan::new(8, &[-1.0, 9.0], &[], &[]).unwrap();
    let behind = of(&[&pool(8)[..], &[best]].concat(), 3);
    assert_eq!((behind.kept[0], behind.rules[0]), (8, Rule::WholeFront));
    assert!(behind.rules[1..].iter().all(|rule| matches!(rule, Rule::Nearest | Rule::Drawn)));

    let dimensions = [Dimension::float(0.0, 1.0).unwrap(), Dimension::int(-10, 0).unwrap()];
    let mut bred = |n| {
        let operators = Operators::default();
        let mut ideal = Ideal::unknown(&two());
        generate_offspring(Edition::Second, &pool(n), &two(), 4, 6, &mut rng, &dimensions, &operators, &mut ideal).unwrap().selection
    };
    told_by_the_list(&bred(8));
    assert_eq!(bred(1), Selection::default());

    let all = [Rule::WholeFront, Rule::Nearest, Rule::Drawn, Rule::Padding];
    assert_eq!(all.map(Rule::mark), [0, 1, 2, 3]);
    assert_eq!(Rule::Nearest.to_string(), "nearest on an empty line");
}

#[test]
fn step() {
    let dimensions = [Dimension::float(0.0, 1.0).unwrap(), Dimension::int(-10, 0).unwrap()];
    let mut ideal = Ideal::unknown(&two());
    let operators = Operators::default();
    let mut rng = Rng::with_seed(1);
    let bred = generate_offspring(Edition::First, &pool(8), &two(), 4, 5, &mut rng, &dimensions, &operators, &mut ideal).unwrap();
    assert_eq!(bred.selection.kept.len(), 5);
    assert_eq!(bred.plans.len(), 5);
    for plan in &bred.plans {
        let [Setting::Float(x), Setting::Int(n)] = plan[..] else { panic!("another kind") };
        assert!((0.0..=1.0).contains(&x) && (-10..=0).contains(&n));
    }
    let one = generate_offspring(Edition::First, &pool(1), &two(), 4, 5, &mut rng, &dimensions, &operators, &mut ideal).unwrap();
    assert!(one.selection.kept.is_empty() && one.plans.len() == 5);
    let narrow = [Dimension::float(0.0, 0.5).unwrap()];
    let refused = generate_offspring(Edition::First, &pool(8), &two(), 4, 5, &mut rng, &narrow, &operators, &mut ideal);
    assert_eq!(refused, Err(Refusal::Parent));
}

/// A dominated plan far out: in edition 1 it stretches the scale, in edition 2 the plane goes through the plans that dominate it.
#[test]
fn intercepts() {
    let both = Directions::new(&[Direction::Minimize; 2]).unwrap();
    let rows = [[0.0, 2.0], [1.0, 1.0], [2.0, 0.0], [0.0, 20.0]];
    let pool: Vec<Plan> = (0..).zip(rows).map(|(number, row)| Plan::new(number, &row, &[], &[]).unwrap()).collect();
    let lines = |edition| {
        let mut ideal = Ideal::unknown(&both);
        let chosen = select(edition, &pool, &both, 2, 2, &mut Rng::with_seed(1), &mut ideal).unwrap();
        assert_eq!(ideal.values(), [0.0, 0.0]);
        chosen.lines
    };
    assert_eq!(lines(Edition::First), [0, 2, 2, 0].map(Some));
    assert_eq!(lines(Edition::Second), [0, 1, 2, 0].map(Some));
}

/// Two members of a line whose squares share a root: in edition 1 the first listed is the nearest, in edition 2 the one of the lesser square.
#[test]
fn nearest() {
    let both = Directions::new(&[Direction::Minimize; 2]).unwrap();
    let rows = [[1.0, 0.0], [0.0, 1.0], [0.6, 0.8], [0.65, 0.45]];
    let pool: Vec<Plan> = (0..).zip(rows).map(|(number, row)| Plan::new(number, &row, &[], &[]).unwrap()).collect();
    let [first, second] = [Edition::First, Edition::Second].map(|edition| {
        let mut ideal = Ideal::new(&[0.0, 0.0]);
        select(edition, &pool, &both, 2, 3, &mut Rng::with_seed(6), &mut ideal).unwrap()
    });
    assert_eq!(first.lines, second.lines);
    assert_eq!(first.lines, [Some(2), Some(0), Some(1), Some(1)]);
    assert!(first.kept.contains(&2) && !first.kept.contains(&3));
    assert!(second.kept.contains(&3) && !second.kept.contains(&2));
}

/// An infeasible plan with the better row beside a feasible one: in edition 1 the row wins tournaments, in edition 2 the feasible plan.
#[test]
fn tournaments() {
    let one = Directions::new(&[Direction::Minimize]).unwrap();
    let dimensions = [Dimension::float(0.0, 1.0).unwrap()];
    let plan = |number, row, constraint, setting| Plan::new(number, &[row], &[constraint], &[(0, Setting::Float(setting))]).unwrap();
    let pool = [plan(0, 0.0, 1.0, 0.25), plan(1, 1.0, -1.0, 0.75)];
    let [first, second] = [Edition::First, Edition::Second].map(|edition| {
        let mut ideal = Ideal::unknown(&one);
        let operators = Operators::default();
        generate_offspring(edition, &pool, &one, 1, 2, &mut Rng::with_seed(11), &dimensions, &operators, &mut ideal).unwrap()
    });
    assert_eq!(first.selection, second.selection);
    assert_eq!(first.selection.kept, [1, 0]);
    let low = |plan: &Vec<Setting>| matches!(plan[..], [Setting::Float(x)] if x < 0.5);
    assert!(first.plans.iter().all(low) && !second.plans.iter().any(low));
}

/// Two pools of twelve plans, alike but for the rows of infeasible ones, and a size within the feasible ones, so that no infeasible plan is in
/// a split front: in edition 2 kept list, rules, fronts, lines, ideal, children and generator are the same.
#[test]
fn hopeless_plans_change_nothing() {
    let mut rng = 9_u64;
    let mut draw = |n: u64| {
        rng = rng.wrapping_mul(6364136223846793005).wrapping_add(1442695040888963407);
        (rng >> 33) % n
    };
    let absurd = [2f64.powi(1000), -2f64.powi(1000), 1e40, -7.0, 0.5, 3.0];
    let dimensions = [Dimension::float(0.0, 1.0).unwrap()];
    let (mut split, mut parted) = (0, 0);
    for seed in 0..300 {
        let m = 1 + seed as usize % 3;
        let directions = Directions::new(&[Direction::Minimize, Direction::Maximize, Direction::Minimize][..m]).unwrap();
        let (mut pools, mut feasible) = ([vec![], vec![]], vec![]);
        for number in 0..12 {
            let constraint = [-1.0, -0.0, 0.25, 1.25][if number == 0 { 0 } else { draw(4) as usize }];
            feasible.push(constraint <= 0.0);
            let row: Vec<f64> = (0..m).map(|_| draw(10) as f64).collect();
            let settings = [(0, Setting::Float(draw(9) as f64 / 8.0))];
            for pool in &mut pools {
                let hose: Vec<f64> = (0..m).map(|_| absurd[draw(6) as usize]).collect();
                let row = if constraint > 0.0 { &hose } else { &row };
                pool.push(Plan::new(number, row, &[-2.0, constraint], &settings).unwrap());
            }
        }
        let size = 1 + draw(feasible.iter().filter(|&&f| f).count() as u64) as usize;
        let answers = |edition| {
            pools.each_ref().map(|pool| {
                let (mut rng, mut ideal) = (Rng::with_seed(seed), Ideal::unknown(&directions));
                let chosen = select(edition, pool, &directions, 3, size, &mut rng, &mut ideal).unwrap();
                let mut bred_ideal = Ideal::unknown(&directions);
                let operators = Operators::default();
                let bred =
                    generate_offspring(edition, pool, &directions, 3, size, &mut rng, &dimensions, &operators, &mut bred_ideal).unwrap();
                (chosen, ideal.values().to_vec(), bred, bred_ideal.values().to_vec(), rng.state())
            })
        };
        let [one, other] = answers(Edition::Second);
        assert_eq!(one, other);
        // Where a front is split, the feasible plans have a line, and no other.
        let lines: Vec<bool> = one.0.lines.iter().map(Option::is_some).collect();
        assert!(lines == feasible || lines == [false; 12]);
        split += usize::from(lines == feasible);
        let [one, other] = answers(Edition::First);
        parted += usize::from(one.0.kept != other.0.kept);
    }
    assert!(split > 100 && parted > 10, "{split} split, in edition 1 {parted} parted");
}

fn session_of(edition: Edition) {
    let bad = Operators { crossover_prob: 2.0, ..Operators::default() };
    assert_eq!(Session::open(edition, &two(), 1, None, None, &bad, None).unwrap_err(), Refusal::Operators);
    let mut session = Session::open(edition, &two(), 1, Some(4), None, &Operators::default(), None).unwrap();
    assert_eq!(session.edition(), edition);
    assert_eq!((session.size(), session.generation(), session.dimensions()), (4, 0, 0));
    let x = Dimension::float(-1.0, 1.0).unwrap();
    let mut history = vec![];
    for number in 0..9 {
        let setting = session.sample(&x, number, &history).unwrap();
        let Setting::Float(v) = setting else { panic!("another kind") };
        assert!((-1.0..=1.0).contains(&v));
        history.push(Plan::new(number, &[v, v * v], &[], &[(0, setting)]).unwrap());
    }
    assert_eq!((session.generation(), session.dimensions()), (1, 1));
    assert_eq!(session.plans(), [5, 6, 7, 8]);
    // The first generation's plans are a pool of the size: all are kept.
    let mut waiting = session.waiting();
    waiting.sort();
    assert_eq!(waiting, if edition == Edition::Second { vec![1, 2, 3, 4] } else { vec![] });
    let mut copy = session.clone();
    let wrong = vec![history[0]; 4097];
    assert_eq!(session.sample(&x, 9, &wrong), Err(Refusal::Count));
    assert_eq!(session.sample(&x, 9, &history), copy.sample(&x, 9, &history));
    assert_eq!(session.generation(), 2);
    assert_eq!(session.waiting(), copy.waiting());
}

#[test]
fn session() {
    session_of(Edition::First);
    session_of(Edition::Second);
}

/// A session of edition 2 with one objective, of size 4, and what its plans have been tried with.
struct Tried {
    session: Session,
    history: Vec<Plan>,
}

impl Tried {
    fn new() -> Self {
        let one = Directions::new(&[Direction::Minimize]).unwrap();
        let session = Session::open(Edition::Second, &one, 3, Some(4), None, &Operators::default(), None).unwrap();
        let mut tried = Tried { session, history: vec![] };
        tried.ask(0).unwrap();
        tried
    }

    fn ask(&mut self, plan: u64) -> Result<Setting, Refusal> {
        self.session.sample(&Dimension::float(0.0, 1.0).unwrap(), plan, &self.history)
    }

    /// The record of a plan comes behind the others.
    fn record(&mut self, plan: u64, value: f64) {
        self.history.push(Plan::new(plan, &[value], &[], &[(0, Setting::Float(0.5))]).unwrap());
    }

    /// Plans come and are tried; the last call, of another plan, breeds.
    fn generation(&mut self, plans: &[(u64, f64)], next: u64) {
        let generation = self.session.generation();
        for &(plan, _) in plans {
            self.ask(plan).unwrap();
        }
        for &(plan, value) in plans {
            self.record(plan, value);
        }
        assert_eq!(self.session.generation(), generation);
        self.ask(next).unwrap();
        assert_eq!(self.session.generation(), generation + 1);
    }
}

/// With one objective and different values the best plans of parents and children wait, the best first.
#[test]
fn parents_wait() {
    let mut tried = Tried::new();
    // The plan that found the dimension has the best record, and is in no generation.
    tried.record(0, -9.0);
    assert!(tried.session.waiting().is_empty());
    tried.generation(&[(1, 5.0), (2, 1.0), (3, 7.0), (4, 3.0)], 5);
    assert_eq!(tried.session.waiting(), [2, 4, 1, 3]);
    tried.generation(&[(5, 2.0), (6, 9.0), (7, 6.0), (8, 8.0)], 9);
    assert_eq!(tried.session.waiting(), [2, 5, 4, 1]);
    // Later records of plans that wait change nothing: not for the worse, not for the better, and not to what meets 8.
    tried.record(2, 50.0);
    tried.record(1, -50.0);
    tried.record(4, f64::NAN);
    tried.generation(&[(9, 10.0), (10, 4.0), (11, 11.0), (12, 12.0)], 13);
    assert_eq!(tried.session.waiting(), [2, 5, 4, 10]);
}

/// A child whose number waits is left out, and what its record has is not looked at.
#[test]
fn left_out() {
    let mut tried = Tried::new();
    tried.generation(&[(1, 5.0), (2, 1.0), (3, 7.0), (4, 3.0)], 3);
    tried.record(3, f64::NAN);
    for plan in [6, 2, 7] {
        tried.ask(plan).unwrap();
    }
    assert_eq!(tried.session.plans(), [3, 6, 2, 7]);
    // Plans of the generation past the first four are not bred from.
    tried.ask(8).unwrap();
    tried.record(8, -9.0);
    tried.record(2, -9.0);
    tried.record(6, f64::NAN);
    tried.record(7, 4.0);
    assert_eq!(tried.ask(9), Err(Refusal::Plan));
    tried.record(6, 2.0);
    tried.ask(9).unwrap();
    assert_eq!(tried.session.waiting(), [2, 6, 4, 7]);
    assert_eq!(tried.session.plans(), [9]);

    // All are left out: as their records are there, the next call breeds, from the waiting plans alone.
    let mut tried = Tried::new();
    tried.generation(&[(1, 5.0), (2, 1.0), (3, 7.0), (4, 3.0)], 1);
    for plan in 2..=4 {
        tried.ask(plan).unwrap();
    }
    assert_eq!(tried.session.generation(), 1);
    tried.ask(5).unwrap();
    assert_eq!((tried.session.generation(), tried.session.waiting()), (2, vec![2, 4, 1, 3]));
}

/// In edition 1 nobody waits, and a generation is bred from its own plans alone.
#[test]
fn editions_part() {
    let mut first = Session::open(Edition::First, &two(), 1, Some(4), None, &Operators::default(), None).unwrap();
    let mut second = Session::open(Edition::Second, &two(), 1, Some(4), None, &Operators::default(), None).unwrap();
    let x = Dimension::float(-1.0, 1.0).unwrap();
    let mut history = vec![];
    let mut same = 0;
    for number in 0..20 {
        let setting = first.sample(&x, number, &history).unwrap();
        same += u64::from(setting == second.sample(&x, number, &history).unwrap());
        let far = (number as i64 - 2).abs() as f64;
        history.push(Plan::new(number, &[far, -far], &[], &[(0, setting)]).unwrap());
        assert!(first.waiting().is_empty());
    }
    // Up to the second breeding, which plan 9 asks for, the pools are the same.
    assert!((9..20).contains(&same));
}

/// A window is 1 to 64 generations, and one of none is not no window; 14 comes after 5.
#[test]
fn windows() {
    let open = |operators: &Operators, window| {
        Session::open(Edition::Second, &two(), 1, Some(4), None, operators, window).map(|session| session.ideal())
    };
    let bad = Operators { crossover_prob: 2.0, ..Operators::default() };
    for window in [Some(0), Some(65), Some(usize::MAX)] {
        assert_eq!(open(&Operators::default(), window), Err(Refusal::Window));
        assert_eq!(open(&bad, window), Err(Refusal::Operators));
    }
    for window in [None, Some(1), Some(64)] {
        assert_eq!(open(&Operators::default(), window), Ok(vec![f64::INFINITY; 2]));
    }
}

/// The ideal of a session of edition 1 with a window is that of the last generations' plans; without one it stays, as no front is split.
#[test]
fn the_ideal_forgets() {
    let x = Dimension::float(0.0, 1.0).unwrap();
    let ideals = |window: Option<usize>| {
        let directions = Directions::new(&[Direction::Minimize, Direction::Maximize]).unwrap();
        let mut session = Session::open(Edition::First, &directions, 5, Some(4), None, &Operators::default(), window).unwrap();
        let (mut history, mut ideals) = (vec![], vec![]);
        for number in 0..22 {
            let setting = session.sample(&x, number, &history).unwrap();
            if ideals.len() < session.generation() as usize {
                ideals.push(session.ideal());
            }
            // The plans 1 to 4 are the first generation, and the best of each generation is its first plan.
            let worse = number as f64;
            history.push(Plan::new(number, &[worse, -worse], &[], &[(0, setting)]).unwrap());
        }
        ideals
    };
    let first_of = |generations: [u64; 5]| generations.map(|g| vec![4.0 * g as f64 + 1.0; 2]).to_vec();
    assert_eq!(ideals(Some(1)), first_of([0, 1, 2, 3, 4]));
    assert_eq!(ideals(Some(2)), first_of([0, 0, 1, 2, 3]));
    assert_eq!(ideals(Some(64)), first_of([0; 5]));
    assert_eq!(ideals(None), vec![vec![f64::INFINITY; 2]; 5]);
}

#[test]
fn larger_pools() {
    let one = Directions::new(&[Direction::Minimize]).unwrap();
    let pool: Vec<Plan> = (0..2049).map(|i| Plan::new(i, &[(i * 7 % 2049) as f64], &[], &[]).unwrap()).collect();
    let chosen = |edition: Edition, n: usize| {
        let mut ideal = Ideal::unknown(&one);
        select(edition, &pool[..n], &one, 1, 3, &mut Rng::with_seed(1), &mut ideal)
    };
    for edition in [Edition::First, Edition::Second] {
        let most = edition.max_pool();
        assert_eq!(chosen(edition, most).unwrap().fronts.len(), most);
        assert_eq!(chosen(edition, most + 1), Err(Refusal::Count));
    }
    assert_eq!(chosen(Edition::First, 1024), chosen(Edition::Second, 1024));
    assert_eq!((Edition::First.number(), Edition::Second.number()), (1, 2));
    let dimensions = [Dimension::categorical(5).unwrap()];
    let bred = |edition: Edition| {
        let mut ideal = Ideal::unknown(&one);
        let operators = Operators::default();
        generate_offspring(edition, &pool[..2048], &one, 1, 7, &mut Rng::with_seed(1), &dimensions, &operators, &mut ideal)
    };
    assert_eq!(bred(Edition::First), Err(Refusal::Count));
    assert_eq!(bred(Edition::Second).unwrap().plans.len(), 7);
}

/// Bred valves in eighths of a turn: on the step in edition 2, and not in edition 1.
#[test]
fn valves_in_eighths() {
    let directions = Directions::new(&[Direction::Minimize, Direction::Minimize]).unwrap();
    let valve = [Dimension::float_step(0.0, 2.0, 0.125).unwrap()];
    let plan = |n: u64, at: f64| Plan::new(n, &[n as f64, 9.0 - n as f64], &[], &[(0, Setting::Float(at))]).unwrap();
    let pool: Vec<Plan> = (0..6).map(|n| plan(n, 0.3 * n as f64)).collect();
    let off_the_step = |edition: Edition| {
        let mut ideal = Ideal::unknown(&directions);
        let operators = Operators::default();
        let bred =
            generate_offspring(edition, &pool, &directions, 3, 6, &mut Rng::with_seed(5), &valve, &operators, &mut ideal);
        let off = |plan: &&Vec<Setting>| !matches!(plan[..], [Setting::Float(x)] if x * 8.0 == (x * 8.0).round());
        bred.unwrap().plans.iter().filter(off).count()
    };
    assert_ne!(off_the_step(Edition::First), 0);
    assert_eq!(off_the_step(Edition::Second), 0);
}

#[test]
fn limits() {
    assert_eq!(Directions::new(&[]), Err(Refusal::Directions));
    assert_eq!(Dimension::float(1.0, 0.0), Err(Refusal::Dimension));
    assert_eq!(Dimension::float(f64::NAN, 0.0), Err(Refusal::Dimension));
    assert_eq!(Dimension::stepped(0, 4, 0), Err(Refusal::Dimension));
    assert_eq!(Dimension::float_step(1.0, 0.0, 0.0), Err(Refusal::Dimension));
    for step in [0.0, -0.125, f64::NAN, f64::INFINITY, f64::MIN_POSITIVE] {
        assert_eq!(Dimension::float_step(0.0, 1.0, step), Err(Refusal::Step));
    }
    assert!(Dimension::float_step(0.0, 1.0, 1.0 / (1_u64 << 53) as f64).is_ok());
    assert_eq!(Dimension::categorical(0), Err(Refusal::Dimension));
    assert_eq!(Plan::new(0, &[0.0; 9], &[], &[]), Err(Refusal::Plan));
    assert_eq!(Refusal::Full.number(), 11);
}

/// Sessions that breed, in a thread with so much stack.
fn breed_within(kilobytes: usize) {
    let thread = std::thread::Builder::new().stack_size(kilobytes << 10);
    thread.spawn(session).unwrap().join().unwrap();
}

#[test]
fn enough_stack() {
    breed_within(2048);
}

#[test]
#[ignore = "ends the process"]
fn too_little_stack() {
    breed_within(128);
}

#[test]
fn too_little_stack_is_told() {
    let this = std::env::current_exe().unwrap();
    let ended = std::process::Command::new(this).args(["--ignored", "--exact", "too_little_stack"]).output().unwrap();
    let told = String::from_utf8_lossy(&ended.stderr);
    assert!(!ended.status.success() && told.contains("overflowed its stack"), "{told}");
}

#[test]
fn file() {
    assert_eq!(choose(b"no pool"), Err(Refusal::Form));
}

#[test]
fn water() {
    let bands = [(10, 100), (30, 250), (0, 400)].map(|(upper, price)| Band { upper, price });
    // Ten litres at a cent, the eleventh at two and a half: 12.5 cents are 13.
    let bill = price_water(&[10, 11, 30, 31], &bands, &[3, 1, 0, 1]);
    assert_eq!(bill, Ok(Bill { costs: vec![64, 13, 10, 13], total: 100 }));
    assert_eq!(price_water(&[], &bands, &[]), Ok(Bill { costs: vec![], total: 0 }));

    assert_eq!(price_water(&[1], &[], &[0]), Err(Refusal::Bands));
    assert_eq!(price_water(&[1], &[bands[1], bands[0], bands[2]], &[1]), Err(Refusal::Bands));
    assert_eq!(price_water(&[1], &bands, &[1]), Err(Refusal::Litres));
    assert_eq!(price_water(&[1, 1_000_000_001], &bands, &[0]), Err(Refusal::Litres));
    assert_eq!(price_water(&[1], &bands, &[0; 1025]), Err(Refusal::Litres));
    assert_eq!((Refusal::Bands.number(), Refusal::Litres.number()), (15, 16));
}

#[test]
fn editions() {
    // Document 01's pool has three plans, the last two with values of nine bytes.
    let real = |x: f64| write_number(x.to_bits());
    let rows = [[0.0, 0.0], [1.0, 3.0], [4.0, 1.0]].map(|row| row.map(real).concat());
    let header = [2, 1, 2, 3, 5, 0, 0];
    let first = [&header[..], &rows[0], &[0], &rows[1], &[0], &rows[2], &[0]].concat();
    let numbered = |numbers: [u8; 3], ends: [&[u8]; 3]| {
        let plans: Vec<Vec<u8>> =
            (0..3).map(|i| [&[numbers[i]], &rows[i][..], &[0], ends[i]].concat()).collect();
        [&[64], &header[..], &plans.concat()].concat()
    };
    let plain = numbered([0, 1, 2], [&[0]; 3]);
    assert_eq!(convert(&first), Ok(plain.clone()));
    assert_eq!(convert(&plain), Ok(first.clone()));
    let text = b"plans 3 kept 2\n0 0 0 1\n1 1 0 0\n2 1 1 2\n".to_vec();
    // A Float, an Int of -3 and a Categorical; numbers in any order.
    let full = numbered([9, 0, 9], [&[2, 1, 0, 0, 2, 1, 5], &[0], &[1, 3, 2, 7]]);
    for file in [&first, &plain, &full] {
        assert_eq!(choose(file), Ok(text.clone()));
    }
    assert_eq!(convert(&full), Err(Refusal::NotHeld));
    assert_eq!(convert(&numbered([1, 2, 3], [&[0]; 3])), Err(Refusal::NotHeld));
    // A kind of 3 breaks the second form.
    let broken = numbered([0, 1, 2], [&[0], &[1, 3, 3, 7], &[0]]);
    assert_eq!((choose(&broken), convert(&broken)), (Err(Refusal::SecondForm), Err(Refusal::SecondForm)));
    assert_eq!((choose(&first[1..]), convert(&first[1..])), (Err(Refusal::Form), Err(Refusal::Form)));
    assert_eq!((Refusal::SecondForm.number(), Refusal::NotHeld.number()), (17, 18));
}

fn write_number(mut n: u64) -> Vec<u8> {
    let mut bytes = vec![];
    while n > 127 {
        bytes.push(n as u8 | 128);
        n >>= 7;
    }
    bytes.push(n as u8);
    bytes
}

/// The number at the front of bytes.
fn seed_of(bytes: &[u8]) -> u64 {
    let last = bytes.iter().position(|&byte| byte < 128).unwrap();
    bytes[..=last].iter().rev().fold(0, |n, &byte| n << 7 | u64::from(byte & 127))
}

#[test]
fn load() {
    let trial = Load { objectives: 3, divisions: 12, size: 64, plans: 128, constraints: 2, seed: 7, skip: 1 << 63 };
    let file = write_load(&trial).unwrap();
    assert_eq!((file.len(), &file[..5]), (6020, &[3, 12, 64, 128, 1][..]));
    let text = choose(&file).unwrap();
    assert!(text.starts_with(b"plans 128 kept 64\n"));
    // A file's seed is the state after its draws, here five for each plan: words further on, and back.
    let begun = Load { skip: 0, ..trial };
    let after = Load { seed: seed_of(&write_load(&begun).unwrap()[5..]), ..begun };
    assert_eq!(write_load(&after), write_load(&Load { skip: 5 * 128, ..begun }));
    assert_eq!(write_load(&Load { skip: (5_u64 * 128).wrapping_neg(), ..after }), write_load(&begun));

    let refused = |load: Load| assert_eq!(write_load(&load), Err(Refusal::Load), "{load:?}");
    refused(Load { objectives: 9, ..trial });
    refused(Load { size: 0, ..trial });
    refused(Load { divisions: 44, ..trial });
    refused(Load { plans: 1025, ..trial });
    refused(Load { constraints: 17, ..trial });
    // 1,024 plans of seven values have 65,536 bytes, and the file more.
    refused(Load { objectives: 7, divisions: 1, plans: 1024, constraints: 0, ..trial });
    assert!(write_load(&Load { objectives: 7, divisions: 1, plans: 1023, constraints: 0, ..trial }).is_ok());
    assert_eq!(Refusal::Load.number(), 13);
}
