//! Safe calls of Locustdomino: which plans of a pool to keep, the next plans to try, sessions that ask for settings one by one,
//! what the water of the plans kept costs, pool files of trial loads and of both editions. The calls themselves are proved; this
//! crate keeps what they ask of a caller.
//!
//! A session's words are private here. Only the library writes them, so that they are always such as it asks for.
//!
//! A call takes stack: measured on x86-64, [`Session::sample`] 1.72 MB where it breeds and 0.88 elsewhere, [`choose`] 1.45,
//! [`generate_offspring`] 0.85 and [`select`] 0.58. A thread that Rust starts has 2 MB in all, unless it is given more
//! ([`std::thread::Builder::stack_size`]). Where too little is left, the process ends, as at any overflow of a stack: the library's
//! code touches the pages that it takes one by one, so that it meets the guard page.

use std::fmt;

const _: () = assert!(usize::BITS == 64, "the library is for 64-bit machines");

mod raw;

use raw::{DIMENSION_WORDS, PLAN_WORDS, Selecting};

/// The most plans of a selection. Of a pool: [`Edition::max_pool`].
pub const MAX_SIZE: usize = 1024;
/// The most dimensions, and settings of a plan.
pub const MAX_DIMENSIONS: usize = raw::MAX_DIMENSIONS;
/// The most plans of a history.
pub const MAX_HISTORY: usize = 4096;

/// The most bands that water is priced by.
pub const MAX_BANDS: usize = 16;
/// The highest price of a litre, in hundredths of a cent.
pub const MAX_PRICE: u64 = 1_000_000;
/// The most litres of a plan.
pub const MAX_LITRES: u64 = 1_000_000_000;

/// The most bytes of a pool file.
pub const MAX_FILE: usize = 65536;

const MAX_TEXT: usize = 20501;
/// 2^53
const BOUND: i64 = 1 << 53;

// ---- refusals

/// Why a call is turned down: the first reason that applies, in this order, but that [`Window`](Refusal::Window) comes right after
/// [`Operators`](Refusal::Operators) and [`Step`](Refusal::Step) right after [`Dimension`](Refusal::Dimension). What [`Directions`], [`Dimension`] and [`Plan`] cannot
/// hold is turned down when they are made, before any call.
#[derive(Clone, Copy, Debug, PartialEq, Eq)]
#[repr(u8)]
pub enum Refusal {
    Form = 1,
    Directions = 2,
    Size = 3,
    Divisions = 4,
    Operators = 5,
    Dimension = 6,
    Count = 7,
    Plan = 8,
    Parent = 9,
    Room = 10,
    Full = 11,
    /// Looked at right after [`Refusal::Dimension`].
    Step = 12,
    Load = 13,
    Window = 14,
    Bands = 15,
    Litres = 16,
    SecondForm = 17,
    NotHeld = 18,
}

impl Refusal {
    pub fn number(self) -> u8 {
        self as u8
    }

    fn from_code(code: u64) -> Self {
        use Refusal::*;
        let all = [
            Form, Directions, Size, Divisions, Operators, Dimension, Count, Plan, Parent, Room, Full, Step, Load, Window,
            Bands, Litres, SecondForm, NotHeld,
        ];
        let found = all.into_iter().find(|&refusal| refusal as u64 == code);
        found.expect("the library answers 0 or the number of a refusal")
    }

    fn of(code: u64) -> Result<(), Refusal> {
        if code == 0 { Ok(()) } else { Err(Refusal::from_code(code)) }
    }
}

impl fmt::Display for Refusal {
    fn fmt(&self, f: &mut fmt::Formatter) -> fmt::Result {
        f.write_str(match self {
            Refusal::Form => "the pool file is not of the form",
            Refusal::Directions => "objectives are not 1 to 8, or a direction mark is neither 0 nor 1",
            Refusal::Size => {
                "a session's size is above 1,024, or a selection's or generation step's is 0 or above 1,024"
            }
            Refusal::Divisions => "divisions given are not 1 to 199, or there would be more than 1,024 lines",
            Refusal::Operators => {
                "an eta is not a whole number 0 to 99, or the crossover probability is not within 0..1"
            }
            Refusal::Dimension => "a dimension is not within its limits, or is the 25th",
            Refusal::Count => {
                "a pool is empty or above 1,024 plans (in edition 2 above 2,048), or a history is above 4,096"
            }
            Refusal::Plan => {
                "a plan's row length is not the number of objectives, it has over 16 constraints, or a value, a constraint or the ideal is NaN or beyond 2^1000 in magnitude"
            }
            Refusal::Parent => {
                "a plan to be bred from has over 24 settings, a parameter number twice, or a setting of another kind than its dimension or not within its bounds"
            }
            Refusal::Room => "a lent slice is shorter than the call's full answer",
            Refusal::Full => "a new plan number comes while the generation has 2,048 plans and is not bred from",
            Refusal::Step => "a Float's step is not finite, not above 0, or (high - low) / step exceeds 2^53",
            Refusal::Load => "a trial load of counts that a pool may not have, or a file of it above 65,536 bytes",
            Refusal::Window => "a window given is not 1 to 64 generations",
            Refusal::Bands => "no bands, over 16, upper litres not strictly rising, or a price above 1,000,000",
            Refusal::Litres => {
                "a kept list over 1,024 long, a plan in it without litres, or a plan's litres above 1,000,000,000"
            }
            Refusal::SecondForm => "the pool file opens with 64 and is not of the second edition's form",
            Refusal::NotHeld => "the first edition cannot hold the pool file, or it would be above 65,536 bytes",
        })
    }
}

impl std::error::Error for Refusal {}

// ---- what is given

/// The edition of a selection, a generation step or a session.
///
/// The first is the Rust that the library is carried over from, the second the algorithm as it was published. Who begins opens the
/// second. They part in
/// - the pool of a session: in the first it selects from the children alone, in the second from parents and children together: the
///   plans kept wait for the next generation and come first in its pool ([`Session::waiting`]), so that a good plan stays where its
///   children are worse. A pool of a selection or step is what the caller puts there, in both; in the second it may have 2,048 plans;
/// - tournaments: in the first the better row wins, in the second a plan that keeps its constraints against one that breaks them;
/// - the scale: the first divides each objective by its greatest value less the ideal, the second by the intercepts of the plane through
///   the extreme plans, and by the first's where that plane does not serve;
/// - distances: the second compares their squares, where the first compares their roots and lets row order decide between plans whose
///   roots are equal;
/// - infeasible plans: in the second, where every plan of the split front is feasible, the feasible plans alone make the scale (ideal,
///   greatest values, extremes), so that absurd readings of the others stretch nothing, and the others have no line.
#[derive(Clone, Copy, Debug, PartialEq, Eq)]
pub enum Edition {
    First,
    Second,
}

impl Edition {
    pub fn number(self) -> u64 {
        match self {
            Edition::First => raw::FIRST_EDITION,
            Edition::Second => raw::SECOND_EDITION,
        }
    }

    /// The most plans of a pool.
    pub fn max_pool(self) -> usize {
        match self {
            Edition::First => 1024,
            Edition::Second => raw::MAX_POOL,
        }
    }
}

/// Which way an objective is better.
#[derive(Clone, Copy, Debug, PartialEq, Eq)]
#[repr(u8)]
pub enum Direction {
    Minimize = 0,
    Maximize = 1,
}

/// The directions of 1 to 8 objectives.
#[derive(Clone, Debug, PartialEq, Eq)]
pub struct Directions(Vec<u8>);

impl Directions {
    pub fn new(directions: &[Direction]) -> Result<Self, Refusal> {
        if directions.is_empty() || directions.len() > raw::MAX_OBJECTIVES {
            return Err(Refusal::Directions);
        }
        Ok(Directions(directions.iter().map(|&d| d as u8).collect()))
    }

    pub fn objectives(&self) -> usize {
        self.0.len()
    }
}

/// A setting of a plan.
#[derive(Clone, Copy, Debug, PartialEq)]
pub enum Setting {
    Float(f64),
    Int(i64),
    Categorical(usize),
}

impl Setting {
    fn kind(self) -> u64 {
        match self {
            Setting::Float(_) => raw::FLOAT,
            Setting::Int(_) => raw::INT,
            Setting::Categorical(_) => raw::CATEGORICAL,
        }
    }

    fn word(self) -> u64 {
        match self {
            Setting::Float(x) => x.to_bits(),
            Setting::Int(n) => word_of_int(n),
            Setting::Categorical(c) => c as u64,
        }
    }

    fn of(kind: u64, word: u64) -> Self {
        match kind {
            raw::FLOAT => Setting::Float(f64::from_bits(word)),
            raw::INT => Setting::Int(int_of_word(word)),
            _ => Setting::Categorical(word as usize),
        }
    }
}

/// 2n from zero up and -2n - 1 below.
fn word_of_int(n: i64) -> u64 {
    ((n << 1) ^ (n >> 63)) as u64
}

fn int_of_word(w: u64) -> i64 {
    (w >> 1) as i64 ^ -((w & 1) as i64)
}

/// What one setting of every plan is drawn from. Its limits are looked at when it is made.
#[derive(Clone, Copy, Debug, PartialEq, Eq)]
#[repr(transparent)]
pub struct Dimension([u64; DIMENSION_WORDS]);

impl Dimension {
    /// Reals from low to high, both included and within 2^53 in magnitude.
    pub fn float(low: f64, high: f64) -> Result<Self, Refusal> {
        let bound = BOUND as f64;
        if !(low <= high && -bound <= low && high <= bound) {
            return Err(Refusal::Dimension);
        }
        Ok(Dimension([raw::FLOAT, low.to_bits(), high.to_bits(), 0, 0, 0]))
    }

    /// Of these, low + k * step for k from 0 to the floor of (high - low) / step, held within low..high: what is drawn, and in
    /// edition 2 what a bred child's setting is moved to. The step is finite and above 0, and (high - low) / step at most 2^53.
    pub fn float_step(low: f64, high: f64, step: f64) -> Result<Self, Refusal> {
        let mut d = Dimension::float(low, high)?;
        if !(step > 0.0 && step.is_finite() && (high - low) / step <= BOUND as f64) {
            return Err(Refusal::Step);
        }
        d.0[4] = 1;
        d.0[5] = step.to_bits();
        Ok(d)
    }

    /// Whole numbers from low to high, both included and within 2^53 in magnitude.
    pub fn int(low: i64, high: i64) -> Result<Self, Refusal> {
        if !(low <= high && -BOUND <= low && high <= BOUND) {
            return Err(Refusal::Dimension);
        }
        Ok(Dimension([raw::INT, word_of_int(low), word_of_int(high), 0, 0, 0]))
    }

    /// Of these, those that are a whole number of steps above low.
    pub fn stepped(low: i64, high: i64, step: i64) -> Result<Self, Refusal> {
        if step < 1 {
            return Err(Refusal::Dimension);
        }
        let mut d = Dimension::int(low, high)?;
        d.0[4] = 1;
        d.0[5] = word_of_int(step);
        Ok(d)
    }

    /// One of 1 to 65,536 choices, counted from 0.
    pub fn categorical(choices: usize) -> Result<Self, Refusal> {
        if !(1..=65536).contains(&choices) {
            return Err(Refusal::Dimension);
        }
        Ok(Dimension([raw::CATEGORICAL, choices as u64, 0, 0, 0, 0]))
    }

    fn kind(&self) -> u64 {
        self.0[0]
    }
}

/// A plan: its number, its objectives' values, its constraints (above 0 is violated) and its settings by parameter number.
///
/// A plan that is bred from has its settings sorted by parameter number and matched to the dimensions by position. So parameter
/// numbers must rise in the order of the dimensions: of a [`Session`], the order in which its first plan asked for them. A plan with
/// other numbers meets [`Refusal::Parent`] where a kind or a bound does not fit, and else is bred from with its settings exchanged.
/// Where a plan lacks settings, whichever they are, those of the last dimensions are drawn.
#[derive(Clone, Copy, PartialEq, Eq)]
#[repr(transparent)]
pub struct Plan([u64; PLAN_WORDS]);

impl Plan {
    /// Counts that a plan's words cannot hold are refused here, before any call, and also where a call would not look at them:
    /// over 8 values or 16 constraints with [`Refusal::Plan`], over 24 settings with [`Refusal::Parent`]. All else, as the row's
    /// length, a NaN and the settings' kinds and bounds, is for the call to refuse.
    pub fn new(
        number: u64,
        row: &[f64],
        constraints: &[f64],
        settings: &[(u64, Setting)],
    ) -> Result<Self, Refusal> {
        if row.len() > raw::MAX_OBJECTIVES || constraints.len() > raw::MAX_CONSTRAINTS {
            return Err(Refusal::Plan);
        }
        if settings.len() > MAX_DIMENSIONS {
            return Err(Refusal::Parent);
        }
        let settings: Vec<[u64; 3]> = settings.iter().map(|&(p, s)| [p, s.kind(), s.word()]).collect();
        Ok(Plan(raw::plan_words(number, row, constraints, &settings)))
    }

    pub fn number(&self) -> u64 {
        self.0[0]
    }

    pub fn row(&self) -> Vec<f64> {
        self.reals(raw::PLAN_ROW_LENGTH)
    }

    pub fn constraints(&self) -> Vec<f64> {
        self.reals(raw::PLAN_CONSTRAINT_COUNT)
    }

    pub fn settings(&self) -> Vec<(u64, Setting)> {
        let words = &self.0[raw::PLAN_SETTINGS..][..3 * self.0[raw::PLAN_SETTING_COUNT] as usize];
        words.chunks(3).map(|w| (w[0], Setting::of(w[1], w[2]))).collect()
    }

    /// The reals that follow their count.
    fn reals(&self, count: usize) -> Vec<f64> {
        let words = &self.0[count + 1..][..self.0[count] as usize];
        words.iter().map(|&w| f64::from_bits(w)).collect()
    }
}

impl fmt::Debug for Plan {
    fn fmt(&self, f: &mut fmt::Formatter) -> fmt::Result {
        f.debug_struct("Plan")
            .field("number", &self.number())
            .field("row", &self.row())
            .field("constraints", &self.constraints())
            .field("settings", &self.settings())
            .finish()
    }
}

/// What is a transparent array of words, and nothing else.
trait OfWords {}

impl OfWords for Plan {}

impl OfWords for Dimension {}

/// The words of plans or of dimensions, one after the other.
fn words<T: OfWords>(list: &[T]) -> &[u64] {
    // SAFETY: the list is arrays of words one after the other: so many words in all.
    unsafe { std::slice::from_raw_parts(list.as_ptr().cast(), size_of_val(list) / size_of::<u64>()) }
}

/// The generator: any seed will do.
#[derive(Clone, Debug, PartialEq, Eq)]
pub struct Rng(u64);

impl Rng {
    pub fn with_seed(seed: u64) -> Self {
        Rng(seed)
    }

    pub fn state(&self) -> u64 {
        self.0
    }
}

/// The least values met so far, as minimised; plus infinity where none was met.
#[derive(Clone, Debug, PartialEq)]
pub struct Ideal(Vec<f64>);

impl Ideal {
    pub fn unknown(directions: &Directions) -> Self {
        Ideal(vec![f64::INFINITY; directions.objectives()])
    }

    pub fn new(values: &[f64]) -> Self {
        Ideal(values.to_vec())
    }

    pub fn values(&self) -> &[f64] {
        &self.0
    }
}

/// The operators that breed: the probability of crossover, and the etas of crossover and mutation (0 to 99).
#[derive(Clone, Copy, Debug, PartialEq)]
pub struct Operators {
    pub crossover_prob: f64,
    pub crossover_eta: u8,
    pub mutation_eta: u8,
}

impl Default for Operators {
    fn default() -> Self {
        Operators {
            crossover_prob: 1.0,
            crossover_eta: 30,
            mutation_eta: 20,
        }
    }
}

impl Operators {
    fn raw(&self) -> raw::Operators {
        [self.crossover_prob, self.crossover_eta.into(), self.mutation_eta.into()]
    }
}

// ---- what is answered

/// What put a plan on the kept list.
#[derive(Clone, Copy, Debug, PartialEq, Eq)]
#[repr(u8)]
pub enum Rule {
    /// Its front was listed whole.
    WholeFront = raw::WHOLE_FRONT,
    /// It was the nearest on a reference line that had no plan yet.
    Nearest = raw::NEAREST,
    /// It was drawn among those of a reference line that had one.
    Drawn = raw::DRAWN,
    /// The pool had no plan left, and it was drawn to fill the list.
    Padding = raw::PADDING,
}

impl Rule {
    pub fn mark(self) -> u8 {
        self as u8
    }

    fn of(mark: u8) -> Self {
        let all = [Rule::WholeFront, Rule::Nearest, Rule::Drawn, Rule::Padding];
        let found = all.into_iter().find(|&rule| rule as u8 == mark);
        found.expect("the library writes marks of rules")
    }
}

impl fmt::Display for Rule {
    fn fmt(&self, f: &mut fmt::Formatter) -> fmt::Result {
        f.pad(match self {
            Rule::WholeFront => "whole front",
            Rule::Nearest => "nearest on an empty line",
            Rule::Drawn => "drawn on a line with plans",
            Rule::Padding => "padding",
        })
    }
}

/// Places in the pool that are kept and what put each of them there, and of each plan of the pool its front and its line, if a front
/// was split; in [`Edition::Second`] an infeasible plan has none where the split front is feasible.
#[derive(Clone, Debug, Default, PartialEq, Eq)]
pub struct Selection {
    pub kept: Vec<usize>,
    pub rules: Vec<Rule>,
    pub fronts: Vec<usize>,
    pub lines: Vec<Option<usize>>,
}

/// A generation step's selection (empty for a pool of one plan), and a setting for each dimension of each new plan.
#[derive(Clone, Debug, PartialEq)]
pub struct Offspring {
    pub selection: Selection,
    pub plans: Vec<Vec<Setting>>,
}

/// What a selection is written to.
struct Room {
    kept: Vec<usize>,
    rules: Vec<u8>,
    fronts: Vec<usize>,
    lines: Vec<usize>,
}

impl Room {
    fn new(pool: &[Plan], size: usize) -> Self {
        // A greater size is refused, so that no room is needed for it.
        Room {
            kept: vec![0; size.min(MAX_SIZE)],
            rules: vec![0; size.min(MAX_SIZE)],
            fronts: vec![0; pool.len()],
            lines: vec![0; pool.len()],
        }
    }

    #[allow(clippy::too_many_arguments)]
    fn lend<'a>(
        &'a mut self,
        edition: Edition,
        pool: &'a [Plan],
        directions: &'a Directions,
        divisions: usize,
        size: usize,
        rng: &'a mut Rng,
        ideal: &'a mut Ideal,
    ) -> Selecting<'a> {
        Selecting {
            edition: edition.number(),
            pool: words(pool),
            directions: &directions.0,
            divisions,
            size,
            state: &mut rng.0,
            ideal: &mut ideal.0,
            kept: &mut self.kept,
            rules: &mut self.rules,
            fronts: &mut self.fronts,
            lines: &mut self.lines,
        }
    }

    fn selection(self) -> Selection {
        let lines = self.lines.into_iter().map(|l| (l != raw::NO_LINE).then_some(l)).collect();
        Selection {
            kept: self.kept,
            rules: self.rules.into_iter().map(Rule::of).collect(),
            fronts: self.fronts,
            lines,
        }
    }
}

/// `size` plans of the pool to keep. Plan numbers are not looked at.
pub fn select(
    edition: Edition,
    pool: &[Plan],
    directions: &Directions,
    divisions: usize,
    size: usize,
    rng: &mut Rng,
    ideal: &mut Ideal,
) -> Result<Selection, Refusal> {
    let mut room = Room::new(pool, size);
    Refusal::of(raw::select(room.lend(edition, pool, directions, divisions, size, rng, ideal)))?;
    Ok(room.selection())
}

/// A selection, and `size` new plans that are bred from what is kept.
#[allow(clippy::too_many_arguments)]
pub fn generate_offspring(
    edition: Edition,
    pool: &[Plan],
    directions: &Directions,
    divisions: usize,
    size: usize,
    rng: &mut Rng,
    dimensions: &[Dimension],
    operators: &Operators,
    ideal: &mut Ideal,
) -> Result<Offspring, Refusal> {
    let n = dimensions.len();
    let mut room = Room::new(pool, size);
    let mut offspring = vec![0; size.min(MAX_SIZE) * n.min(MAX_DIMENSIONS)];
    let mut n_kept = 0;
    Refusal::of(raw::generate_offspring(
        room.lend(edition, pool, directions, divisions, size, rng, ideal),
        words(dimensions),
        operators.raw(),
        &mut offspring,
        &mut n_kept,
    ))?;
    let plan = |i: usize| {
        let settings = dimensions.iter().zip(&offspring[i * n..]);
        settings.map(|(d, &w)| Setting::of(d.kind(), w)).collect()
    };
    let plans = (0..size).map(plan).collect();
    let selection = if n_kept == 0 { Selection::default() } else { room.selection() };
    Ok(Offspring { selection, plans })
}

/// The listing for a pool file of either edition; numbers and settings of the second are passed over. The selection is that of
/// [`Edition::First`] for both.
pub fn choose(file: &[u8]) -> Result<Vec<u8>, Refusal> {
    let mut out = vec![0; MAX_TEXT];
    let mut length = 0;
    Refusal::of(raw::choose(file, &mut out, &mut length))?;
    out.truncate(length);
    Ok(out)
}

/// A trial load: a pool drawn at random, so that a trial can be repeated from seven numbers.
#[derive(Clone, Copy, Debug, PartialEq, Eq)]
pub struct Load {
    pub objectives: u64,
    pub divisions: u64,
    /// How many plans are to be kept.
    pub size: u64,
    pub plans: u64,
    /// How many constraints each plan has.
    pub constraints: u64,
    pub seed: u64,
    /// How many words of the generator are passed over before the first draw.
    pub skip: u64,
}

/// The pool file of a load, which [`choose`] takes: each plan's values are draws of 0..1, to be minimised, and its constraints draws
/// less one half. The file's own seed is the generator's state after the last draw.
pub fn write_load(load: &Load) -> Result<Vec<u8>, Refusal> {
    let Load { objectives, divisions, size, plans, constraints, seed, skip } = *load;
    let input: Vec<u8> = [objectives, divisions, size, plans, constraints, seed, skip].into_iter().flat_map(number).collect();
    let mut out = vec![0; MAX_FILE];
    let mut length = 0;
    Refusal::of(raw::write_load(&input, &mut out, &mut length))?;
    out.truncate(length);
    Ok(out)
}

/// A pool file of the first edition in the form of the second, its plans numbered from 0 and without settings; and one of the second
/// back, where its plans have those numbers and no settings. There and back again gives the same bytes.
pub fn convert(file: &[u8]) -> Result<Vec<u8>, Refusal> {
    let mut out = vec![0; MAX_FILE];
    let mut length = 0;
    Refusal::of(raw::convert(file, &mut out, &mut length))?;
    out.truncate(length);
    Ok(out)
}

/// A number as a pool file has it: groups of seven bits, lowest first, the top bit set on all but the last byte.
fn number(n: u64) -> Vec<u8> {
    let groups = n.checked_ilog2().map_or(1, |top| top / 7 + 1);
    let mut bytes: Vec<u8> = (0..groups).map(|at| (n >> (7 * at)) as u8 | 128).collect();
    bytes[groups as usize - 1] &= 127;
    bytes
}

// ---- water

/// A band of the water company's prices: its upper litre, itself included, and its price per litre in hundredths of a cent. The
/// last band is open, and its upper litre is not looked at.
#[derive(Clone, Copy, Debug, PartialEq, Eq)]
pub struct Band {
    pub upper: u64,
    pub price: u64,
}

/// What each plan of a kept list costs in cents, in its order, and their sum.
#[derive(Clone, Debug, PartialEq, Eq)]
pub struct Bill {
    pub costs: Vec<u64>,
    pub total: u64,
}

/// What the water of the plans kept costs; `litres` has those of every plan of the pool. Each litre is charged in the band that it
/// falls in, and a plan's sum is rounded once to the cent, halves up. A plan counts as often as it is listed.
pub fn price_water(litres: &[u64], bands: &[Band], kept: &[usize]) -> Result<Bill, Refusal> {
    let words: Vec<u64> = bands.iter().flat_map(|band| [band.upper, band.price]).collect();
    let mut costs = vec![0; kept.len()];
    let mut total = 0;
    Refusal::of(raw::price_water(litres, &words, kept, &mut costs, &mut total))?;
    Ok(Bill { costs, total })
}

// ---- sessions

/// A session. Its words and what is lent with it are written by the library alone.
#[derive(Clone)]
pub struct Session(raw::Session);

impl Session {
    /// With a window of so many generations, 1 to 64, the [`ideal`](Session::ideal) is the least over the pools of the last so many, the
    /// present one included, and forgets what came before; without one it forgets nothing.
    pub fn open(
        edition: Edition,
        directions: &Directions,
        seed: u64,
        size: Option<usize>,
        divisions: Option<usize>,
        operators: &Operators,
        window: Option<usize>,
    ) -> Result<Self, Refusal> {
        let operators = operators.raw();
        let opened = raw::Session::open(
            edition.number(),
            &directions.0,
            seed,
            size,
            divisions,
            operators,
            window,
            raw::SESSION_WORDS,
        );
        opened.map(Session).map_err(Refusal::from_code)
    }

    /// The next setting of a plan. While the first plan asks, each call adds its dimension; afterwards the dimension passed is
    /// ignored. Once the history has the first [`size`](Session::size) of the present generation's plans, the next generation is
    /// bred. The records' parameter numbers must rise in the order in which the first plan asked: see [`Plan`].
    ///
    /// In [`Edition::Second`] it is bred from the waiting plans and then from these, but for those whose number waits: they have to
    /// stand in the history and are left out. [`Refusal::Plan`] and [`Refusal::Parent`] look at all plans of that pool and at no
    /// other.
    pub fn sample(&mut self, dimension: &Dimension, plan: u64, history: &[Plan]) -> Result<Setting, Refusal> {
        let sampled = self.0.sample(&dimension.0, plan, words(history), raw::WHOLE);
        sampled.map(|[kind, word]| Setting::of(kind, word)).map_err(Refusal::from_code)
    }

    pub fn edition(&self) -> Edition {
        match self.0.words()[raw::SESSION_EDITION] {
            raw::SECOND_EDITION => Edition::Second,
            _ => Edition::First,
        }
    }

    /// How many plans a generation has.
    pub fn size(&self) -> usize {
        self.0.words()[raw::SESSION_SIZE] as usize
    }

    /// The present generation's number, from 0.
    pub fn generation(&self) -> u64 {
        self.0.words()[raw::SESSION_GENERATION]
    }

    /// The ideal after the last breeding, an entry an objective, with the values of maximised objectives negated; plus infinity before
    /// the first. With a window it is the least of the pools of the last so many generations; without one it is that of all
    /// generations in which a front was split.
    pub fn ideal(&self) -> Vec<f64> {
        self.0.ideal()
    }

    /// How many dimensions the first plan has entered so far.
    pub fn dimensions(&self) -> usize {
        self.0.words()[raw::SESSION_DIMENSION_COUNT] as usize
    }

    /// The numbers of the present generation's plans, in the order in which they came.
    pub fn plans(&self) -> &[u64] {
        self.0.plans().0
    }

    /// The numbers of the plans that wait for the next generation's pool, in its order: in [`Edition::Second`] those that were kept
    /// when the present generation was bred, and none before; in [`Edition::First`] none. A plan waits with the row, constraints and
    /// settings that the history had when it came into the pool.
    pub fn waiting(&self) -> Vec<u64> {
        self.0.waiting().iter().map(|plan| plan[0]).collect()
    }
}

impl fmt::Debug for Session {
    fn fmt(&self, f: &mut fmt::Formatter) -> fmt::Result {
        f.debug_struct("Session")
            .field("edition", &self.edition())
            .field("size", &self.size())
            .field("generation", &self.generation())
            .field("dimensions", &self.dimensions())
            .field("plans", &self.plans())
            .field("waiting", &self.waiting())
            .finish_non_exhaustive()
    }
}
