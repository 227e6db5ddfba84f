//! The static library's calls over slices of words. A call answers 0 or the number of the refusal. Sizes and places are those of
//! `include/locustdomino.h`; a session's, which are to be read only, those of `crates/session_words/specs/Place.antt`.

// bench/ uses what the crate does not.
#![allow(dead_code)]

// Any other number means the first.
pub const FIRST_EDITION: u64 = 1;
pub const SECOND_EDITION: u64 = 2;

pub const MAX_OBJECTIVES: usize = 8;
pub const MAX_CONSTRAINTS: usize = 16;
pub const MAX_SETTINGS: usize = 24;
pub const PLAN_ROW_LENGTH: usize = 1;
pub const PLAN_CONSTRAINT_COUNT: usize = PLAN_ROW_LENGTH + 1 + MAX_OBJECTIVES;
pub const PLAN_SETTING_COUNT: usize = PLAN_CONSTRAINT_COUNT + 1 + MAX_CONSTRAINTS;
pub const PLAN_SETTINGS: usize = PLAN_SETTING_COUNT + 1;
pub const PLAN_WORDS: usize = PLAN_SETTINGS + 3 * MAX_SETTINGS;

pub const FLOAT: u64 = 0;
pub const INT: u64 = 1;
pub const CATEGORICAL: u64 = 2;

pub const DIMENSION_WORDS: usize = 6;
pub const NO_LINE: usize = usize::MAX;

pub const WHOLE_FRONT: u8 = 0;
pub const NEAREST: u8 = 1;
pub const DRAWN: u8 = 2;
pub const PADDING: u8 = 3;

pub const MAX_DIMENSIONS: usize = MAX_SETTINGS;
pub const MAX_PLANS: usize = 2048;
pub const CANDIDATE_WORDS: usize = MAX_PLANS * MAX_DIMENSIONS;

/// Nothing is held back of what a session call is lent.
pub const WHOLE: [usize; 2] = [0, 0];

/// The most plans of a pool in edition 2.
pub const MAX_POOL: usize = 2048;

// A session's places, each behind the one before by the width of that; of the operators there are three.
pub const SESSION_OBJECTIVES: usize = 0;
pub const SESSION_DIRECTIONS: usize = SESSION_OBJECTIVES + 1;
pub const SESSION_DIVISIONS: usize = SESSION_DIRECTIONS + MAX_OBJECTIVES;
pub const SESSION_SIZE: usize = SESSION_DIVISIONS + 1;
pub const SESSION_OPERATORS: usize = SESSION_SIZE + 1;
pub const SESSION_EDITION: usize = SESSION_OPERATORS + 3;
pub const SESSION_HAS_WINDOW: usize = SESSION_EDITION + 1;
pub const SESSION_WINDOW: usize = SESSION_HAS_WINDOW + 1;
pub const SESSION_ACTIVE: usize = SESSION_WINDOW + 1;
pub const SESSION_HAS_FIRST: usize = SESSION_ACTIVE + 1;
pub const SESSION_FIRST: usize = SESSION_HAS_FIRST + 1;
pub const SESSION_STATE: usize = SESSION_FIRST + 1;
pub const SESSION_DIMENSION_COUNT: usize = SESSION_STATE + 1;
pub const SESSION_CANDIDATE_COUNT: usize = SESSION_DIMENSION_COUNT + 1;
pub const SESSION_PLAN_COUNT: usize = SESSION_CANDIDATE_COUNT + 1;
pub const SESSION_WAITING: usize = SESSION_PLAN_COUNT + 1;
pub const SESSION_REMEMBERED: usize = SESSION_WAITING + 1;
pub const SESSION_GENERATION: usize = SESSION_REMEMBERED + 1;
pub const SESSION_IDEAL: usize = SESSION_GENERATION + 1;
pub const SESSION_DIMENSIONS: usize = SESSION_IDEAL + MAX_OBJECTIVES;
pub const SESSION_WORDS: usize = SESSION_DIMENSIONS + MAX_DIMENSIONS * DIMENSION_WORDS;

#[rustfmt::skip]
#[link(name = "locustdomino", kind = "static")]
unsafe extern "C" {
    fn locustdomino_select(edition: u64, pool: *const u64, pool_words: usize, directions: *const u8, objectives: usize, divisions: usize,
        size: usize, state: *mut u64, ideal: *mut f64, ideal_length: usize, kept: *mut usize, kept_length: usize, rules: *mut u8, rules_length: usize,
        fronts: *mut usize, fronts_length: usize, lines: *mut usize, lines_length: usize) -> u64;
    fn locustdomino_generate_offspring(edition: u64, pool: *const u64, pool_words: usize, directions: *const u8, objectives: usize,
        divisions: usize, size: usize, state: *mut u64, dimensions: *const u64, dimension_words: usize, crossover_prob: f64, crossover_eta: f64, mutation_eta: f64,
        ideal: *mut f64, ideal_length: usize, kept: *mut usize, kept_length: usize, rules: *mut u8, rules_length: usize,
        fronts: *mut usize, fronts_length: usize, lines: *mut usize, lines_length: usize, offspring: *mut u64, offspring_words: usize,
        n_kept: *mut usize) -> u64;
    fn locustdomino_open(edition: u64, directions: *const u8, objectives: usize, seed: u64, has_size: u8, size: usize, has_divisions: u8,
        divisions: usize, crossover_prob: f64, crossover_eta: f64, mutation_eta: f64, has_window: u8, window: usize, session: *mut u64,
        session_words: usize) -> u64;
    fn locustdomino_sample(session: *mut u64, session_words: usize, dimension: *const u64, dimension_words: usize, plan: u64,
        history: *const u64, history_words: usize, candidates: *mut u64, candidate_words: usize, plans: *mut u64, plans_length: usize,
        next_dims: *mut usize, next_dims_length: usize, pool: *mut u64, pool_length: usize, kind: *mut u64, value: *mut u64) -> u64;
    fn locustdomino_choose(file: *const u8, file_length: usize, out: *mut u8, out_length: usize, length: *mut usize) -> u64;
    fn locustdomino_price_water(litres: *const u64, litres_length: usize, bands: *const u64, band_words: usize, kept: *const usize,
        kept_length: usize, costs: *mut u64, costs_length: usize, total: *mut u64) -> u64;
    fn locustdomino_write_load(input: *const u8, input_length: usize, out: *mut u8, out_length: usize, length: *mut usize) -> u64;
    fn locustdomino_convert(file: *const u8, file_length: usize, out: *mut u8, out_length: usize, length: *mut usize) -> u64;
}

// A slice is handed on with its own length, and what is written overlaps nothing else. Beside that the library asks what `Session`
// keeps, and for stack; where too little is left, it meets the guard page and the process ends.

/// The edition, the pool and the directions of a selection or step, what is wanted of it, and what it is lent.
pub struct Selecting<'a> {
    pub edition: u64,
    pub pool: &'a [u64],
    pub directions: &'a [u8],
    pub divisions: usize,
    pub size: usize,
    pub state: &'a mut u64,
    pub ideal: &'a mut [f64],
    pub kept: &'a mut [usize],
    pub rules: &'a mut [u8],
    pub fronts: &'a mut [usize],
    pub lines: &'a mut [usize],
}

/// The probability of crossover, and the etas of crossover and mutation.
pub type Operators = [f64; 3];

#[rustfmt::skip]
pub fn select(call: Selecting) -> u64 {
    let Selecting { edition, pool, directions, divisions, size, state, ideal, kept, rules, fronts, lines } = call;
    unsafe {
        locustdomino_select(
            edition, pool.as_ptr(), pool.len(), directions.as_ptr(), directions.len(), divisions, size, state, ideal.as_mut_ptr(),
            ideal.len(), kept.as_mut_ptr(), kept.len(), rules.as_mut_ptr(), rules.len(), fronts.as_mut_ptr(), fronts.len(),
            lines.as_mut_ptr(), lines.len())
    }
}

#[rustfmt::skip]
pub fn generate_offspring(call: Selecting, dimensions: &[u64], operators: Operators, offspring: &mut [u64], n_kept: &mut usize) -> u64 {
    let Selecting { edition, pool, directions, divisions, size, state, ideal, kept, rules, fronts, lines } = call;
    let [crossover_prob, crossover_eta, mutation_eta] = operators;
    unsafe {
        locustdomino_generate_offspring(
            edition, pool.as_ptr(), pool.len(), directions.as_ptr(), directions.len(), divisions, size, state, dimensions.as_ptr(),
            dimensions.len(), crossover_prob, crossover_eta, mutation_eta, ideal.as_mut_ptr(), ideal.len(), kept.as_mut_ptr(), kept.len(),
            rules.as_mut_ptr(), rules.len(), fronts.as_mut_ptr(), fronts.len(), lines.as_mut_ptr(), lines.len(),
            offspring.as_mut_ptr(), offspring.len(), n_kept)
    }
}

pub fn choose(file: &[u8], out: &mut [u8], length: &mut usize) -> u64 {
    unsafe { locustdomino_choose(file.as_ptr(), file.len(), out.as_mut_ptr(), out.len(), length) }
}

pub fn write_load(input: &[u8], out: &mut [u8], length: &mut usize) -> u64 {
    unsafe { locustdomino_write_load(input.as_ptr(), input.len(), out.as_mut_ptr(), out.len(), length) }
}

pub fn convert(file: &[u8], out: &mut [u8], length: &mut usize) -> u64 {
    unsafe { locustdomino_convert(file.as_ptr(), file.len(), out.as_mut_ptr(), out.len(), length) }
}

/// Two words a band: its upper litre and its price.
#[rustfmt::skip]
pub fn price_water(litres: &[u64], bands: &[u64], kept: &[usize], costs: &mut [u64], total: &mut u64) -> u64 {
    unsafe {
        locustdomino_price_water(
            litres.as_ptr(), litres.len(), bands.as_ptr(), bands.len(), kept.as_ptr(), kept.len(), costs.as_mut_ptr(), costs.len(), total)
    }
}

/// A session's words and the four slices that are lent with them. Only the library writes them, so that they are always as it
/// left them, which is what it asks.
#[derive(Clone)]
pub struct Session {
    words: Vec<u64>,
    candidates: Vec<u64>,
    plans: Vec<u64>,
    next_dims: Vec<usize>,
    pool: Vec<u64>,
}

impl Session {
    /// A session in so many words, or the refusal.
    #[rustfmt::skip]
    pub fn open(
        edition: u64, directions: &[u8], seed: u64, size: Option<usize>, divisions: Option<usize>, operators: Operators,
        window: Option<usize>, session_words: usize,
    ) -> Result<Self, u64> {
        let mut words = vec![0; session_words];
        let [crossover_prob, crossover_eta, mutation_eta] = operators;
        let code = unsafe {
            locustdomino_open(
                edition, directions.as_ptr(), directions.len(), seed, size.is_some().into(), size.unwrap_or(0),
                divisions.is_some().into(), divisions.unwrap_or(0), crossover_prob, crossover_eta, mutation_eta,
                window.is_some().into(), window.unwrap_or(0), words.as_mut_ptr(), words.len())
        };
        match code {
            0 => Ok(Session {
                candidates: vec![0; CANDIDATE_WORDS],
                plans: vec![0; MAX_PLANS],
                next_dims: vec![0; MAX_PLANS],
                pool: vec![0; pool_words(words[SESSION_EDITION], words[SESSION_SIZE] as usize) + window_words(window, directions.len())],
                words,
            }),
            refusal => Err(refusal),
        }
    }

    /// Kind and word of a plan's next setting, or the refusal; so many of the candidates' and of the pool's words are held back. A
    /// call that adds a dimension takes six words of it, and meets 6 where there are fewer; another does not look at it.
    #[rustfmt::skip]
    pub fn sample(&mut self, dimension: &[u64], plan: u64, history: &[u64], held_back: [usize; 2]) -> Result<[u64; 2], u64> {
        let lent = [self.candidates.len() - held_back[0], self.pool.len() - held_back[1]];
        let (candidates, pool) = (&mut self.candidates[..lent[0]], &mut self.pool[..lent[1]]);
        let (mut kind, mut value) = (0, 0);
        let code = unsafe {
            locustdomino_sample(
                self.words.as_mut_ptr(), self.words.len(), dimension.as_ptr(), dimension.len(), plan, history.as_ptr(), history.len(),
                candidates.as_mut_ptr(), candidates.len(), self.plans.as_mut_ptr(), self.plans.len(), self.next_dims.as_mut_ptr(),
                self.next_dims.len(), pool.as_mut_ptr(), pool.len(), &mut kind, &mut value)
        };
        match code {
            0 => Ok([kind, value]),
            refusal => Err(refusal),
        }
    }

    pub fn words(&self) -> &[u64] {
        &self.words
    }

    pub fn candidates(&self) -> &[u64] {
        &self.candidates
    }

    /// The present generation's plans, and how many settings each has been handed.
    pub fn plans(&self) -> (&[u64], &[usize]) {
        let count = self.words[SESSION_PLAN_COUNT] as usize;
        (&self.plans[..count], &self.next_dims[..count])
    }

    /// The ideal, an entry an objective, in minimise-space.
    pub fn ideal(&self) -> Vec<f64> {
        let words = &self.words[SESSION_IDEAL..][..self.words[SESSION_OBJECTIVES] as usize];
        words.iter().map(|&word| f64::from_bits(word)).collect()
    }

    /// The words of the plans that wait, in the kept list's order.
    pub fn waiting(&self) -> &[[u64; PLAN_WORDS]] {
        let count = self.words[SESSION_WAITING] as usize;
        &self.pool.as_chunks().0[..count]
    }

    /// With a window, the least values of the generations remembered, the oldest first, an entry an objective.
    pub fn remembered(&self) -> &[u64] {
        let at = pool_words(self.words[SESSION_EDITION], self.words[SESSION_SIZE] as usize);
        &self.pool[at..][..(self.words[SESSION_REMEMBERED] * self.words[SESSION_OBJECTIVES]) as usize]
    }
}

/// The words of the most plans that a session of an edition and a size breeds from.
pub fn pool_words(edition: u64, size: usize) -> usize {
    let parents = if edition == SECOND_EDITION { size } else { 0 };
    (parents + size) * PLAN_WORDS
}

/// The words of what a session of a window and so many objectives remembers, behind those.
pub fn window_words(window: Option<usize>, objectives: usize) -> usize {
    window.map_or(0, |window| (window - 1) * objectives)
}

/// The words of a plan; a setting is its parameter number, its kind and its word. What there is no room for is claimed by its
/// count alone.
pub fn plan_words(number: u64, row: &[f64], constraints: &[f64], settings: &[[u64; 3]]) -> [u64; PLAN_WORDS] {
    let mut words = [0; PLAN_WORDS];
    words[0] = number;
    for (count, reals, most) in [(PLAN_ROW_LENGTH, row, MAX_OBJECTIVES), (PLAN_CONSTRAINT_COUNT, constraints, MAX_CONSTRAINTS)] {
        words[count] = reals.len() as u64;
        for (word, real) in words[count + 1..].iter_mut().zip(reals.iter().take(most)) {
            *word = real.to_bits();
        }
    }
    words[PLAN_SETTING_COUNT] = settings.len() as u64;
    for (to, setting) in words[PLAN_SETTINGS..].chunks_mut(3).zip(settings.iter().take(MAX_SETTINGS)) {
        to.copy_from_slice(setting);
    }
    words
}

#[cfg(test)]
mod tests {
    use super::*;

    const MAX_HISTORY: usize = 4096;

    fn open_as(edition: u64, session_words: usize) -> Result<Session, u64> {
        Session::open(edition, &[0, 0], 1, Some(4), None, [1.0, 30.0, 20.0], None, session_words)
    }

    fn open(session_words: usize) -> Result<Session, u64> {
        open_as(SECOND_EDITION, session_words)
    }

    /// A Float from 0 to 1.
    fn dimension() -> [u64; DIMENSION_WORDS] {
        [FLOAT, 0, 1.0_f64.to_bits(), 0, 0, 0]
    }

    fn history(records: usize) -> Vec<u64> {
        vec![0; records * PLAN_WORDS]
    }

    #[test]
    fn a_dimension_to_be_added_has_six_words() {
        let mut session = open(SESSION_WORDS).unwrap();
        let before = session.words.clone();
        assert_eq!(session.sample(&dimension()[..5], 0, &[], WHOLE), Err(6));
        assert_eq!(session.sample(&[], 0, &history(MAX_HISTORY + 1), WHOLE), Err(6));
        assert_eq!(session.words, before);
        let longer = [&dimension()[..], &[9; 3]].concat();
        assert!(session.sample(&longer, 0, &[], WHOLE).is_ok());
        // Another plan ends discovery: its call adds no dimension.
        assert!(session.sample(&[], 1, &[], WHOLE).is_ok());
        assert_eq!(session.sample(&[], 1, &history(MAX_HISTORY + 1), WHOLE), Err(7));
    }

    #[test]
    fn too_few_words_for_a_session() {
        assert_eq!(open(SESSION_WORDS - 1).err(), Some(10));
        let mut session = open(SESSION_WORDS).unwrap();
        session.words.truncate(SESSION_WORDS - 1);
        let before = session.words.clone();
        assert_eq!(session.sample(&dimension(), 0, &history(MAX_HISTORY + 1), WHOLE), Err(7));
        assert_eq!(session.sample(&dimension(), 0, &history(MAX_HISTORY), WHOLE), Err(10));
        assert_eq!(session.sample(&[], 0, &[], WHOLE), Err(10));
        assert_eq!(session.words, before);
    }

    /// Plans of one objective, of which none dominates another.
    fn alike(n: u64) -> Vec<u64> {
        (0..n).flat_map(|number| plan_words(number, &[1.0], &[], &[])).collect()
    }

    /// A selection or a step of size 2, with room for so many rules; what it answers and leaves of kept list and rules.
    fn ruled(plans: u64, rules: usize, step: bool) -> (u64, Vec<usize>, Vec<u8>) {
        ruled_as(FIRST_EDITION, plans, rules, step)
    }

    fn ruled_as(edition: u64, plans: u64, rules: usize, step: bool) -> (u64, Vec<usize>, Vec<u8>) {
        let (pool, n) = (alike(plans), plans as usize);
        let (mut kept, mut rules) = (vec![9; 2], vec![9; rules]);
        let call = Selecting {
            edition,
            pool: &pool,
            directions: &[0],
            divisions: 1,
            size: 2,
            state: &mut 1,
            ideal: &mut [f64::INFINITY],
            kept: &mut kept,
            rules: &mut rules,
            fronts: &mut vec![0; n],
            lines: &mut vec![0; n],
        };
        let code = if step {
            generate_offspring(call, &dimension(), [1.0, 30.0, 20.0], &mut [0; 2], &mut 0)
        } else {
            select(call)
        };
        (code, kept, rules)
    }

    #[test]
    fn too_little_room_for_rules() {
        for step in [false, true] {
            assert_eq!(ruled(3, 1, step), (10, vec![9; 2], vec![9]));
            // One of three alike is the nearest, and the line then has a plan; what is lent past the rules stays.
            let (code, _, rules) = ruled(3, 3, step);
            assert_eq!((code, rules), (0, vec![NEAREST, DRAWN, 9]));
        }
        // A step from a pool of one hands out no list.
        assert_eq!(ruled(1, 2, false), (0, vec![0, 0], vec![WHOLE_FRONT, PADDING]));
        assert_eq!(ruled(1, 2, true), (0, vec![9; 2], vec![9; 2]));
        assert_eq!(ruled(1, 0, true), (0, vec![9; 2], vec![]));
    }

    #[test]
    fn any_other_number_means_the_first_edition() {
        let edges = [0, FIRST_EDITION, 3, 258, 1 << 32 | 2, u64::MAX];
        for step in [false, true] {
            for edition in edges {
                assert_eq!(ruled_as(edition, 1025, 2, step), (7, vec![9; 2], vec![9; 2]));
                assert_eq!(ruled_as(edition, 1024, 2, step).0, 0);
            }
            assert_eq!(ruled_as(SECOND_EDITION, 2049, 2, step), (7, vec![9; 2], vec![9; 2]));
            assert_eq!(ruled_as(SECOND_EDITION, MAX_POOL as u64, 2, step).0, 0);
        }
        for edition in edges {
            assert_eq!(open_as(edition, SESSION_WORDS).unwrap().words[SESSION_EDITION], FIRST_EDITION);
        }
        assert_eq!(open(SESSION_WORDS).unwrap().words[SESSION_EDITION], SECOND_EDITION);
    }

    #[test]
    fn too_little_room_for_the_pool() {
        for (edition, plans) in [(FIRST_EDITION, 4), (SECOND_EDITION, 8)] {
            let mut session = open_as(edition, SESSION_WORDS).unwrap();
            assert_eq!(session.pool.len(), plans * PLAN_WORDS);
            session.pool.fill(7);
            let before = session.clone();
            assert_eq!(session.sample(&dimension(), 0, &[], [0, 1]), Err(10));
            // 6 and 7 come before.
            assert_eq!(session.sample(&[], 0, &[], [0, 1]), Err(6));
            assert_eq!(session.sample(&dimension(), 0, &history(MAX_HISTORY + 1), [0, 1]), Err(7));
            assert!(session.words == before.words && session.pool == before.pool);
            assert!(session.sample(&dimension(), 0, &[], WHOLE).is_ok());
            assert!(session.waiting().is_empty());
        }
    }

    /// The plans that wait are the words that history had: here also those past their counts.
    #[test]
    fn waiting_plans_are_copies() {
        let mut session = open(SESSION_WORDS).unwrap();
        assert!(session.sample(&dimension(), 0, &[], WHOLE).is_ok());
        for plan in 1..=4 {
            assert!(session.sample(&[], plan, &[], WHOLE).is_ok());
        }
        let record = |number: u64| {
            let mut words = plan_words(number, &[number as f64, 5.0 - number as f64], &[-1.0], &[[3, FLOAT, 0]]);
            words[PLAN_WORDS - 1] = 77;
            words
        };
        let history = [4, 3, 2, 1].map(record);
        assert!(session.sample(&[], 5, history.as_flattened(), WHOLE).is_ok());
        assert_eq!(session.waiting(), [1, 2, 3, 4].map(record));
        // A call that does not breed leaves them.
        assert!(session.sample(&[], 6, &[], WHOLE).is_ok());
        assert_eq!(session.waiting(), [1, 2, 3, 4].map(record));
    }

    #[test]
    fn too_little_room_for_costs() {
        let (mut costs, mut total) = ([9; 3], 9);
        // 10 comes before 15 and 16.
        assert_eq!(price_water(&[], &[], &[0; 4], &mut costs, &mut total), 10);
        assert_eq!((costs, total), ([9; 3], 9));
        // A word past the last whole band is not looked at, and what is lent past the costs stays.
        assert_eq!(price_water(&[7], &[0, 100, 9], &[0, 0], &mut costs, &mut total), 0);
        assert_eq!((costs, total), ([7, 7, 9], 14));
        assert_eq!(price_water(&[7], &[100], &[0, 0], &mut costs, &mut total), 15);
        assert_eq!((costs, total), ([7, 7, 9], 14));
    }

    #[test]
    fn too_little_room_for_a_converted_file() {
        let (mut out, mut length) = ([9; 40], 9);
        // m 0, H 1, size 1, two plans without constraints, seed 5.
        let (first, second) = ([0, 1, 1, 2, 5, 0, 0], [64, 0, 1, 1, 2, 5, 0, 0, 0, 1, 0, 0]);
        assert_eq!(convert(&first, &mut out[..11], &mut length), 10);
        // 1, 17 and 18 come before 10.
        assert_eq!(convert(&first[..6], &mut out[..0], &mut length), 1);
        assert_eq!(convert(&second[..6], &mut out[..0], &mut length), 17);
        assert_eq!(convert(&[64, 0, 1, 1, 1, 5, 7, 0, 0], &mut out[..0], &mut length), 18);
        assert_eq!((out, length), ([9; 40], 9));
        assert_eq!(convert(&first, &mut out[..12], &mut length), 0);
        assert_eq!((&out[..12], out[12], length), (&second[..], 9, 12));
        assert_eq!(convert(&second, &mut out[..6], &mut length), 10);
        assert_eq!(convert(&second, &mut out[..7], &mut length), 0);
        assert_eq!((&out[..7], out[7], length), (&first[..], second[7], 7));
    }

    #[test]
    fn too_little_room_for_a_load() {
        let (mut out, mut length) = ([9; 40], 9);
        // One plan of one value: m, H, size, count, nine or ten bytes of the state, a mark, nine bytes of the value, no constraint.
        let input = [1, 1, 1, 1, 0, 7, 0];
        assert_eq!(write_load(&input, &mut out, &mut length), 0);
        let written = length;
        assert!((24..=25).contains(&written) && out[..4] == input[..4] && out[written - 1] == 0 && out[written..] == [9; 40][written..]);
        let (mut less, mut length) = ([9; 40], 9);
        assert_eq!(write_load(&input, &mut less[..written - 1], &mut length), 10);
        // 1 and then 13 come before 10.
        assert_eq!(write_load(&[1, 1, 1, 1, 17, 7, 0], &mut less[..0], &mut length), 13);
        assert_eq!(write_load(&[1, 1, 1, 1, 17, 7], &mut less[..0], &mut length), 1);
        assert_eq!(write_load(&[1, 1, 1, 1, 17, 7, 128, 0], &mut less[..0], &mut length), 1);
        assert_eq!((less, length), ([9; 40], 9));
        assert_eq!(write_load(&input, &mut less[..written], &mut length), 0);
        assert_eq!((less, length), (out, written));
    }
}
