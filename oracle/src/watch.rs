//! What the Rust tells while it is watched. `oracle/build` puts two lines into
//! it: its niching loop hands on, at each pick, the niche count of the line that
//! was drawn, before that count is raised; and its generation step the kept
//! list. Nothing of the Rust reads them.

use std::cell::RefCell;

/// What was told.
#[derive(Default)]
pub struct Told {
    /// The niche count of each pick.
    pub counts: Vec<usize>,
    /// The kept list of a generation step.
    pub kept: Vec<usize>,
}

thread_local! {
    static TOLD: RefCell<Option<Told>> = const { RefCell::new(None) };
}

fn tell(what: impl FnOnce(&mut Told)) {
    TOLD.with_borrow_mut(|told| {
        if let Some(told) = told {
            what(told);
        }
    });
}

/// Called by the loop.
pub fn picked(niche_count: usize) {
    tell(|told| told.counts.push(niche_count));
}

/// Called by the step.
pub fn kept(list: &[usize]) {
    tell(|told| told.kept = list.to_vec());
}

/// What is run, with what it told.
pub fn watched<T>(run: impl FnOnce() -> T) -> (T, Told) {
    TOLD.set(Some(Told::default()));
    let answer = run();
    (answer, TOLD.take().unwrap_or_default())
}
