//! Asks the static library what the oracle is asked (oracle/README.md) and compares every number of the answers: selections (70, of edition 2 71),
//! generation steps (87 and 88) and sessions (90 and 91, with a window 92 and 93), of the named and the large cases and then of generated inputs. Exit code 1 where anything
//! differs.
//!
//! usage: compare SELECTIONS SESSIONS SEED

#![allow(dead_code)]

include!("common.rs");

#[path = "../target/oracle/src/inputs/mod.rs"]
mod inputs;

use answers::{SELECT, SELECT_SECOND, STEP, STEP_SECOND};
use session::{SESSION, SESSION_SECOND, SESSION_SECOND_WINDOW, SESSION_WINDOW};
use words::{Reader, push_reals};

/// The static library's answer, or none where the command is another.
fn answer(input: &[u64]) -> Result<Option<Vec<u64>>, String> {
    let mut reader = Reader::new(input);
    let command = reader.number()?;
    Ok(match command {
        SELECT | SELECT_SECOND => Some(select(&Call::read(command, &mut reader)?)),
        STEP | STEP_SECOND => Some(step(&Call::read(command, &mut reader)?)),
        SESSION | SESSION_WINDOW => Some(session(Edition::First, command == SESSION_WINDOW, &mut reader)?),
        SESSION_SECOND | SESSION_SECOND_WINDOW => Some(session(Edition::Second, command == SESSION_SECOND_WINDOW, &mut reader)?),
        _ => None,
    })
}

fn push_all(out: &mut Vec<u64>, list: &[usize]) {
    out.extend(list.iter().map(|&k| k as u64));
}

/// A word a setting, plan after plan: each with the kind of its dimension in front.
fn push_settings(out: &mut Vec<u64>, dimensions: &[u64], settings: &[u64]) {
    let kinds = dimensions.iter().step_by(raw::DIMENSION_WORDS).cycle();
    for (&kind, &word) in kinds.zip(settings) {
        out.extend([kind, word]);
    }
}

fn select(call: &Call) -> Vec<u64> {
    let mut ours = Proved::of(call);
    if call.short {
        ours.cut_short();
    }
    let code = ours.select();
    if code != 0 {
        return vec![code];
    }
    let mut out = vec![0, ours.kept.len() as u64];
    push_all(&mut out, &ours.kept);
    out.extend(ours.rules(ours.kept.len()));
    push_all(&mut out, &ours.fronts);
    push_all(&mut out, &ours.lines);
    push_reals(&mut out, &ours.ideal);
    out.push(ours.state);
    out
}

fn step(call: &Call) -> Vec<u64> {
    let mut ours = Proved::of(call);
    if call.short {
        // A step without dimensions hands out no setting: one of its lists is what is cut short.
        if ours.offspring.pop().is_none() {
            ours.cut_short();
        }
    }
    let code = ours.step();
    if code != 0 {
        return vec![code];
    }
    let mut out = vec![0, ours.n_kept as u64];
    push_all(&mut out, &ours.kept[..ours.n_kept]);
    out.extend(ours.rules(ours.n_kept));
    push_reals(&mut out, &ours.ideal);
    out.push(ours.size as u64);
    push_settings(&mut out, &ours.dimensions, &ours.offspring);
    out.push(ours.state);
    out
}

/// A call of a line, as often as it is made: the last one's answer.
fn called(session: &mut raw::Session, history: &mut Vec<u64>, call: &session::Call) -> Result<[u64; 2], u64> {
    let dimension = dimension_words(&call.distribution);
    history.truncate(call.keep * raw::PLAN_WORDS);
    history.extend(laid_out(&call.records).repeat(call.copies));
    // By the plan's number a word of the one slice or of the other is missing.
    let held_back = match (call.short, call.plan % 2) {
        (false, _) => raw::WHOLE,
        (true, 0) => [1, 0],
        (true, _) => [0, 1],
    };
    let mut last = Err(0);
    for k in 0..call.times {
        last = session.sample(&dimension, call.plan.wrapping_add(k), history, held_back);
    }
    last
}

fn session(edition: Edition, windowed: bool, reader: &mut Reader) -> Result<Vec<u64>, String> {
    let opening = Opening::read(edition, windowed, reader)?;
    let mut session = match open(&opening, raw::SESSION_WORDS - usize::from(opening.short)) {
        Ok(session) => session,
        Err(code) => return Ok(vec![code]),
    };
    let mut out = vec![0];
    let mut history: Vec<u64> = vec![];
    for _ in 0..reader.count()? {
        let call = session::Call::read(reader)?;
        match called(&mut session, &mut history, &call) {
            Ok([kind, value]) => out.extend([0, kind, value]),
            Err(code) => out.push(code),
        }
        out.extend(report(&session));
        if call.full {
            push_whole(&mut out, &session);
            if edition.keeps_parents() {
                let waiting = waiting(&session);
                out.push(waiting.len() as u64);
                out.extend(waiting);
            }
            if opening.window.is_some() {
                out.push(session.words()[raw::SESSION_REMEMBERED]);
                out.extend(session.remembered());
            }
        }
    }
    Ok(out)
}

/// A session's whole state, as the oracle writes it.
fn push_whole(out: &mut Vec<u64>, session: &raw::Session) {
    let words = session.words();
    let active = words[raw::SESSION_ACTIVE] == 1;
    let n = words[raw::SESSION_DIMENSION_COUNT] as usize;
    let dimensions = &words[raw::SESSION_DIMENSIONS..][..n * raw::DIMENSION_WORDS];
    out.extend([raw::SESSION_ACTIVE, raw::SESSION_HAS_FIRST, raw::SESSION_FIRST].map(|at| words[at]));
    out.push(n as u64);
    for &dimension in dimensions.as_chunks().0 {
        plans::write_words(out, dimension);
    }
    let (plans, next_dims) = session.plans();
    out.extend([if active { words[raw::SESSION_SIZE] } else { 0 }, plans.len() as u64]);
    for (&plan, &next_dim) in plans.iter().zip(next_dims) {
        out.extend([plan, next_dim as u64]);
    }
    let candidates = words[raw::SESSION_CANDIDATE_COUNT];
    out.push(candidates);
    push_settings(out, dimensions, &session.candidates()[..candidates as usize * n]);
    let m = if active { words[raw::SESSION_OBJECTIVES] } else { 0 };
    out.push(m);
    out.extend(&words[raw::SESSION_IDEAL..][..m as usize]);
}

/// Asks both and prints a row; answers how many were asked and how many differ.
fn compare(name: &str, lines: impl IntoIterator<Item = Vec<u64>>) -> Result<[usize; 2], String> {
    let (mut asked, mut refused, mut wrong) = (0, 0, 0);
    for line in lines {
        let Some(ours) = answer(&line)? else { continue };
        let theirs = answers::answer(&line)?;
        asked += 1;
        refused += usize::from(theirs[0] != 0);
        if ours != theirs {
            wrong += 1;
            if wrong <= 3 {
                let at = ours.iter().zip(&theirs).take_while(|(a, b)| a == b).count();
                println!("{name}: differs from number {at} on: {:.300}", words::write(&line));
                println!("  ours {:?}", &ours[at..ours.len().min(at + 8)]);
                println!("  oracle {:?}", &theirs[at..theirs.len().min(at + 8)]);
            }
        }
    }
    let [of_asked, of_refused, of_wrong] = [asked, refused, wrong].map(timing::count);
    timing::row(&[name, &of_asked, &of_refused, &of_wrong]);
    Ok([asked, wrong])
}

/// Runs sessions of edition 2 side by side, call by call, and compares after each call the answer and the whole state, with every word of the plans that
/// wait. Prints a row, and how many generations were bred from a split front.
fn side_by_side(name: &str, lines: impl IntoIterator<Item = Vec<u64>>) -> Result<[usize; 2], String> {
    let (mut asked, mut refused, mut wrong) = (0, 0, 0);
    let (mut generations, mut split, mut splitting) = (0, 0, 0);
    for line in lines {
        let mut reader = Reader::new(&line);
        reader.number()?;
        let opening = Opening::read(Edition::Second, false, &mut reader)?;
        let theirs = session::Session::open(&opening);
        let ours = open(&opening, raw::SESSION_WORDS - usize::from(opening.short));
        asked += 1;
        let (mut theirs, mut ours) = match (theirs, ours) {
            (Ok(theirs), Ok(ours)) => (theirs, ours),
            (theirs, ours) => {
                refused += 1;
                wrong += usize::from(theirs.err() != ours.err());
                continue;
            }
        };
        let mut history: Vec<u64> = vec![];
        let mut same = true;
        for _ in 0..reader.count()? {
            let call = session::Call::read(&mut reader)?;
            let (answer, expected) = (called(&mut ours, &mut history, &call), theirs.calls(&call)?);
            let mut at: Vec<u64> = report(&ours).to_vec();
            push_whole(&mut at, &ours);
            let (mut expected_at, mut setting) = (vec![], vec![]);
            theirs.report(true, &mut expected_at);
            expected_at.truncate(expected_at.len() - 1 - theirs.waiting().len());
            if let Ok(value) = &expected {
                plans::write_setting(&mut setting, value);
            }
            let words: Vec<u64> = ours.waiting().iter().flatten().copied().collect();
            same &= answer.map_or(vec![], |pair| pair.to_vec()) == setting && answer.err() == expected.err();
            same &= at == expected_at && words == laid_out(theirs.waiting());
        }
        wrong += usize::from(!same);
        let bred = theirs.bred();
        generations += bred.generations;
        split += bred.split;
        splitting += usize::from(bred.split > 0);
    }
    let [of_asked, of_refused, of_wrong] = [asked, refused, wrong].map(timing::count);
    timing::row(&[name, &of_asked, &of_refused, &of_wrong]);
    println!("  {split} of {generations} generations split a front, in {splitting} of these sessions");
    Ok([asked, wrong])
}

/// Selections from so many pools past the first edition's limit, each with a size that splits a front where one can be split.
fn wide(seed: u64, count: u64) -> impl Iterator<Item = Vec<u64>> {
    (0..count).map(move |at| inputs::wide_input(seed, at))
}

fn main() -> Result<(), String> {
    let arguments: Vec<u64> = std::env::args().skip(1).filter_map(|text| text.parse().ok()).collect();
    let [selections, sessions, seed] = arguments[..] else {
        return Err("usage: compare SELECTIONS SESSIONS SEED".to_string());
    };
    timing::head(&["inputs", "asked", "refused whole", "answered differently"]);
    let rows = [
        compare("named selections", inputs::cases("kept")?)?,
        compare("named steps", inputs::cases("breeding")?)?,
        compare("named sessions", inputs::cases("session")?)?,
        compare("named selections, edition 2", inputs::cases("kept_second")?)?,
        compare("named steps, edition 2", inputs::cases("breeding_second")?)?,
        compare("named sessions, edition 2", inputs::cases("session_second")?)?,
        compare("named sessions with a window", inputs::cases("session_window")?)?,
        compare("large, of both editions", inputs::cases("large")?)?,
        compare("generated selections", inputs::generated(seed, selections, "kept")?)?,
        compare("generated steps", inputs::generated(seed, sessions, "breeding")?)?,
        compare("generated sessions", inputs::generated(seed, sessions, "session")?)?,
        compare("generated selections, edition 2", inputs::generated(seed, selections, "kept_second")?)?,
        compare("generated steps, edition 2", inputs::generated(seed, sessions, "breeding_second")?)?,
        compare("generated sessions, edition 2", inputs::generated(seed, sessions, "session_second")?)?,
        side_by_side("the same, call by call", inputs::generated(seed, sessions, "session_second")?)?,
        compare("generated sessions with a window", inputs::generated(seed, sessions, "session_window")?)?,
        compare("pools of 1,025 to 2,048 plans", wide(seed, sessions / 20))?,
    ];
    let [asked, wrong] = rows.iter().fold([0, 0], |[a, w], row| [a + row[0], w + row[1]]);
    println!("\n{wrong} of {} answered differently", timing::count(asked));
    if wrong > 0 || rows.iter().any(|row| row[0] == 0) {
        std::process::exit(1);
    }
    Ok(())
}
