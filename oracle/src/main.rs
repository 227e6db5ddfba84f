//! The oracle: the Rust that is carried over, answering on given inputs.
//! How it is used and the form of every line: oracle/README.md.

#![allow(dead_code)]

// The Rust that is carried over (put beside this file by oracle/build).
mod distribution;
mod multi_objective;
mod param;
mod parameter;
mod pareto;
mod rng_util;
mod sampler;
mod types;

// Stand-ins, and the driver around them.
mod answers;
mod convert;
mod edition;
mod gap;
mod inputs;
mod load;
mod mix;
mod plane;
mod plans;
mod pool_file;
mod powers;
mod refusals;
mod session;
mod trial;
mod watch;
mod water;
mod words;

use std::io::{BufRead, BufWriter, Read, Write};

fn main() {
    let arguments: Vec<String> = std::env::args().skip(1).collect();
    let arguments: Vec<&str> = arguments.iter().map(String::as_str).collect();
    let done = match arguments[..] {
        [] => answer_lines(false),
        ["pairs"] => answer_lines(true),
        ["cases", kind] => inputs::cases(kind).map(print_lines),
        ["gen", seed, count, kind] => match (seed.parse(), count.parse()) {
            (Ok(seed), Ok(count)) => inputs::generated(seed, count, kind).map(print_lines),
            _ => Err("gen: SEED and N are unsigned numbers".to_string()),
        },
        ["choose"] => program(|file| pool_file::choose(file).into_bytes()),
        ["load"] => program(load::printed),
        ["convert"] => program(convert::printed),
        ["gap"] => {
            gap::measure();
            Ok(())
        }
        _ => Err(
            "usage: oracle [pairs | cases KIND | gen SEED N KIND | choose | load | convert | gap]"
                .to_string(),
        ),
    };
    if let Err(message) = done {
        eprintln!("oracle: {message}");
        std::process::exit(2);
    }
}

/// Answers each line of standard input; with `pairs`, each answer follows its
/// input line in numbers.
fn answer_lines(pairs: bool) -> Result<(), String> {
    let mut out = BufWriter::new(std::io::stdout().lock());
    for (at, line) in std::io::stdin().lock().lines().enumerate() {
        let line = line.map_err(|error| error.to_string())?;
        let (input, answer) = words::read(&line)
            .and_then(|input| answers::answer(&input).map(|answer| (input, answer)))
            .map_err(|what| format!("line {}: {what}", at + 1))?;
        if pairs {
            writeln!(out, "{}", words::write(&input)).map_err(|error| error.to_string())?;
        }
        writeln!(out, "{}", words::write(&answer)).map_err(|error| error.to_string())?;
        if !pairs {
            // A driver that waits for each answer gets it at once.
            out.flush().map_err(|error| error.to_string())?;
        }
    }
    out.flush().map_err(|error| error.to_string())
}

fn print_lines(lines: impl IntoIterator<Item = Vec<u64>>) {
    let mut out = BufWriter::new(std::io::stdout().lock());
    for line in lines {
        writeln!(out, "{}", words::write(&line)).expect("standard output takes the lines");
    }
}

/// A program that is proved, by the oracle: bytes in, bytes out.
fn program(printed: fn(&[u8]) -> Vec<u8>) -> Result<(), String> {
    let mut input = Vec::new();
    std::io::stdin()
        .read_to_end(&mut input)
        .map_err(|error| error.to_string())?;
    std::io::stdout()
        .write_all(&printed(&input))
        .map_err(|error| error.to_string())
}
