//! Compares the static library of the register store, call by call, with an implementation of the rule book written from
//! its text alone: random sequences, damaged stores, or a script run again.

#![forbid(unsafe_code)]

mod compare;
mod counter;
mod damage;
mod demands;
mod figures;
mod random;
mod reference;
mod script;
mod sequences;
mod shrink;
mod stores;
mod tally;

use script::replay;
use std::process::ExitCode;

const USAGE: &str = "arguments: [seed [sequences [damaged calls]]], or --replay FILE";

/// 0 if everything agreed, 1 if not, 2 if the arguments say nothing.
fn main() -> ExitCode {
    let arguments: Vec<String> = std::env::args().skip(1).collect();
    let agreed = match arguments.first().map(String::as_str) {
        Some("--replay") if arguments.len() == 2 => Some(replay::replay(&arguments[1])),
        _ => numbers(&arguments).map(|[seed, sequences, damaged]| compare::compare(seed, sequences, damaged)),
    };
    if agreed.is_none() {
        eprintln!("{USAGE}");
    }
    ExitCode::from(agreed.map_or(2, |agreed| u8::from(!agreed)))
}

/// Seed, sequences and damaged calls; what is left out has its default.
fn numbers(arguments: &[String]) -> Option<[u64; 3]> {
    let mut chosen = [1, 300_000, 6_000_000];
    if arguments.len() > chosen.len() {
        return None;
    }
    for (place, argument) in arguments.iter().enumerate() {
        chosen[place] = argument.parse().ok()?;
    }
    Some(chosen)
}
