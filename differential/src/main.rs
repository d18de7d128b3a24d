//! Compares Azwukran's static library with naga's overload resolution, and times both, in one process.
//!
//!     differential compare [--seed N] [--quick]    exits with 1 where anything differs
//!     differential bench [--seed N]
//!     differential texts [--seed N]                writes the stored answers on texts to standard output

mod bench;
mod calls;
mod compare;
mod crate_side;
mod effort;
mod expressions;
mod generate;
mod generate_texts;
mod machine;
mod numbering;
mod ours;
mod random;
mod rank_questions;
mod ranks;
mod readings;
mod sets;
mod stored_texts;
mod tally;
mod text_questions;
mod texts;

use std::env;
use std::process::ExitCode;

const USAGE: &str = "usage: differential compare [--seed N] [--quick] | bench [--seed N] | texts [--seed N]";

fn main() -> ExitCode {
    let words: Vec<String> = env::args().skip(1).collect();
    let Some((command, options)) = words.split_first() else { return usage() };
    let mut seed = 1;
    let mut quick = false;
    let mut options = options.iter();
    while let Some(option) = options.next() {
        match option.as_str() {
            "--quick" if command == "compare" => quick = true,
            "--seed" => match options.next().and_then(|number| number.parse().ok()) {
                Some(number) => seed = number,
                None => return usage(),
            },
            _ => return usage(),
        }
    }
    match command.as_str() {
        "compare" if compare::compare(seed, quick) => ExitCode::SUCCESS,
        "compare" => ExitCode::FAILURE,
        "bench" => {
            bench::bench(seed);
            ExitCode::SUCCESS
        }
        "texts" => match stored_texts::store(seed) {
            Ok(()) => ExitCode::SUCCESS,
            Err(fault) => {
                eprintln!("the stored answers cannot be written: {fault}");
                ExitCode::FAILURE
            }
        },
        _ => usage(),
    }
}

fn usage() -> ExitCode {
    eprintln!("{USAGE}");
    ExitCode::from(2)
}
