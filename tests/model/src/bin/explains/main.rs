//! Compares an explainer with the model's on seeded step files, byte for byte, and holds what it says of reads to the
//! text alone.
//!
//! `explains --explainer PROGRAM ..` compares; words after `--` are given to the program. `explains faults` tries each
//! deliberate fault of an explainer; `explains explain FAULT` is an explainer with that fault.

mod compare;
mod fault;
mod faults;

use std::env::args;
use std::fs;
use std::io::{Read, Write, stdin, stdout};
use std::process::ExitCode;

use model::sample::{KINDS, Options, Sample};
use model::verdict;

fn main() -> ExitCode {
    let words: Vec<String> = args().skip(1).collect();
    let words: Vec<&str> = words.iter().map(String::as_str).collect();
    match words[..] {
        ["faults"] => verdict(faults::try_all()),
        ["explain", name] => explain(name, None),
        ["explain", name, "--read-image", image] => explain(name, Some(image)),
        _ => match Options::of("--explainer", &words) {
            Ok(options) => verdict(compare::with_program(&options)),
            Err(problem) => {
                eprintln!("explains: {problem}\n{}", usage());
                ExitCode::from(2)
            }
        },
    }
}

fn usage() -> String {
    format!(
        "usage: explains --explainer PROGRAM [--seeds A..B] [--lines N] [--kinds {KINDS}] [-- WORD..]
       explains faults
       explains explain FAULT [--read-image FILE]"
    )
}

/// Explains standard input with a fault.
fn explain(name: &str, image: Option<&str>) -> ExitCode {
    match explained(name, image).and_then(|output| stdout().write_all(&output).map_err(|error| error.to_string())) {
        Ok(()) => ExitCode::SUCCESS,
        Err(problem) => {
            eprintln!("explains: {problem}");
            ExitCode::FAILURE
        }
    }
}

fn explained(name: &str, image: Option<&str>) -> Result<Vec<u8>, String> {
    let fault = faults::named(name).ok_or(format!("there is no {name}"))?;
    let image = image.map(fs::read).transpose().map_err(|error| error.to_string())?;
    let mut input = Vec::new();
    stdin().read_to_end(&mut input).map_err(|error| error.to_string())?;
    Ok(fault.explained(&Sample { name: name.into(), seed: 0, input, image }))
}
