//! Compares a counter of traffic with the model's on seeded step files, byte for byte.
//!
//! `counts --counter PROGRAM ..` compares; words after `--` are given to the program. `counts faults VECTORS` tries
//! each deliberate fault of a counter, on the vectors of that directory and on seeded files; `counts count FAULT` is a
//! counter with that fault.

mod compare;
mod fault;
mod faults;

use std::env::args;
use std::fs;
use std::io::{Read, Write, stdin, stdout};
use std::path::Path;
use std::process::ExitCode;

use model::sample::{KINDS, Options, Sample};
use model::verdict;

fn main() -> ExitCode {
    let words: Vec<String> = args().skip(1).collect();
    let words: Vec<&str> = words.iter().map(String::as_str).collect();
    match words[..] {
        ["faults", vectors] => verdict(faults::try_all(Path::new(vectors))),
        ["count", name] => count(name, None),
        ["count", name, "--read-image", image] => count(name, Some(image)),
        _ => match Options::of("--counter", &words) {
            Ok(options) => verdict(compare::with_program(&options)),
            Err(problem) => {
                eprintln!("counts: {problem}\n{}", usage());
                ExitCode::from(2)
            }
        },
    }
}

fn usage() -> String {
    format!(
        "usage: counts --counter PROGRAM [--seeds A..B] [--lines N] [--kinds {KINDS}] [-- WORD..]
       counts faults VECTORS
       counts count FAULT [--read-image FILE]"
    )
}

/// Counts standard input with a fault.
fn count(name: &str, image: Option<&str>) -> ExitCode {
    match counted(name, image).and_then(|output| stdout().write_all(&output).map_err(|error| error.to_string())) {
        Ok(()) => ExitCode::SUCCESS,
        Err(problem) => {
            eprintln!("counts: {problem}");
            ExitCode::FAILURE
        }
    }
}

fn counted(name: &str, image: Option<&str>) -> Result<Vec<u8>, String> {
    let fault = faults::named(name).ok_or(format!("there is no {name}"))?;
    let image = image.map(fs::read).transpose().map_err(|error| error.to_string())?;
    let mut input = Vec::new();
    stdin().read_to_end(&mut input).map_err(|error| error.to_string())?;
    Ok(fault.counted(&Sample { name: name.into(), seed: 0, input, image }))
}
