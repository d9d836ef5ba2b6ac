//! Asks a judge whether byte strings are images, and compares its answers with the model's.
//!
//! `images [--seeds A..B] --judge PROGRAM [WORD..]` makes a group of strings from each seed and asks PROGRAM. `images
//! judge` is a judge, the model itself; `images judge FAULT` is one with a wrong rule. `images faults` tries each fault.
//!
//! # What a judge does
//!
//! Its standard input has at most 65,536 bytes; `images` starts it as often as needed. They are strings in a row, each
//!
//! ```text
//! clients files blocks store (two bytes, low first) before low high
//!   and then   low + 256 * high   bytes: the string, of at most 8,192
//! ```
//!
//! The first four are the sizes of the service that reads, each in its range. The judge keeps one service. For the
//! first string, and when the four sizes are not those of the string before, it makes a fresh one of these sizes and
//! takes these steps, whatever is answered, with `f` for `files - 1`:
//!
//! ```text
//! OW 0 0    WR 0 0 0 1    OW 0 f    WR 0 f 0 2    CW 0 f
//! ```
//!
//! So client 0 has one file open and another closed and dirty, if the store has the places, and its reports bring
//! something back. For each string it
//! does the following, in this order and whatever is answered:
//!
//! 1. The steps before the string: none if `before` is 0; `XX`, `RP 0` if it is 1, so that the reading meets a
//!    recovery; `OW 1 0` if it is 2, so that it meets a wait.
//! 2. The string is read as an image.
//! 3. The files in force are counted whose state, by the table as it is now, is not CLOSED.
//! 4. `RP 0`, `RP 1` and so on for each client in force, then `EN`.
//! 5. The free places are read, and the image is written, into a buffer of at least 8,085 bytes.
//!
//! Its standard output has, for each string,
//!
//! ```text
//! '1' if the string was accepted, '0' if it was refused    one byte, 49 or 48
//! the number of files that are not CLOSED                  one byte
//! the free places                                          two bytes, low first
//! the length of the image and the image                    two bytes, low first, and so many
//!   or, if writing was refused, 0 0 and the refusal        three bytes
//! ```
//!
//! and after the last one LF, which shows that the run is whole.

mod compare;
mod faults;
mod wrong;

use std::env::args;
use std::io::{Read, Write, stdin, stdout};
use std::ops::Range;
use std::process::ExitCode;

use model::generate::seeds;
use model::images::Judge;
use model::{Service, verdict};

const USAGE: &str = "usage: images [--seeds A..B] --judge PROGRAM [WORD..] | images judge [FAULT] | images faults";

/// More than a million strings.
const SEEDS: Range<u64> = 0..1500;

fn main() -> ExitCode {
    let words: Vec<String> = args().skip(1).collect();
    let words: Vec<&str> = words.iter().map(String::as_str).collect();
    match words[..] {
        ["--judge", program, ref words @ ..] => verdict(compare::with_program(program, words, SEEDS)),
        ["--seeds", range, "--judge", program, ref words @ ..] => match seeds(range) {
            Some(seeds) => verdict(compare::with_program(program, words, seeds)),
            None => usage(),
        },
        ["judge"] => judge(Judge::model()),
        ["judge", name] => match faults::named(name) {
            Some(fault) => {
                let read = |service: &mut Service, bytes: &[u8]| fault.read_image(service, bytes);
                judge(Judge::new(&read, &|service| fault.written(service)))
            }
            None => verdict(Err(format!("there is no {name}"))),
        },
        ["faults"] => verdict(faults::try_all()),
        _ => usage(),
    }
}

fn usage() -> ExitCode {
    eprintln!("{USAGE}");
    ExitCode::from(2)
}

fn judge(judge: Judge) -> ExitCode {
    let mut input = Vec::new();
    let read = stdin().read_to_end(&mut input);
    match read.and_then(|_| stdout().write_all(&judge.run(&input))) {
        Ok(()) => ExitCode::SUCCESS,
        Err(error) => {
            eprintln!("images: {error}");
            ExitCode::FAILURE
        }
    }
}
