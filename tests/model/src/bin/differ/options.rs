//! The command line of the differential run.

use std::env::args;
use std::ops::Range;

use model::generate::{FileKind, seeds};

pub const USAGE: &str =
    "usage: differ --player PATH [--seeds A..B] [--lines N] [--kinds hot,wide,malformed,session,restart,embargo,space]";

pub struct Options {
    pub player: String,
    pub seeds: Range<u64>,
    pub lines: usize,
    pub kinds: Vec<FileKind>,
}

impl Options {
    pub fn from_args() -> Result<Self, String> {
        let mut player = None;
        let mut options = Options { player: String::new(), seeds: 0..100, lines: 1000, kinds: FileKind::ALL.to_vec() };
        let mut words = args().skip(1);
        while let Some(word) = words.next() {
            let value = words.next().ok_or(format!("{word} needs a value"))?;
            let unreadable = || format!("cannot read {word} {value}");
            match word.as_str() {
                "--player" => player = Some(value),
                "--seeds" => options.seeds = seeds(&value).ok_or_else(unreadable)?,
                "--lines" => options.lines = value.parse().map_err(|_| unreadable())?,
                "--kinds" => options.kinds = kinds(&value).ok_or_else(unreadable)?,
                _ => return Err(format!("unknown option {word}")),
            }
        }
        options.player = player.ok_or("--player is missing")?;
        Ok(options)
    }
}

fn kinds(text: &str) -> Option<Vec<FileKind>> {
    text.split(',').map(FileKind::named).collect()
}
