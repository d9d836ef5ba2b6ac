//! The command line of a comparison.

use std::ops::Range;

use super::Kind;
use crate::generate::seeds;

/// The kinds, as a usage line tells them.
pub const KINDS: &str = "hot,wide,malformed,session,restart,embargo,space,resumed,resumed-restart,resumed-embargo";

pub struct Options {
    /// The program under test.
    pub program: String,
    /// Words that it is given.
    pub words: Vec<String>,
    pub seeds: Range<u64>,
    pub lines: usize,
    pub kinds: Vec<Kind>,
}

impl Options {
    /// The option of this name gives the program.
    pub fn of(program: &str, words: &[&str]) -> Result<Self, String> {
        let mut options = Options {
            program: String::new(),
            words: Vec::new(),
            seeds: 0..100,
            lines: 1000,
            kinds: Kind::ALL.to_vec(),
        };
        let mut words = words.iter().copied();
        while let Some(word) = words.next() {
            if word == "--" {
                options.words = words.map(str::to_string).collect();
                break;
            }
            let value = words.next().ok_or(format!("{word} needs a value"))?;
            if word == program {
                options.program = value.into();
            } else {
                options.set(word, value).ok_or(format!("cannot read {word} {value}"))?;
            }
        }
        if options.program.is_empty() { Err(format!("{program} is missing")) } else { Ok(options) }
    }

    fn set(&mut self, word: &str, value: &str) -> Option<()> {
        match word {
            "--seeds" => self.seeds = seeds(value)?,
            "--lines" => self.lines = value.parse().ok()?,
            "--kinds" => self.kinds = value.split(',').map(Kind::named).collect::<Option<_>>()?,
            _ => return None,
        }
        Some(())
    }
}
