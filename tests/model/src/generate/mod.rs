//! Step files, each made from a kind, a seed and a number of lines, and the same for the same three.

mod aim;
mod closing;
mod embargo;
mod guided;
mod malformed;
mod recovery;
mod restart;
mod resumed;
mod rng;
mod scene;
mod session;
mod settings;
mod space;
mod stage;
mod text;
mod tide;

use std::io::{Result, Write};
use std::ops::Range;

use guided::Guided;
use malformed::Malformed;
use session::Session;
use settings::{SettingsLines, WithSettings};

use crate::{Service, Settings};

pub use closing::{closing_time, leaving_embargoes};
pub use recovery::{Recovery, hand_made_recovery};
pub use resumed::{embargoed_run, restarted_run, resumed_run};
pub use rng::Rng;

#[derive(Clone, Copy, PartialEq, Eq, Debug)]
pub enum FileKind {
    /// Few clients, files and blocks: waits, crashes and every refusal are frequent.
    Hot,
    /// All clients, files and blocks that there are.
    Wide,
    /// Steps and lines that are nearly steps.
    Malformed,
    /// All desks at work: mostly reads and writes, prompt replies, a crash now and then.
    Session,
    /// Hot, wide and malformed files in which clients restart. The kinds above have no restart.
    Restart,
    /// The same with clients under embargo too. The kinds above have no embargo.
    Embargo,
    /// Hot, wide and malformed files with restarts and embargoes, of a service whose store is small: its places are
    /// taken and freed in every way, and 23 is frequent.
    Space,
}

impl FileKind {
    pub const ALL: [FileKind; 7] = [
        FileKind::Hot,
        FileKind::Wide,
        FileKind::Malformed,
        FileKind::Session,
        FileKind::Restart,
        FileKind::Embargo,
        FileKind::Space,
    ];

    pub fn name(self) -> &'static str {
        match self {
            FileKind::Hot => "hot",
            FileKind::Wide => "wide",
            FileKind::Malformed => "malformed",
            FileKind::Session => "session",
            FileKind::Restart => "restart",
            FileKind::Embargo => "embargo",
            FileKind::Space => "space",
        }
    }

    pub fn named(name: &str) -> Option<FileKind> {
        FileKind::ALL.into_iter().find(|kind| kind.name() == name)
    }
}

/// Writes the lines of a step file, one at a time and without their LF.
trait Author {
    /// The line that begins at this offset in the file.
    fn line(&mut self, offset: usize, text: &mut Vec<u8>);

    /// Whether the last line has its LF.
    fn ends_with_lf(&self) -> bool {
        true
    }
}

pub fn generate(kind: FileKind, seed: u64, lines: usize, output: &mut impl Write) -> Result<()> {
    let settings_lines = SettingsLines::of(kind, seed);
    let settings = settings_lines.as_ref().map_or(Settings::NOT_GIVEN, SettingsLines::left);
    let mut author: Box<dyn Author> = match kind {
        FileKind::Hot => Box::new(Guided::hot(seed, settings)),
        FileKind::Wide => Box::new(Guided::wide(seed, settings)),
        FileKind::Malformed => Box::new(Malformed::new(seed, settings)),
        FileKind::Session => Box::new(Session::new(seed, settings)),
        FileKind::Restart => restarting(seed, settings),
        FileKind::Embargo => embargoing(seed, settings),
        FileKind::Space => spacing(seed, settings),
    };
    match settings_lines {
        Some(settings_lines) => write_lines(&mut WithSettings::new(settings_lines, author), lines, output),
        None => write_lines(&mut *author, lines, output),
    }
}

/// Of four seeds, one has hot files, two have wide ones and one has malformed ones.
fn restarting(seed: u64, settings: Settings) -> Box<dyn Author> {
    match seed % 4 {
        0 => Box::new(Guided::hot(seed, settings).with_restarts()),
        1 | 2 => Box::new(Guided::wide(seed, settings).with_restarts()),
        _ => Box::new(Malformed::new(seed, settings).with_restarts()),
    }
}

/// The same with embargoes.
fn embargoing(seed: u64, settings: Settings) -> Box<dyn Author> {
    match seed % 4 {
        0 => Box::new(Guided::hot(seed, settings).with_embargoes()),
        1 | 2 => Box::new(Guided::wide(seed, settings).with_embargoes()),
        _ => Box::new(Malformed::new(seed, settings).with_embargoes()),
    }
}

/// Of eight seeds, five have hot files, two have wide ones and one has malformed ones.
fn spacing(seed: u64, settings: Settings) -> Box<dyn Author> {
    match seed % 8 {
        0..5 => Box::new(Guided::hot(seed, settings).with_small_store()),
        5 | 6 => Box::new(Guided::wide(seed, settings).with_small_store()),
        _ => Box::new(Malformed::new(seed, settings).with_small_store()),
    }
}

fn write_lines(author: &mut dyn Author, lines: usize, output: &mut impl Write) -> Result<()> {
    let mut text = Vec::new();
    let mut offset = 0;
    for line in 1..=lines {
        text.clear();
        author.line(offset, &mut text);
        if line < lines || author.ends_with_lf() {
            text.push(b'\n');
        }
        output.write_all(&text)?;
        offset += text.len();
    }
    Ok(())
}

/// Seeds as a command line gives them, `A..B`.
pub fn seeds(text: &str) -> Option<Range<u64>> {
    let (first, end) = text.split_once("..")?;
    Some(first.parse().ok()?..end.parse().ok()?)
}

/// A step file in memory.
pub fn step_file(kind: FileKind, seed: u64, lines: usize) -> Vec<u8> {
    let mut bytes = Vec::new();
    generate(kind, seed, lines, &mut bytes).expect("a vector takes every byte");
    bytes
}

/// A wide file with restarts, in memory, that goes on from this service.
pub fn restarts_from(service: Service, seed: u64, lines: usize) -> Vec<u8> {
    let mut bytes = Vec::new();
    write_lines(&mut Guided::from(service, seed), lines, &mut bytes).expect("a vector takes every byte");
    bytes
}

/// The same with embargoes.
pub fn embargoes_from(service: Service, seed: u64, lines: usize) -> Vec<u8> {
    let mut bytes = Vec::new();
    let mut author = Guided::from(service, seed).with_embargoes();
    write_lines(&mut author, lines, &mut bytes).expect("a vector takes every byte");
    bytes
}

/// A session in memory that goes on from this service.
pub fn session_from(service: Service, seed: u64, lines: usize) -> Vec<u8> {
    let mut bytes = Vec::new();
    write_lines(&mut Session::from(service, seed), lines, &mut bytes).expect("a vector takes every byte");
    bytes
}
