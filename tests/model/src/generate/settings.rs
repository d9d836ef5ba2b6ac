//! Files with settings: the first line is a line SET or nearly one, the steps go by the sizes that it leaves, and now
//! and then a line SET comes too late or a step names what lies just past the sizes.

use std::io::Write;

use super::malformed::spoil_once;
use super::rng::Rng;
use super::text::write_step;
use super::{Author, FileKind};
use crate::{BLOCKS, CLIENTS, FILES, Mode, PLACES, Settings, Sizes, Step, read_settings};

/// Of so many seeds, these have files about settings; the other files have no line SET.
const SEEDS: u64 = 11;
const WITH_SETTINGS: [u64; 4] = [3, 5, 8, 10];

/// After the first lines, one line in so many is late or past the sizes.
const ASIDE: usize = 50;

/// A file of another author with lines about settings in it.
pub struct WithSettings {
    settings_lines: SettingsLines,
    author: Box<dyn Author>,
}

impl WithSettings {
    pub fn new(settings_lines: SettingsLines, author: Box<dyn Author>) -> Self {
        WithSettings { settings_lines, author }
    }
}

impl Author for WithSettings {
    fn line(&mut self, offset: usize, text: &mut Vec<u8>) {
        match self.settings_lines.next() {
            Some(line) => text.extend(line),
            None => self.author.line(offset, text),
        }
    }

    fn ends_with_lf(&self) -> bool {
        self.author.ends_with_lf()
    }
}

/// The lines about settings in one file.
pub struct SettingsLines {
    rng: Rng,
    kind: FileKind,
    /// What comes first; none if that is a line of the author.
    first: Option<Vec<u8>>,
    line: usize,
}

impl SettingsLines {
    /// None if the file of this seed has no such lines.
    pub fn of(kind: FileKind, seed: u64) -> Option<Self> {
        if kind != FileKind::Space && !WITH_SETTINGS.contains(&(seed % SEEDS)) {
            return None;
        }
        let mut rng = Rng::new(seed ^ (kind as u64) << 32 ^ 0x05e7_71e5);
        let first = match rng.below(20) {
            _ if kind == FileKind::Space => Some(line_of(in_range(&mut rng, kind))),
            0..12 => Some(right_line(&mut rng, kind)),
            12..19 => Some(wrong_line(&mut rng, kind)),
            _ => None,
        };
        Some(SettingsLines { rng, kind, first, line: 0 })
    }

    /// The settings after the first line.
    pub fn left(&self) -> Settings {
        let given = self.first.as_deref().and_then(read_settings).map(|(settings, _)| settings);
        given.filter(|settings| settings.are_in_range()).unwrap_or(Settings::NOT_GIVEN)
    }

    /// The next line, or none if it is the author's.
    fn next(&mut self) -> Option<Vec<u8>> {
        self.line += 1;
        match self.line {
            1 => self.first.clone(),
            2 if self.rng.one_in(3) || self.first.is_none() => Some(self.late_line()),
            _ if self.rng.one_in(ASIDE) => Some(if self.rng.one_in(3) { self.late_line() } else { self.line_past() }),
            _ => None,
        }
    }

    fn late_line(&mut self) -> Vec<u8> {
        if self.rng.one_in(2) { right_line(&mut self.rng, self.kind) } else { wrong_line(&mut self.rng, self.kind) }
    }

    /// A step with a number just past the sizes: it is refused, whatever the state.
    fn line_past(&mut self) -> Vec<u8> {
        let Sizes { clients, files, blocks, .. } = self.left().read();
        let past = |size: usize, rng: &mut Rng| (size + *rng.pick(&[0, 0, 0, 1])) as u64;
        let mode = *self.rng.pick(&[Mode::Read, Mode::Write]);
        let (client, file, block) =
            (past(clients, &mut self.rng), past(files, &mut self.rng), past(blocks, &mut self.rng));
        let (there, value) = (self.rng.below(clients) as u64, 7);
        let steps = [
            Step::Open { mode, client, file: 0 },
            Step::Close { mode, client, file: 0 },
            Step::Reply { client, file: 0 },
            Step::Report { client },
            Step::Open { mode, client: there, file },
            Step::Close { mode, client: there, file },
            Step::Reply { client: there, file },
            Step::Read { client: there, file: 0, block },
            Step::Write { client: there, file: 0, block, value },
            Step::Flush { client: there, file: 0, block },
        ];
        let more: &[Step] = match self.kind {
            FileKind::Restart => &[Step::Restart { client }],
            FileKind::Embargo | FileKind::Space => &[
                Step::Restart { client },
                Step::Embargo { client, file: 0 },
                Step::Embargo { client: there, file },
                Step::Lift { client },
            ],
            _ => &[],
        };
        let step = match more {
            [] => *self.rng.pick(&steps),
            _ if !self.rng.one_in(4) => *self.rng.pick(&steps),
            [one] => *one,
            _ => *self.rng.pick(more),
        };
        let mut line = Vec::new();
        write_step(&step, &mut line);
        line
    }
}

/// A line SET with its numbers in range: few files where the steps shall meet.
fn right_line(rng: &mut Rng, kind: FileKind) -> Vec<u8> {
    line_of(in_range(rng, kind))
}

/// Three numbers or four.
fn line_of(numbers: Vec<u64>) -> Vec<u8> {
    let mut line = b"SET".to_vec();
    for number in numbers {
        write!(line, " {number}").expect("a vector takes every byte");
    }
    line
}

/// The clients, files and blocks, and sometimes the size of the store.
fn in_range(rng: &mut Rng, kind: FileKind) -> Vec<u64> {
    let clients = *rng.pick(&[1, 2, 2, 3, 3, 4, 5, 6, 7, 8]);
    let any_file = 1 + rng.below(FILES);
    let files = match kind {
        FileKind::Hot | FileKind::Malformed => *rng.pick(&[1, 1, 2, 2, 3, FILES]),
        FileKind::Space => *rng.pick(&[1, 2, 2, 3, 4, 8, any_file]),
        FileKind::Restart | FileKind::Embargo => *rng.pick(&[1, 2, 3, any_file, FILES, FILES]),
        FileKind::Wide | FileKind::Session => *rng.pick(&[any_file, any_file, any_file, FILES]),
    };
    let any_block = 1 + rng.below(BLOCKS);
    let blocks = *rng.pick(&[any_block, any_block, any_block, BLOCKS]);
    let mut numbers = vec![clients, files, blocks];
    if kind == FileKind::Space || rng.one_in(3) {
        numbers.push(store(rng, kind, files * blocks));
    }
    numbers.into_iter().map(|size| size as u64).collect()
}

/// None, few or about as many places as there are blocks, or all; small where places shall run out.
fn store(rng: &mut Rng, kind: FileKind, blocks: usize) -> usize {
    let (few, some) = (1 + rng.below(4), 4 + rng.below(8));
    let (part, about) = (rng.below(blocks + 1), (blocks - 1 + rng.below(3)).min(PLACES));
    match kind {
        FileKind::Space => *rng.pick(&[0, few, few, few, some, some, some, part, part, about, PLACES]),
        _ => *rng.pick(&[0, few, part, about, about, PLACES, PLACES]),
    }
}

/// A line SET with one number or all out of range, or spoilt in one place.
fn wrong_line(rng: &mut Rng, kind: FileKind) -> Vec<u8> {
    let mut numbers = in_range(rng, kind);
    if rng.one_in(3) {
        let mut line = line_of(numbers);
        spoil_once(rng, &mut line);
        return line;
    }
    let all = rng.one_in(4);
    let one = rng.below(numbers.len());
    for (at, (number, largest)) in numbers.iter_mut().zip([CLIENTS, FILES, BLOCKS, PLACES]).enumerate() {
        if all || at == one {
            *number = out_of_range(rng, largest as u64);
            // A store may have no place.
            *number = if largest == PLACES && *number == 0 { PLACES as u64 + 1 } else { *number };
        }
    }
    line_of(numbers)
}

/// Some would be in range if they were cut to 8 or 32 bits.
fn out_of_range(rng: &mut Rng, largest: u64) -> u64 {
    *rng.pick(&[0, 0, largest + 1, largest + 1, 256 + largest, (1 << 32) + 1, u64::MAX])
}
