//! Lines that are nearly steps: steps of a hot file, most of them spoilt in one place. No line has an LF in it.

use super::Author;
use super::guided::Guided;
use super::rng::Rng;
use super::text::write_step;
use crate::{LONGEST_STEP, Settings, read_line};

/// A player's buffer may be of this size: lines are made that end at its edge or reach past it.
const BUFFER: usize = 256 * 1024;

type Spoil = fn(&mut Rng, &mut Vec<u8>);

const SPOILS: [Spoil; 21] = [
    |rng, line| insert(rng, line, is_number_start, b"0"),
    |rng, line| insert(rng, line, is_number_start, b"+"),
    |rng, line| insert(rng, line, is_number_start, b"-"),
    |rng, line| insert(rng, line, is_space, b" "),
    |rng, line| replace(rng, line, is_space, b'\t'),
    |rng, line| replace(rng, line, is_anything, 0),
    |_, line| line.push(b' '),
    |_, line| line.push(b'\r'),
    |_, line| line.push(0),
    |_, line| line.insert(0, b' '),
    |_, line| line.make_ascii_lowercase(),
    |_, line| line.truncate(line.iter().rposition(|&byte| byte == b' ').unwrap_or(1)),
    |_, line| line.extend(b" 0"),
    |_, line| line.clear(),
    |rng, line| insert_any(rng, line),
    |rng, line| replace_any(rng, line),
    |rng, line| remove_any(rng, line),
    |rng, line| big_number(rng, line),
    |rng, line| pad_to_longest_step(rng, line),
    |rng, line| longest_step(rng, line),
    |_, line| line.extend_from_within(..),
];

const BIG_NUMBERS: [&[u8]; 6] = [
    b"18446744073709551615",
    b"18446744073709551616",
    b"18446744073709551625",
    b"99999999999999999999",
    b"184467440737095516150",
    b"340282366920938463463374607431768211456",
];

fn is_space(line: &[u8], at: usize) -> bool {
    line[at] == b' '
}

fn is_number_start(line: &[u8], at: usize) -> bool {
    at > 0 && line[at - 1] == b' '
}

fn is_anything(_line: &[u8], _at: usize) -> bool {
    true
}

fn place(rng: &mut Rng, line: &[u8], fits: fn(&[u8], usize) -> bool) -> Option<usize> {
    let places: Vec<usize> = (0..line.len()).filter(|&at| fits(line, at)).collect();
    (!places.is_empty()).then(|| *rng.pick(&places))
}

fn insert(rng: &mut Rng, line: &mut Vec<u8>, fits: fn(&[u8], usize) -> bool, bytes: &[u8]) {
    if let Some(at) = place(rng, line, fits) {
        line.splice(at..at, bytes.iter().copied());
    }
}

fn replace(rng: &mut Rng, line: &mut [u8], fits: fn(&[u8], usize) -> bool, byte: u8) {
    if let Some(at) = place(rng, line, fits) {
        line[at] = byte;
    }
}

/// Any byte but LF.
fn any_byte(rng: &mut Rng) -> u8 {
    match rng.below(256) as u8 {
        b'\n' => b'\r',
        byte => byte,
    }
}

fn insert_any(rng: &mut Rng, line: &mut Vec<u8>) {
    let byte = any_byte(rng);
    line.insert(rng.below(line.len() + 1), byte);
}

fn replace_any(rng: &mut Rng, line: &mut [u8]) {
    let byte = any_byte(rng);
    replace(rng, line, is_anything, byte);
}

fn remove_any(rng: &mut Rng, line: &mut Vec<u8>) {
    if let Some(at) = place(rng, line, is_anything) {
        line.remove(at);
    }
}

fn big_number(rng: &mut Rng, line: &mut Vec<u8>) {
    let Some(from) = place(rng, line, is_number_start) else { return };
    let to = line[from..].iter().position(|&byte| byte == b' ').map_or(line.len(), |length| from + length);
    let number = *rng.pick(&BIG_NUMBERS);
    line.splice(from..to, number.iter().copied());
}

fn pad_to_longest_step(rng: &mut Rng, line: &mut Vec<u8>) {
    line.resize(LONGEST_STEP - 1 + rng.below(4), b'1');
}

/// As long as a step can be, or one byte longer.
fn longest_step(rng: &mut Rng, line: &mut Vec<u8>) {
    line.clear();
    line.extend(b"WR");
    for _ in 0..4 {
        line.extend(b" 18446744073709551615");
    }
    if rng.one_in(2) {
        line.push(*rng.pick(b"0 \rX"));
    }
}

pub fn spoil_once(rng: &mut Rng, line: &mut Vec<u8>) {
    rng.pick(&SPOILS)(rng, line);
}

pub struct Malformed {
    steps: Guided,
    rng: Rng,
    ends_with_lf: bool,
}

impl Malformed {
    pub fn new(seed: u64, settings: Settings) -> Self {
        let rng = Rng::new(seed ^ 0x0ddb_17e5);
        Malformed { steps: Guided::hot(seed, settings), rng, ends_with_lf: seed.is_multiple_of(2) }
    }

    pub fn with_restarts(mut self) -> Self {
        self.steps = self.steps.with_restarts();
        self
    }

    pub fn with_embargoes(mut self) -> Self {
        self.steps = self.steps.with_embargoes();
        self
    }

    pub fn with_small_store(mut self) -> Self {
        self.steps = self.steps.with_small_store();
        self
    }

    fn spoil(&mut self, offset: usize, line: &mut Vec<u8>) {
        match self.rng.below(400) {
            0 => self.lengthen(line),
            1 => self.end_at_buffer(offset, line),
            2..=160 => {}
            _ => spoil_once(&mut self.rng, line),
        }
    }

    /// Past one or more buffers.
    fn lengthen(&mut self, line: &mut Vec<u8>) {
        let length = *self.rng.pick(&[BUFFER - 1, BUFFER, BUFFER + 1, 2 * BUFFER, 3 * BUFFER + 7]);
        let filler = *self.rng.pick(b" 0X\0");
        line.resize(length, filler);
    }

    /// So that the LF is the last byte of a buffer, the one before or the one after.
    fn end_at_buffer(&mut self, offset: usize, line: &mut Vec<u8>) {
        let end = (offset + line.len() + 2).next_multiple_of(BUFFER) + self.rng.below(3) - 1;
        line.resize(end - offset - 1, b'x');
    }
}

impl Author for Malformed {
    fn line(&mut self, offset: usize, text: &mut Vec<u8>) {
        write_step(&self.steps.choose(), text);
        self.spoil(offset, text);
        if let (Some(step), _) = read_line(text) {
            self.steps.stage().take(&step);
        }
    }

    fn ends_with_lf(&self) -> bool {
        self.ends_with_lf
    }
}
