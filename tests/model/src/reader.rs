//! Lines to steps, in one pass over the bytes as they lie in the input buffer.

use crate::{Mode, Settings, Step};

/// `WR` and four numbers of twenty digits: a line of more bytes gives no step.
pub const LONGEST_STEP: usize = 86;

/// What becomes of a line. It is told by the branch that has read the line's word: the compiler knows the kind of step
/// there, so that the way from word to answer has one dispatch and not three.
pub trait Taker {
    type Answer;
    fn step(self, step: Step) -> Self::Answer;
    /// The line gives no step.
    fn no_step(self) -> Self::Answer;
}

/// Hands the first line of `bytes` to the taker. Gives its answer and how many bytes the line has with its LF; a line
/// without LF ends where `bytes` end.
#[inline(always)]
pub fn take_line<T: Taker>(bytes: &[u8], taker: T) -> (T::Answer, usize) {
    let Some((word, rest)) = bytes.split_first_chunk() else { return no_step(bytes, taker) };
    let line = Line { bytes, rest };
    match word {
        b"OR" => line.step(taker, |l| Some(Step::Open { mode: Mode::Read, client: l.number()?, file: l.number()? })),
        b"OW" => line.step(taker, |l| Some(Step::Open { mode: Mode::Write, client: l.number()?, file: l.number()? })),
        b"CR" => line.step(taker, |l| Some(Step::Close { mode: Mode::Read, client: l.number()?, file: l.number()? })),
        b"CW" => line.step(taker, |l| Some(Step::Close { mode: Mode::Write, client: l.number()?, file: l.number()? })),
        b"AN" => line.step(taker, |l| Some(Step::Reply { client: l.number()?, file: l.number()? })),
        b"RD" => line.step(taker, |l| Some(Step::Read { client: l.number()?, file: l.number()?, block: l.number()? })),
        b"FL" => line.step(taker, |l| Some(Step::Flush { client: l.number()?, file: l.number()?, block: l.number()? })),
        b"WR" => line.step(taker, |l| {
            Some(Step::Write { client: l.number()?, file: l.number()?, block: l.number()?, value: l.number()? })
        }),
        b"XX" => line.step(taker, |_| Some(Step::Crash)),
        b"RP" => line.step(taker, |l| Some(Step::Report { client: l.number()? })),
        b"EN" => line.step(taker, |_| Some(Step::End)),
        b"BT" => line.step(taker, |l| Some(Step::Restart { client: l.number()? })),
        b"EM" => line.step(taker, |l| Some(Step::Embargo { client: l.number()?, file: l.number()? })),
        b"LF" => line.step(taker, |l| Some(Step::Lift { client: l.number()? })),
        _ => no_step(bytes, taker),
    }
}

/// The step of the first line, if it gives one, and how many bytes the line has.
pub fn read_line(bytes: &[u8]) -> (Option<Step>, usize) {
    struct Keep;
    impl Taker for Keep {
        type Answer = Option<Step>;
        fn step(self, step: Step) -> Option<Step> {
            Some(step)
        }
        fn no_step(self) -> Option<Step> {
            None
        }
    }
    take_line(bytes, Keep)
}

/// The settings of the first line, if it is a line SET, and how many bytes the line has.
pub fn read_settings(bytes: &[u8]) -> Option<(Settings, usize)> {
    let mut line = Line { bytes, rest: bytes.strip_prefix(b"SET")? };
    let (clients, files, blocks) = (line.number()?, line.number()?, line.number()?);
    // "A fourth setting, 512 if not given."
    let store = if line.end().is_some() { Settings::NOT_GIVEN.store } else { line.number()? };
    line.end().map(|length| (Settings { clients, files, blocks, store }, length))
}

#[cold]
fn no_step<T: Taker>(bytes: &[u8], taker: T) -> (T::Answer, usize) {
    let length = bytes.iter().position(|&byte| byte == b'\n').map_or(bytes.len(), |lf| lf + 1);
    (taker.no_step(), length)
}

/// A line whose word is read.
struct Line<'a> {
    bytes: &'a [u8],
    rest: &'a [u8],
}

impl Line<'_> {
    /// Reads the fields of the step; the line must end behind them.
    #[inline(always)]
    fn step<T: Taker>(mut self, taker: T, fields: impl FnOnce(&mut Self) -> Option<Step>) -> (T::Answer, usize) {
        let step = fields(&mut self);
        match (step, self.end()) {
            (Some(step), Some(length)) => (taker.step(step), length),
            _ => no_step(self.bytes, taker),
        }
    }

    /// How many bytes the line has, if it ends here.
    #[inline(always)]
    fn end(&self) -> Option<usize> {
        let next = match self.rest {
            [] => self.rest,
            [b'\n', next @ ..] => next,
            _ => return None,
        };
        Some(self.bytes.len() - next.len())
    }

    /// One space and a decimal number below 2 to the 64th without a leading zero.
    #[inline(always)]
    fn number(&mut self) -> Option<u64> {
        let [b' ', first @ b'0'..=b'9', rest @ ..] = self.rest else { return None };
        let mut value = u64::from(first - b'0');
        self.rest = rest;
        while let [digit @ b'0'..=b'9', rest @ ..] = self.rest {
            if value == 0 {
                return None;
            }
            value = value.checked_mul(10)?.checked_add(u64::from(digit - b'0'))?;
            self.rest = rest;
        }
        Some(value)
    }
}
