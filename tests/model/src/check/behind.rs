//! Counts of what closes and flushes leave behind (document 02, Wish 4): a last writer, or nothing.

use std::fmt;

use super::Witness;
use crate::{Mode, Outcome, Service, Step};

#[derive(Default)]
pub struct Behind {
    /// What the step that is taken next may bring about.
    next: Option<Move>,
    /// Closes of a last writer count with permission.
    closes: Left,
    /// Flushes by the last writer.
    flushes: Left,
    /// Those of them that leave nothing while the client's callback is out.
    flushes_while_called: u64,
}

#[derive(Default)]
struct Left {
    last_writer: u64,
    nothing: u64,
}

#[derive(Clone, Copy)]
struct Move {
    client: usize,
    file: usize,
    is_flush: bool,
}

impl Move {
    /// None if the step cannot change the last writer by Wish 4.
    fn of(service: &Service, step: &Step) -> Option<Self> {
        let sizes = service.sizes();
        let (client, file) = step.existing_place(sizes)?;
        let entry = &service.server.entries[file];
        let record = &entry.records[client];
        match step {
            Step::Close { mode: Mode::Write, .. } if record.writers == 1 && record.may_cache => {
                Some(Move { client, file, is_flush: false })
            }
            Step::Flush { .. } if entry.last_writer.read(sizes) == Some(client) => {
                Some(Move { client, file, is_flush: true })
            }
            _ => None,
        }
    }
}

impl Behind {
    /// The least of all counts.
    pub fn least(&self) -> u64 {
        let Behind { closes, flushes, flushes_while_called, .. } = self;
        [closes.last_writer, closes.nothing, flushes.last_writer, flushes.nothing, *flushes_while_called]
            .into_iter()
            .fold(u64::MAX, u64::min)
    }
}

impl Witness for Behind {
    fn before(&mut self, service: &Service, step: &Step) {
        self.next = Move::of(service, step);
    }

    fn after(&mut self, service: &Service, _step: &Step, outcome: &Outcome) {
        let Some(Move { client, file, is_flush }) = self.next.take().filter(|_| *outcome == Outcome::Done) else {
            return;
        };
        let sizes = service.sizes();
        let entry = &service.server.entries[file];
        let left = if is_flush { &mut self.flushes } else { &mut self.closes };
        if entry.last_writer.read(sizes).is_some() {
            left.last_writer += 1;
        } else {
            left.nothing += 1;
            self.flushes_while_called += u64::from(is_flush && entry.callback(sizes, client).is_some());
        }
    }
}

impl fmt::Display for Behind {
    fn fmt(&self, out: &mut fmt::Formatter) -> fmt::Result {
        let Behind { closes, flushes, flushes_while_called, .. } = self;
        writeln!(out, "last writer counts closed {}, {} of them with nothing dirty", closes.sum(), closes.nothing)?;
        write!(
            out,
            "flushes by a last writer {}, {} of them of its last dirty block, ",
            flushes.sum(),
            flushes.nothing
        )?;
        write!(out, "{flushes_while_called} of these while it was called")
    }
}

impl Left {
    fn sum(&self) -> u64 {
        self.last_writer + self.nothing
    }
}
