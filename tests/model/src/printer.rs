//! Outcomes to lines, and the summary of the state table.

use std::io::{Result, Write};

use crate::text::{LineNumber, Text};
use crate::{Callbacks, Entry, Grant, GrantedOpen, Outcome, Service, Sizes, State};

const BUFFER: usize = 64 * 1024;

/// Room for any line but those of a restart and of an embargo. The longest, of fewer than 500 bytes, explains an open
/// that waits for seven clients.
const LINE_ROOM: usize = 512;

/// Room for the line of a restart or an embargo, explained: 64 grants with their sentences and 512 writes that are
/// lost.
const LONG_ROOM: usize = 36 * 1024;

pub struct Printer<W> {
    to: W,
    buffer: Box<[u8]>,
    filled: usize,
    line_number: LineNumber,
}

impl<W: Write> Printer<W> {
    pub fn new(to: W) -> Self {
        Printer { to, buffer: vec![0; BUFFER].into_boxed_slice(), filled: 0, line_number: LineNumber::zero() }
    }

    /// The output line of the next input line.
    #[inline(always)]
    pub fn outcome(&mut self, outcome: &Outcome) -> Result<()> {
        self.explained(outcome, |_| ())
    }

    /// The same, with more behind the outcome.
    #[inline(always)]
    pub fn explained(&mut self, outcome: &Outcome, explain: impl FnOnce(&mut Text)) -> Result<()> {
        self.make_room(room_for(outcome))?;
        self.line_number.advance();
        let mut text = Text::new(&mut self.buffer, self.filled);
        text.line_number(&self.line_number);
        text.outcome(outcome);
        explain(&mut text);
        text.byte(b'\n');
        self.filled = text.end();
        Ok(())
    }

    /// An output line that has no input line.
    pub fn line(&mut self, write: impl FnOnce(&mut Text)) -> Result<()> {
        self.line_in(LINE_ROOM, write)
    }

    /// One that may list 512 writes.
    pub fn long_line(&mut self, write: impl FnOnce(&mut Text)) -> Result<()> {
        self.line_in(LONG_ROOM, write)
    }

    fn line_in(&mut self, room: usize, write: impl FnOnce(&mut Text)) -> Result<()> {
        self.make_room(room)?;
        let mut text = Text::new(&mut self.buffer, self.filled);
        write(&mut text);
        text.byte(b'\n');
        self.filled = text.end();
        Ok(())
    }

    /// The summary of the first so many files.
    pub fn summary(&mut self, service: &Service, files: usize) -> Result<()> {
        let sizes = service.sizes();
        let listed = |entry: &Entry| State::of(sizes, entry) != State::Closed || entry.version.read() != 1;
        let entries = &service.server.entries[..files];
        let count = entries.iter().filter(|entry| listed(entry)).count();
        self.line(|text| {
            text.bytes(b"files ");
            text.number(count as u64);
        })?;
        for (file, entry) in entries.iter().enumerate().filter(|(_, entry)| listed(entry)) {
            self.line(|text| text.entry(sizes, file, entry))?;
        }
        Ok(())
    }

    pub fn flush(&mut self) -> Result<()> {
        self.to.write_all(&self.buffer[..self.filled])?;
        self.filled = 0;
        self.to.flush()
    }

    pub fn into_inner(mut self) -> Result<W> {
        self.flush()?;
        Ok(self.to)
    }

    #[inline]
    fn make_room(&mut self, room: usize) -> Result<()> {
        if BUFFER - self.filled < room { self.flush() } else { Ok(()) }
    }
}

#[inline(always)]
fn room_for(outcome: &Outcome) -> usize {
    if matches!(outcome, Outcome::Restarted { .. } | Outcome::Embargoed { .. }) { LONG_ROOM } else { LINE_ROOM }
}

impl Text<'_> {
    #[inline(always)]
    fn outcome(&mut self, outcome: &Outcome) {
        match outcome {
            Outcome::Granted(grant) => {
                self.bytes(b" G");
                self.grant(grant);
            }
            Outcome::Waits(callbacks) => {
                self.bytes(b" W");
                self.callbacks(*callbacks);
            }
            Outcome::Value(value) => {
                self.bytes(b" V ");
                self.number(*value);
            }
            Outcome::Refused(refusal) => {
                self.bytes(b" N ");
                self.number(refusal.number() as u64);
            }
            Outcome::Replied { sent, granted } => {
                self.bytes(b" A ");
                self.number(*sent as u64);
                if let Some((opener, grant)) = granted {
                    self.grant_to(*opener, grant);
                }
            }
            Outcome::Restarted { granted } => {
                self.bytes(b" K");
                self.grants(granted);
            }
            Outcome::Embargoed { granted } => {
                self.bytes(b" A 0");
                self.grants(granted);
            }
            Outcome::Done => self.bytes(b" K"),
        }
    }

    fn grants(&mut self, granted: &[GrantedOpen]) {
        for GrantedOpen { opener, grant, .. } in granted {
            self.grant_to(*opener, grant);
        }
    }

    fn grant_to(&mut self, opener: usize, grant: &Grant) {
        self.byte(b' ');
        self.number(opener as u64);
        self.grant(grant);
    }

    fn grant(&mut self, grant: &Grant) {
        for field in [u64::from(grant.latest), u64::from(grant.previous), u64::from(grant.may_cache)] {
            self.byte(b' ');
            self.number(field);
        }
    }

    /// The calls of one open, in ascending station number (document 02, Wish 1).
    fn callbacks(&mut self, callbacks: Callbacks) {
        for client in callbacks.clients().members() {
            self.bytes(&[b' ', b'0' + client as u8, b':', b'0' + callbacks.0[client]]);
        }
    }

    fn entry(&mut self, sizes: Sizes, file: usize, entry: &Entry) {
        for field in [file as u64, State::of(sizes, entry).code(), u64::from(entry.version.read())] {
            self.number(field);
            self.byte(b' ');
        }
        match entry.last_writer.read(sizes) {
            Some(client) => self.number(client as u64),
            None => self.byte(b'-'),
        }
    }
}
