//! The state of a file, by the 1989 paper's names and document 01's codes.

use crate::{Entry, Sizes};

#[derive(Clone, Copy, PartialEq, Eq, Debug)]
#[repr(u8)]
pub enum State {
    Closed = 0,
    ClosedDirty = 1,
    OneReader = 2,
    OneRdrDirty = 3,
    MultReaders = 4,
    OneWriter = 5,
    WriteShared = 6,
}

impl State {
    pub fn code(self) -> u64 {
        self as u64
    }

    pub fn name(self) -> &'static str {
        match self {
            State::Closed => "CLOSED",
            State::ClosedDirty => "CLOSED_DIRTY",
            State::OneReader => "ONE_READER",
            State::OneRdrDirty => "ONE_RDRDIRTY",
            State::MultReaders => "MULT_READERS",
            State::OneWriter => "ONE_WRITER",
            State::WriteShared => "WRITE_SHARED",
        }
    }

    /// "Names, first that fits."
    pub fn of(sizes: Sizes, entry: &Entry) -> State {
        let open = entry.open_clients(sizes);
        if open.is_empty() {
            return if entry.last_writer.read(sizes).is_none() { State::Closed } else { State::ClosedDirty };
        }
        if !open.minus(entry.caching_clients(sizes)).is_empty() {
            return State::WriteShared;
        }
        match open.single() {
            Some(client) if entry.records[client].writers > 0 => State::OneWriter,
            Some(client) if entry.last_writer.read(sizes) == Some(client) => State::OneRdrDirty,
            Some(_) => State::OneReader,
            None => State::MultReaders,
        }
    }
}
