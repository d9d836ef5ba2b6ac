//! What is told of a line, before it is put into words.

use super::{LostAt, Origin, Reason, WrittenAt};
use crate::{Callbacks, ClientSet, Grant, Mode, Sizes, State, copy_kept};

#[derive(Clone, PartialEq, Eq, Debug)]
pub enum Told {
    Read(Reading),
    Granted(Granted),
    /// The state is the file's just before the open.
    Waits {
        opening: Opening,
        state: State,
        callbacks: Callbacks,
    },
    /// A callback reply after which others are due.
    Answered {
        client: usize,
        file: usize,
        sent: usize,
        still: ClientSet,
    },
    /// A callback reply that lets the waiting open be granted.
    AnsweredLast {
        client: usize,
        sent: usize,
        granted: Granted,
    },
    Closed(Opening),
    Written {
        place: Place,
        value: u64,
        in_copy: bool,
        /// As of a reading.
        embargo: Option<u64>,
    },
    Flushed(Place),
    Crashed,
    Reported {
        client: usize,
    },
    Ended,
    Restarted {
        client: usize,
        /// The files that it had open, by its own record.
        opened: Vec<usize>,
        lost: Vec<LostAt>,
        granted: Vec<Granted>,
    },
    /// As of a restart.
    Embargoed {
        client: usize,
        opened: Vec<usize>,
        lost: Vec<LostAt>,
        granted: Vec<Granted>,
    },
    Lifted {
        client: usize,
        /// The files that it had open, by its own record.
        opened: Vec<usize>,
    },
    /// A first line SET that is accepted.
    Set(Sizes),
    Refused(Reason),
}

/// A block of a file, for one client.
#[derive(Clone, Copy, PartialEq, Eq, Debug)]
pub struct Place {
    pub client: usize,
    pub file: usize,
    pub block: usize,
}

/// A file that a client opens, has open or closes, in this mode.
#[derive(Clone, Copy, PartialEq, Eq, Debug)]
pub struct Opening {
    pub client: usize,
    pub file: usize,
    pub mode: Mode,
}

#[derive(Clone, Copy, PartialEq, Eq, Debug)]
pub struct Reading {
    pub place: Place,
    pub source: Source,
    pub origin: Origin,
    /// The latest accepted write to the block, if it is lost.
    pub lost: Option<WrittenAt>,
    /// If the client is under embargo: the line that put it there, 0 if an image did. Neither origin nor loss is told
    /// then.
    pub embargo: Option<u64>,
}

/// Which number a read gives.
#[derive(Clone, Copy, PartialEq, Eq, Debug)]
pub enum Source {
    /// The copy that came to the client at this line.
    OwnCopy { dirty: bool, since: u64 },
    /// The server's, which the client holds from now on.
    Fetched,
    /// The server's, which the client may not hold.
    Server,
}

#[derive(Clone, Copy, PartialEq, Eq, Debug)]
pub struct Granted {
    pub opening: Opening,
    pub version: u32,
    pub may_cache: bool,
    pub copy: CopyAtGrant,
}

impl Granted {
    /// The label is the version of the opener's copy just before the grant.
    pub fn of(opening: Opening, label: u32, grant: &Grant) -> Self {
        Granted {
            opening,
            version: grant.latest,
            may_cache: grant.may_cache,
            copy: CopyAtGrant::at(opening.mode, label, grant),
        }
    }
}

/// What becomes of the opener's copy at a grant.
#[derive(Clone, Copy, PartialEq, Eq, Debug)]
pub enum CopyAtGrant {
    /// There was none.
    None,
    /// Of this version.
    Kept(u32),
    Dropped(u32),
}

impl CopyAtGrant {
    fn at(mode: Mode, label: u32, grant: &Grant) -> Self {
        match label {
            0 => CopyAtGrant::None,
            _ if grant.may_cache && copy_kept(label, mode, grant) => CopyAtGrant::Kept(label),
            _ => CopyAtGrant::Dropped(label),
        }
    }
}
