//! What a step is answered with.

use crate::Callbacks;

#[derive(Clone, PartialEq, Eq, Debug)]
pub enum Outcome {
    /// An open granted in its own step: `G`.
    Granted(Grant),
    /// An open that waits for these callbacks: `W`.
    Waits(Callbacks),
    /// The value of a read: `V`.
    Value(u64),
    Refused(Refusal),
    /// A callback reply, with the number of blocks that it sent, and the opener and its grant if this was the last one:
    /// `A`.
    Replied {
        sent: usize,
        granted: Option<(usize, Grant)>,
    },
    /// A restart, with the opens of others that it granted, by ascending file: `K`.
    Restarted {
        granted: Vec<GrantedOpen>,
    },
    /// An embargo, with the opens of others that it granted, by ascending file: `A 0`.
    Embargoed {
        granted: Vec<GrantedOpen>,
    },
    /// Any other accepted step, and a line SET: `K`.
    Done,
}

/// A waiting open that a restart or an embargo has granted.
#[derive(Clone, Copy, PartialEq, Eq, Debug)]
pub struct GrantedOpen {
    pub opener: usize,
    /// Not told with the reply.
    pub file: usize,
    pub grant: Grant,
}

/// What a grant tells the opener.
#[derive(Clone, Copy, PartialEq, Eq, Debug)]
pub struct Grant {
    pub latest: u32,
    pub previous: u32,
    pub may_cache: bool,
}

/// The refusals, by their numbers in documents 01 and 02.
#[derive(Clone, Copy, PartialEq, Eq, Debug)]
#[repr(u8)]
pub enum Refusal {
    NotAStep = 1,
    NoSuchClient = 2,
    NoSuchFile = 3,
    NoSuchBlock = 4,
    Recovering = 5,
    NotRecovering = 6,
    AlreadyReported = 7,
    ReportsMissing = 8,
    OpenWaits = 9,
    NoCallback = 10,
    NotOpen = 11,
    CountAtLimit = 12,
    NotDirty = 13,
    VersionAtLimit = 14,
    OpenWaitsAtWriting = 15,
    BufferTooShort = 16,
    NoImage = 17,
    SettingOutOfRange = 19,
    UnderEmbargo = 20,
    NotUnderEmbargo = 21,
    ReportsClash = 22,
    NoPlace = 23,
}

impl Refusal {
    /// Those that a step or a line of a step file can get.
    pub const NUMBERS: [usize; 19] = [1, 2, 3, 4, 5, 6, 7, 8, 9, 10, 11, 12, 13, 14, 19, 20, 21, 22, 23];
    pub const LAST_NUMBER: usize = 23;

    pub fn number(self) -> usize {
        self as usize
    }
}
