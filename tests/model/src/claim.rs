//! What a report claims of a file, and when two claims cannot both be true (document 02, Wish 10).

use crate::{ClientFile, Entry, Record, Service, Sizes};

/// What one client says of a file, or what the server has accepted of it.
#[derive(Clone, Copy, PartialEq, Eq, Debug, Default)]
pub struct Claim {
    pub record: Record,
    /// Document 01's mark: at the client its flag, at the server that it is the last writer.
    pub flagged: bool,
}

impl Claim {
    /// Neither open, nor permission, nor the flag.
    pub const NOTHING: Claim = Claim { record: Record { readers: 0, writers: 0, may_cache: false }, flagged: false };

    /// The client's own.
    pub fn own(file: &ClientFile) -> Self {
        Claim { record: file.record, flagged: file.last_writer_flag }
    }

    /// What the server has accepted of a client that has reported.
    pub fn accepted(sizes: Sizes, entry: &Entry, client: usize) -> Self {
        Claim { record: entry.records[client], flagged: entry.last_writer.read(sizes) == Some(client) }
    }

    /// "No file has permission at a station that isn't open; a mark at a station with writers, or open without
    /// permission; a marked station and another open or marked; or a station with writers and another that may cache":
    /// with this one as the station, and `other` as another.
    pub fn breaks(self, other: Claim) -> bool {
        let Claim { record, flagged } = self;
        let (open, writes) = (record.is_open(), record.writers > 0);
        record.may_cache && !open
            || flagged && (writes || open && !record.may_cache)
            || flagged && (other.record.is_open() || other.flagged)
            || writes && other.record.may_cache
    }

    /// Whichever of the two is the station.
    pub fn clashes(self, other: Claim) -> bool {
        self.breaks(other) || other.breaks(self)
    }

    pub fn says_nothing(self) -> bool {
        !self.record.is_open() && !self.record.may_cache && !self.flagged
    }
}

/// A file on which a report cannot be true.
#[derive(Clone, Copy, PartialEq, Eq, Debug)]
pub struct Clash {
    pub file: usize,
    pub own: Claim,
    /// The client whose accepted report does not go with it; none if it cannot be true alone.
    pub other: Option<(usize, Claim)>,
}

impl Service {
    /// "22 when a report, alone or with one accepted, breaks one of these": the first file on which it does, and there
    /// the first client. Of a file on which this client says nothing, nothing is asked.
    pub fn first_clash(&self, client: usize) -> Option<Clash> {
        let sizes = self.sizes();
        let reported = self.server.reported.and(sizes.client_set()).without(client);
        let entries = self.server.entries[..sizes.files].iter().enumerate();
        entries.zip(&self.clients[client].files).find_map(|((file, entry), own)| {
            let own = Claim::own(own);
            if own.says_nothing() {
                return None;
            }
            if own.clashes(Claim::NOTHING) {
                return Some(Clash { file, own, other: None });
            }
            let mut accepted = reported.members().map(|other| (other, Claim::accepted(sizes, entry, other)));
            let other = accepted.find(|(_, claim)| own.clashes(*claim))?;
            Some(Clash { file, own, other: Some(other) })
        })
    }
}
