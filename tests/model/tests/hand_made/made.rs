//! Services made by hand: file 0 as a test wants it, the other files fresh.

use model::{
    Callbacks, ClientField, ClientFile, ClientSet, Copies, Document01, Entry, Mode, Outcome, Record, Service, Settings,
    Sizes, State, Step, VersionField, WaitField,
};

use crate::listing::{Listing, check_from};

pub const CLOSED: Record = Record { readers: 0, writers: 0, may_cache: false };
pub const READER: Record = Record { readers: 1, writers: 0, may_cache: true };
pub const WRITER: Record = Record { readers: 0, writers: 1, may_cache: true };

pub const fn uncached(record: Record) -> Record {
    Record { may_cache: false, ..record }
}

/// A copy of block 0 alone.
pub fn block_0(value: u64, held: bool, dirty: bool) -> Copies {
    let mut copies = Copies::default();
    (copies.values[0], copies.held[0], copies.dirty[0]) = (value, held, dirty);
    copies
}

#[derive(Clone)]
pub struct HandMade {
    pub service: Service,
}

impl HandMade {
    pub fn fresh() -> Self {
        HandMade { service: Service::fresh() }
    }

    pub fn entry(&self) -> &Entry {
        &self.service.server.entries[0]
    }

    pub fn client(&self, client: usize) -> &ClientFile {
        &self.service.clients[client].files[0]
    }

    pub fn sizes(&self) -> Sizes {
        self.service.sizes()
    }

    pub fn state(&self) -> State {
        State::of(self.sizes(), self.entry())
    }

    pub fn permission_at_grant(&self, opener: usize, mode: Mode) -> bool {
        self.entry().permission_at_grant(self.sizes(), opener, mode)
    }

    /// The settings as they are stored, in range or not.
    pub fn settings(mut self, clients: u64, files: u64, blocks: u64) -> Self {
        self.service.settings = Settings { clients, files, blocks, ..self.service.settings };
        self
    }

    /// The size of the store and the free places, as they are stored.
    pub fn places(mut self, store: u64, free: usize) -> Self {
        (self.service.settings.store, self.service.server.free) = (store, free);
        self
    }

    /// Block 0 is used.
    pub fn used(self) -> Self {
        self.with_entry(|entry| entry.used[0] = true)
    }

    fn with_entry(mut self, change: impl FnOnce(&mut Entry)) -> Self {
        change(&mut self.service.server.entries[0]);
        self
    }

    fn with_client(mut self, client: usize, change: impl FnOnce(&mut ClientFile)) -> Self {
        change(&mut self.service.clients[client].files[0]);
        self
    }

    pub fn version(self, stored: u32) -> Self {
        self.with_entry(|entry| entry.version = VersionField(stored))
    }

    pub fn last_writer(self, stored: u8) -> Self {
        self.with_entry(|entry| entry.last_writer = ClientField(stored))
    }

    /// A wait with the number of the kind for each client that is called.
    pub fn wait(self, opener: u8, mode: Mode, called: &[(usize, u8)]) -> Self {
        let mut callbacks = Callbacks::NONE;
        for &(client, kind) in called {
            callbacks.0[client] = kind;
        }
        self.with_entry(|entry| entry.waiting = WaitField { opener: ClientField(opener), mode, callbacks })
    }

    /// The server's block 0.
    pub fn block(self, value: u64) -> Self {
        self.with_entry(|entry| entry.blocks[0] = value)
    }

    pub fn at_server(self, client: usize, record: Record) -> Self {
        self.with_entry(|entry| entry.records[client] = record)
    }

    pub fn at_client(self, client: usize, record: Record) -> Self {
        self.with_client(client, |file| file.record = record)
    }

    pub fn at_both_ends(self, client: usize, record: Record) -> Self {
        self.at_server(client, record).at_client(client, record)
    }

    pub fn flagged(self, client: usize) -> Self {
        self.with_client(client, |file| file.last_writer_flag = true)
    }

    pub fn copy(self, client: usize, cached_version: u32, copies: Copies) -> Self {
        self.with_client(client, |file| (file.cached_version, file.copies) = (cached_version, copies))
    }

    /// Recovering, with these reports in.
    pub fn recovering(mut self, reported: ClientSet) -> Self {
        (self.service.server.recovering, self.service.server.reported) = (true, reported);
        self
    }

    /// With these clients under embargo.
    pub fn embargoed(mut self, embargoed: ClientSet) -> Self {
        self.service.server.embargoed = embargoed;
        self
    }

    /// Takes a step that is accepted.
    pub fn takes(mut self, step: Step) -> Self {
        let outcome = self.service.take::<Document01>(&step);
        assert!(!matches!(outcome, Outcome::Refused(_)), "{step:?}: {outcome:?}");
        self
    }

    /// Of these cached versions, those with which client 0's copy is still there after the listing.
    pub fn versions_kept(&self, cached_versions: &[u32], listing: Listing, summary: &[&str]) -> Vec<u32> {
        let copies = block_0(7, true, false);
        let kept = |version: &u32| {
            let made = self.clone().copy(0, *version, copies.clone());
            made.plays(listing, summary).client(0).copies == copies
        };
        cached_versions.iter().copied().filter(kept).collect()
    }

    /// Plays a listing from here on. Gives what it leaves.
    pub fn plays(mut self, listing: Listing, summary: &[&str]) -> Self {
        check_from(&mut self.service, listing, summary);
        self
    }
}
