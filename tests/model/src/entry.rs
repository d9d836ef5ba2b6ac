//! One file at the server: its entry in the state table, its blocks and its waiting open.

use crate::{
    BLOCKS, CLIENTS, Callbacks, ClientField, ClientSet, Grant, Kind, Mode, Record, Sizes, State, VersionField,
    WaitField,
};

#[derive(Clone, PartialEq, Eq, Debug)]
pub struct Entry {
    pub records: [Record; CLIENTS],
    pub version: VersionField,
    pub last_writer: ClientField,
    pub waiting: WaitField,
    pub blocks: [u64; BLOCKS],
    /// "Blocks some write has reached at the server" (document 02, Wish 13).
    pub used: [bool; BLOCKS],
}

#[derive(Clone, Copy, PartialEq, Eq, Debug)]
pub struct WaitingOpen {
    pub opener: usize,
    pub mode: Mode,
    /// Those still to be replied to.
    pub callbacks: Callbacks,
}

impl Entry {
    pub fn fresh() -> Self {
        Entry {
            records: [Record::default(); CLIENTS],
            version: VersionField(1),
            last_writer: ClientField::NONE,
            waiting: WaitField::NONE,
            blocks: [0; BLOCKS],
            used: [false; BLOCKS],
        }
    }

    fn clients_with(&self, sizes: Sizes, has: impl Fn(&Record) -> bool) -> ClientSet {
        ClientSet::of(|client| has(&self.records[client])).and(sizes.client_set())
    }

    pub fn open_clients(&self, sizes: Sizes) -> ClientSet {
        self.clients_with(sizes, Record::is_open)
    }

    pub fn writing_clients(&self, sizes: Sizes) -> ClientSet {
        self.clients_with(sizes, |record| record.writers > 0)
    }

    pub fn caching_clients(&self, sizes: Sizes) -> ClientSet {
        self.clients_with(sizes, |record| record.may_cache)
    }

    /// The table "Opening" of document 01, row by row.
    #[inline(always)]
    pub fn callbacks_due(&self, sizes: Sizes, opener: usize, mode: Mode) -> Callbacks {
        if self.records[opener].keeps_permission(mode) {
            return Callbacks::NONE;
        }
        let others = self.open_clients(sizes).without(opener);
        match (State::of(sizes, self), mode) {
            (State::Closed, _) => Callbacks::NONE,
            (State::ClosedDirty | State::OneRdrDirty, Mode::Read) => {
                Callbacks::to(self.other_last_writer(sizes, opener), Kind::WriteBack)
            }
            (State::ClosedDirty | State::OneRdrDirty, Mode::Write) => {
                Callbacks::to(self.other_last_writer(sizes, opener), Kind::Both)
            }
            (State::OneReader | State::MultReaders, Mode::Read) => Callbacks::NONE,
            (State::OneReader | State::MultReaders, Mode::Write) => Callbacks::to(others, Kind::Invalidate),
            (State::OneWriter, _) => Callbacks::to(others, Kind::Both),
            (State::WriteShared, _) => Callbacks::to(others.and(self.caching_clients(sizes)), Kind::Invalidate),
        }
    }

    fn other_last_writer(&self, sizes: Sizes, opener: usize) -> ClientSet {
        self.last_writer.read(sizes).map_or(ClientSet::NONE, ClientSet::only).without(opener)
    }

    /// Whether the opener may cache, on the table just before the grant.
    #[inline(always)]
    pub fn permission_at_grant(&self, sizes: Sizes, opener: usize, mode: Mode) -> bool {
        let record = &self.records[opener];
        if record.keeps_permission(mode) { record.may_cache } else { self.permission_judged(sizes, opener, mode) }
    }

    /// Permission where none is kept.
    #[inline(always)]
    pub fn permission_judged(&self, sizes: Sizes, opener: usize, mode: Mode) -> bool {
        let open = self.open_clients(sizes);
        let another_writes = !self.writing_clients(sizes).without(opener).is_empty();
        let shared_for_write = mode == Mode::Write && !open.without(opener).is_empty();
        let one_may_not = !open.minus(self.caching_clients(sizes)).is_empty();
        !(another_writes || shared_for_write || one_may_not)
    }

    pub fn wait(&mut self, sizes: Sizes, waiting: WaitingOpen) {
        self.waiting = WaitField::from(waiting).over(sizes, self.waiting);
    }

    /// No open waits any more, and no callback is out.
    pub fn end_wait(&mut self, sizes: Sizes) {
        self.waiting = WaitField::NONE.over(sizes, self.waiting);
    }

    /// "A grant that would pass the limit of .. 14 leaves that number."
    pub fn grant(&mut self, opener: usize, mode: Mode, may_cache: bool) -> Grant {
        self.records[opener].grant(mode, may_cache);
        if mode == Mode::Write {
            self.version = VersionField(self.version.read().saturating_add(1));
            self.last_writer = ClientField::NONE;
        }
        let latest = self.version.read();
        Grant { latest, previous: latest - 1, may_cache }
    }

    /// The server's part of a close, by its own record: "a close of the last writer count with permission sets .. last
    /// writer if a block is dirty, else clears" it (document 02, Wish 4). The client says whether a block is dirty.
    pub fn close(&mut self, client: usize, mode: Mode, dirty: bool) {
        if self.records[client].close(mode) {
            self.last_writer = if dirty { ClientField::of(client) } else { ClientField::NONE };
        }
    }

    /// The server's part of a flush: "the flush of the last dirty block clears .., if the station is last writer,
    /// that". A callback that is out stays out.
    pub fn flushed(&mut self, client: usize, dirty: bool) {
        if !dirty && self.last_writer == ClientField::of(client) {
            self.last_writer = ClientField::NONE;
        }
    }

    /// The kind of the callback that this client has still to reply to.
    pub fn callback(&self, sizes: Sizes, client: usize) -> Option<Kind> {
        self.waiting.read(sizes)?.callbacks.kind(client)
    }

    /// The server's part of a callback reply. "The table changes in that same step."
    pub fn callback_answered(&mut self, client: usize, kind: Kind) {
        self.waiting.callbacks = self.waiting.callbacks.without(client);
        if kind.writes_back() {
            self.last_writer = ClientField::NONE;
        }
        if kind.invalidates() {
            self.records[client].may_cache = false;
        }
    }

    /// What the server forgets of a client that has restarted or is put under embargo: its record, that it is the last
    /// writer, and "any waiting open of its own .., with the calls of that open" (document 02, Wish 8).
    pub fn forget(&mut self, sizes: Sizes, client: usize) {
        self.records[client] = Record::default();
        if self.last_writer == ClientField::of(client) {
            self.last_writer = ClientField::NONE;
        }
        if self.waiting.opener == ClientField::of(client) {
            self.end_wait(sizes);
        }
    }

    /// "Then a call on it counts as replied to with no blocks." Tells whether there was one.
    pub fn count_as_answered(&mut self, sizes: Sizes, client: usize) -> bool {
        let kind = self.callback(sizes, client);
        if let Some(kind) = kind {
            self.callback_answered(client, kind);
        }
        kind.is_some()
    }

    /// The open that waits, if no callback is out any more.
    #[inline(always)]
    pub fn open_due(&self, sizes: Sizes) -> Option<WaitingOpen> {
        self.waiting.read(sizes).filter(|waiting| waiting.callbacks.is_empty())
    }

    /// The server's part of a restart or an embargo on one file. Gives the open of another that is granted by it.
    pub fn restart(&mut self, sizes: Sizes, client: usize) -> Option<WaitingOpen> {
        self.forget(sizes, client);
        if self.count_as_answered(sizes, client) { self.open_due(sizes) } else { None }
    }

    /// Versions, blocks and which of them are used survive; the rest does not.
    pub fn crash(&mut self, sizes: Sizes) {
        self.records[..sizes.clients].fill(Record::default());
        self.last_writer = ClientField::NONE;
        self.end_wait(sizes);
    }

    /// A report of one client on this file; a report without the flag leaves the last writer as it is.
    pub fn report(&mut self, client: usize, record: Record, last_writer_flag: bool) {
        self.records[client] = record;
        if last_writer_flag {
            self.last_writer = ClientField::of(client);
        }
    }
}
