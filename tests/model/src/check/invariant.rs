//! The inductive invariant of Demand 3, clause by clause and file by file, under the clauses' own names.

use std::ops::Range;

use super::{BlockWrites, Demand3, TableEntry, Witness};
use crate::{
    BLOCKS, CLIENTS, ClientFile, Entry, Kind, Mode, Outcome, Record, Server, Service, Sizes, Step, WaitingOpen,
};

/// A clause that does not hold after the step of this line.
#[derive(Clone, Copy, PartialEq, Eq, Debug)]
pub struct BrokenClause {
    pub name: &'static str,
    pub file: usize,
    pub line: usize,
}

/// One file: both ends of it, the reference memory's writes, and in a recovery the table's entry before it, without the
/// clients that restarted since. The words are the clauses' own: a client is in when it is not under embargo, marked
/// when it has the last-writer flag; its label is the cached version.
pub struct FileView<'a> {
    sizes: Sizes,
    server: &'a Server,
    entry: &'a Entry,
    clients: [&'a ClientFile; CLIENTS],
    memory: &'a [BlockWrites; BLOCKS],
    before_recovery: Option<&'a TableEntry>,
}

type Clause = fn(&FileView) -> bool;

/// A: while running. B: while recovering. S, L, D: always, on the clients' own records. M: always, of marks and of the
/// last writer. W: while an open waits. All these are of the clients that are in. E: of those under embargo.
pub const CLAUSES: [(&str, Clause); 25] = [
    ("A1", |file| file.recovering() || file.each(|s| file.record_agrees(s))),
    ("A2", |file| file.recovering() || file.each(|s| file.last_writer(s) == file.marked(s))),
    ("B1", |file| file.running() || file.waiting().is_none()),
    ("B2", |file| file.running() || file.each(|s| implies(file.reported(s), file.record_agrees(s)))),
    ("B3", |file| {
        file.running()
            || file.each(|s| {
                implies(file.reported(s) && file.marked(s), file.last_writer(s))
                    && implies(file.last_writer(s), file.marked(s))
            })
    }),
    ("B4", |file| file.running() || file.before_recovery.is_some_and(|table| file.agrees_with(table))),
    ("S1", |file| file.each(|s| implies(file.caches(s), file.open(s)))),
    ("S2", |file| file.pairs(|s, t| implies(file.caches(s) && file.writes(s), !file.open(t)))),
    ("S3", |file| {
        file.each(|s| implies(file.marked(s), !file.writes(s)))
            && file.pairs(|s, t| implies(file.marked(s), !file.open(t) && !file.marked(t)))
    }),
    ("S4", |file| file.each(|s| implies(file.marked(s) && file.open(s), file.caches(s)))),
    ("S5", |file| file.pairs(|s, t| implies(file.writes(t), !file.caches(s)))),
    ("L1", |file| file.each(|s| file.label(s) <= file.version())),
    ("L2", |file| file.each(|s| implies(file.caches(s) || file.marked(s), file.current(s)))),
    ("L3", |file| {
        file.each(|t| implies(file.writes(t) && file.current(t), file.caches(t)))
            && file.pairs(|s, t| implies(file.writes(t), !file.current(s)))
    }),
    ("L4", |file| file.pairs(|s, t| implies(file.marked(s), !file.current(t)))),
    ("D1", |file| file.copies(|s, b| implies(file.dirty(s, b), file.held(s, b)))),
    ("D2", |file| file.copies(|s, b| implies(file.dirty(s, b), file.marked(s) || (file.writes(s) && file.caches(s))))),
    ("D3", |file| {
        file.copies(|s, b| implies(file.held(s, b) && file.current(s), file.value(s, b) == file.memory[b].latest()))
    }),
    ("D5", |file| {
        let is_latest_safe = |b: usize| file.entry.blocks[b] == file.memory[b].latest_safe();
        (0..file.sizes.blocks).all(|b| file.memory[b].has_one_at_risk() && is_latest_safe(b))
    }),
    ("D6", |file| {
        let none_is_out = |b: usize| file.memory[b].at_risk().is_none_or(|s| file.is_in(s));
        file.copies(|s, b| file.dirty(s, b) == (file.memory[b].at_risk() == Some(s)))
            && (0..file.sizes.blocks).all(none_is_out)
    }),
    ("M1", |file| file.each(|s| implies(file.marked(s) || file.last_writer(s), file.any_dirty(s) && !file.writes(s)))),
    ("WS", |file| file.waiting().is_none_or(|open| file.callbacks_suffice(&open))),
    ("W6", |file| file.waiting().is_none_or(|open| implies(open.mode == Mode::Write, file.version() < u32::MAX))),
    ("E1", |file| (0..file.sizes.clients).all(|s| implies(!file.is_in(s), file.server_has_nothing_of(s)))),
    ("E2", |file| file.running() || (0..file.sizes.clients).all(|s| implies(!file.is_in(s), !file.reported(s)))),
];

fn implies(premise: bool, conclusion: bool) -> bool {
    !premise || conclusion
}

impl FileView<'_> {
    /// Of the clients that are in.
    fn each(&self, holds: impl Fn(usize) -> bool) -> bool {
        (0..self.sizes.clients).all(|s| !self.is_in(s) || holds(s))
    }

    fn is_in(&self, s: usize) -> bool {
        !self.server.embargoed.contains(s)
    }

    /// Neither record nor last writer, wait or callback, nor a place in the table that the recovery brings back.
    fn server_has_nothing_of(&self, s: usize) -> bool {
        let in_wait = |open: WaitingOpen| open.opener == s || open.callbacks.kind(s).is_some();
        let in_table = |table: &TableEntry| table.records[s] != Record::default() || table.last_writer == Some(s);
        self.entry.records[s] == Record::default()
            && !self.last_writer(s)
            && !self.waiting().is_some_and(in_wait)
            && !self.before_recovery.is_some_and(in_table)
    }

    /// Pairs of different clients that are in.
    fn pairs(&self, holds: impl Fn(usize, usize) -> bool) -> bool {
        self.each(|s| self.each(|t| s == t || holds(s, t)))
    }

    fn copies(&self, holds: impl Fn(usize, usize) -> bool) -> bool {
        self.each(|s| (0..self.sizes.blocks).all(|b| holds(s, b)))
    }

    fn recovering(&self) -> bool {
        self.server.recovering
    }

    fn running(&self) -> bool {
        !self.server.recovering
    }

    fn waiting(&self) -> Option<WaitingOpen> {
        self.entry.waiting.read(self.sizes)
    }

    fn record_agrees(&self, s: usize) -> bool {
        self.entry.records[s] == self.clients[s].record
    }

    fn version(&self) -> u32 {
        self.entry.version.read()
    }

    fn last_writer(&self, s: usize) -> bool {
        self.entry.last_writer.read(self.sizes) == Some(s)
    }

    fn reported(&self, s: usize) -> bool {
        self.server.reported.contains(s)
    }

    fn open(&self, s: usize) -> bool {
        self.clients[s].record.is_open()
    }

    fn writes(&self, s: usize) -> bool {
        self.clients[s].record.writers > 0
    }

    fn caches(&self, s: usize) -> bool {
        self.clients[s].record.may_cache
    }

    fn marked(&self, s: usize) -> bool {
        self.clients[s].last_writer_flag
    }

    fn label(&self, s: usize) -> u32 {
        self.clients[s].cached_version
    }

    fn current(&self, s: usize) -> bool {
        self.label(s) == self.version()
    }

    fn held(&self, s: usize, b: usize) -> bool {
        self.clients[s].copies.held[b]
    }

    fn dirty(&self, s: usize, b: usize) -> bool {
        self.clients[s].copies.dirty[b]
    }

    fn any_dirty(&self, s: usize) -> bool {
        (0..self.sizes.blocks).any(|b| self.dirty(s, b))
    }

    fn value(&self, s: usize, b: usize) -> u64 {
        self.clients[s].copies.values[b]
    }

    fn agrees_with(&self, table: &TableEntry) -> bool {
        table.version == self.version()
            && self.each(|s| table.records[s] == self.clients[s].record)
            && self.each(|s| (table.last_writer == Some(s)) == self.marked(s))
    }

    /// The callbacks still out are enough to make the grant safe.
    fn callbacks_suffice(&self, open: &WaitingOpen) -> bool {
        open.callbacks.kind(open.opener).is_none() && self.each(|t| t == open.opener || self.callback_suffices(open, t))
    }

    fn callback_suffices(&self, open: &WaitingOpen, t: usize) -> bool {
        let kind = open.callbacks.kind(t);
        let writes_back = kind.is_some_and(Kind::writes_back);
        let invalidates = kind.is_some_and(Kind::invalidates);
        implies(self.marked(t), writes_back)
            && implies(self.caches(t) && self.writes(t), kind == Some(Kind::Both))
            && implies(open.mode == Mode::Write && self.caches(t), invalidates)
            && implies(writes_back, self.each(|s| s == t || !self.marked(s)))
    }
}

/// Every clause that does not hold of these files, with its file.
pub fn broken_clauses<'a>(
    service: &'a Service,
    demand3: &'a Demand3,
    files: Range<usize>,
) -> impl Iterator<Item = (&'static str, usize)> + 'a {
    files.flat_map(move |file| {
        let view = FileView {
            sizes: service.sizes(),
            server: &service.server,
            entry: &service.server.entries[file],
            clients: std::array::from_fn(|client| &service.clients[client].files[file]),
            memory: demand3.memory().file(file),
            before_recovery: demand3.before_recovery().map(|table| &table.entries[file]),
        };
        CLAUSES.iter().filter(move |(_, holds)| !holds(&view)).map(move |(name, _)| (*name, file))
    })
}

/// Checks every clause after every step: for the file of the step, or for all files if it names none or is an embargo.
#[derive(Default)]
pub struct Invariant {
    demand3: Demand3,
    line: usize,
    broken: Option<BrokenClause>,
}

impl Invariant {
    pub fn demand3(&self) -> &Demand3 {
        &self.demand3
    }

    /// The first clause that failed.
    pub fn broken(&self) -> Option<BrokenClause> {
        self.broken
    }
}

impl Witness for Invariant {
    fn before(&mut self, service: &Service, step: &Step) {
        self.demand3.before(service, step);
    }

    fn after(&mut self, service: &Service, step: &Step, outcome: &Outcome) {
        self.demand3.after(service, step, outcome);
        if self.broken.is_none() {
            let sizes = service.sizes();
            let on_one = step.existing_place(sizes).filter(|_| !matches!(step, Step::Embargo { .. }));
            let files = on_one.map_or(0..sizes.files, |(_, file)| file..file + 1);
            let first = broken_clauses(service, &self.demand3, files).next();
            self.broken = first.map(|(name, file)| BrokenClause { name, file, line: self.line + 1 });
        }
    }

    fn answered(&mut self, outcome: &Outcome) {
        self.demand3.answered(outcome);
        self.line += 1;
    }
}
