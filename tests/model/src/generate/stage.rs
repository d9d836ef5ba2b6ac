//! The model run beside the author, so that steps are chosen with knowledge of the state.

use super::rng::Rng;
use crate::{ClientSet, Document01, Entry, Mode, Outcome, Service, Settings, Sizes, Step};

/// The clients, files and blocks that are drawn from, the first of each.
#[derive(Clone, Copy)]
pub struct Scope {
    pub clients: usize,
    pub files: usize,
    pub blocks: usize,
}

impl Scope {
    pub fn whole(sizes: Sizes) -> Self {
        Scope { clients: sizes.clients, files: sizes.files, blocks: sizes.blocks }
    }
}

#[derive(Clone, Copy)]
pub enum StepKind {
    Open,
    Close,
    Reply,
    Read,
    Write,
    Flush,
    Report,
    End,
}

const ANY_KIND: [(usize, StepKind); 8] = [
    (6, StepKind::Open),
    (4, StepKind::Close),
    (3, StepKind::Reply),
    (5, StepKind::Read),
    (5, StepKind::Write),
    (2, StepKind::Flush),
    (2, StepKind::Report),
    (1, StepKind::End),
];

pub struct Stage {
    pub rng: Rng,
    pub service: Service,
    scope: Scope,
    /// One number in so many lies outside the service.
    stray: usize,
    /// The client and the file of the latest step, often drawn again.
    latest: (u64, u64),
    /// The client that restarted last.
    restarted: Option<u64>,
    /// The client of every step, if one is chosen.
    only: Option<u64>,
}

impl Stage {
    pub fn new(rng: Rng, settings: Settings, scope: Scope) -> Self {
        let service = Service::fresh_of(settings);
        Stage { rng, service, scope, stray: 200, latest: (0, 0), restarted: None, only: None }
    }

    pub fn sizes(&self) -> Sizes {
        self.service.sizes()
    }

    pub fn take(&mut self, step: &Step) -> Outcome {
        if let Some((client, file)) = step.existing_place(self.sizes()) {
            self.latest = (client as u64, file as u64);
        }
        self.service.take::<Document01>(step)
    }

    /// Whether some file of the scope is like this at the server.
    pub fn any(&self, fits: impl Fn(&Entry) -> bool) -> bool {
        self.service.server.entries[..self.scope.files].iter().any(fits)
    }

    pub fn any_open_waits(&self) -> bool {
        self.any(|entry| entry.waiting.read(self.sizes()).is_some())
    }

    /// Any step but a crash.
    pub fn any_step(&mut self) -> Step {
        let kind = self.rng.weighted(&ANY_KIND);
        self.step(kind)
    }

    /// Any step but a crash, its numbers often outside the service.
    pub fn stray_step(&mut self) -> Step {
        let usual = std::mem::replace(&mut self.stray, 2);
        let step = self.any_step();
        self.stray = usual;
        step
    }

    /// A restart: mostly of a client that waits, is called, is last writer or has writes to lose.
    pub fn restart(&mut self) -> Step {
        let sizes = self.sizes();
        let entries = &self.service.server.entries[..self.scope.files];
        let waits = entries.iter().filter_map(|entry| entry.waiting.read(sizes));
        let openers = ClientSet::of(|client| waits.clone().any(|open| open.opener == client));
        let called = ClientSet::of(|client| waits.clone().any(|open| open.callbacks.clients().contains(client)));
        let last_writers = ClientSet::of(|client| entries.iter().any(|e| e.last_writer.read(sizes) == Some(client)));
        let dirty = ClientSet::of(|client| (0..self.scope.files).any(|file| self.service.any_dirty(client, file)));
        let again = self.restarted.map_or(ClientSet::NONE, |client| ClientSet::only(client as usize));
        let sort = *self.rng.pick(&[openers, called, called, last_writers, dirty, again, ClientSet::NONE]);
        let choices: Vec<usize> = sort.members().collect();
        let client = if choices.is_empty() { self.client() } else { *self.rng.pick(&choices) as u64 };
        self.restarted = Some(client).filter(|&client| client < sizes.clients as u64);
        Step::Restart { client }
    }

    pub fn clients_in_scope(&self) -> ClientSet {
        ClientSet::first(self.scope.clients)
    }

    /// An embargo: mostly of a client that is called, and on a file on which it is.
    pub fn embargo(&mut self) -> Step {
        let sizes = self.sizes();
        let entries = &self.service.server.entries[..self.scope.files];
        let waits = entries.iter().enumerate().filter_map(|(file, entry)| Some((file, entry.waiting.read(sizes)?)));
        let called: Vec<(usize, usize)> = waits
            .flat_map(|(file, open)| open.callbacks.clients().members().map(move |client| (client, file)))
            .collect();
        if called.is_empty() || self.rng.one_in(12) {
            return Step::Embargo { client: self.client(), file: self.file() };
        }
        let (client, file) = *self.rng.pick(&called);
        Step::Embargo { client: client as u64, file: file as u64 }
    }

    /// A lift, mostly of a client under embargo.
    pub fn lift(&mut self) -> Step {
        let client = if self.rng.one_in(4) { None } else { self.some_embargoed() };
        Step::Lift { client: client.unwrap_or_else(|| self.client()) }
    }

    fn some_embargoed(&mut self) -> Option<u64> {
        let embargoed: Vec<usize> = self.service.server.embargoed.and(self.sizes().client_set()).members().collect();
        (!embargoed.is_empty()).then(|| *self.rng.pick(&embargoed) as u64)
    }

    /// Any step but a crash of a client under embargo; of any, if none is.
    pub fn step_under_embargo(&mut self) -> Step {
        self.only = self.some_embargoed();
        let step = self.any_step();
        self.only = None;
        step
    }

    /// A read or a write of a client under embargo, mostly where it has the file open.
    pub fn access_under_embargo(&mut self) -> Step {
        let Some(client) = self.some_embargoed() else { return self.step(StepKind::Read) };
        let files = &self.service.clients[client as usize].files[..self.scope.files];
        let open = files.iter().enumerate().filter(|(_, file)| file.record.is_open());
        let open: Vec<(usize, bool)> = open.map(|(file, own)| (file, own.record.writers > 0)).collect();
        if open.is_empty() || self.rng.one_in(8) {
            return self.step_under_embargo();
        }
        let (file, writes) = *self.rng.pick(&open);
        let (file, block) = (file as u64, self.block());
        if writes && self.rng.one_in(2) {
            return Step::Write { client, file, block, value: self.value() };
        }
        Step::Read { client, file, block }
    }

    /// A write by a client that has the file open for write; by any, if none has.
    pub fn write_where_open(&mut self) -> Step {
        let files = 0..self.scope.files;
        let open: Vec<(usize, usize)> = (0..self.scope.clients)
            .flat_map(|client| files.clone().map(move |file| (client, file)))
            .filter(|&(client, file)| self.service.clients[client].files[file].record.writers > 0)
            .collect();
        if open.is_empty() || self.rng.one_in(20) {
            return self.step(StepKind::Write);
        }
        let (client, file) = *self.rng.pick(&open);
        let (client, file, block) = (client as u64, file as u64, self.block());
        Step::Write { client, file, block, value: self.value() }
    }

    /// A restart of a client that has a dirty block; of any, if none has.
    pub fn freeing_restart(&mut self) -> Step {
        let files = 0..self.scope.files;
        let dirty = ClientSet::of(|client| files.clone().any(|file| self.service.any_dirty(client, file)));
        let choices: Vec<usize> = dirty.and(self.sizes().client_set()).members().collect();
        let client = if choices.is_empty() { self.client() } else { *self.rng.pick(&choices) as u64 };
        Step::Restart { client }
    }

    pub fn step(&mut self, kind: StepKind) -> Step {
        match kind {
            StepKind::Open => Step::Open { mode: self.mode(), client: self.client(), file: self.file() },
            StepKind::Close => Step::Close { mode: self.mode(), client: self.client(), file: self.file() },
            StepKind::Reply => Step::Reply { client: self.client(), file: self.file() },
            StepKind::Read => Step::Read { client: self.client(), file: self.file(), block: self.block() },
            StepKind::Write => {
                let (client, file, block) = (self.client(), self.file(), self.block());
                Step::Write { client, file, block, value: self.value() }
            }
            StepKind::Flush => Step::Flush { client: self.client(), file: self.file(), block: self.block() },
            StepKind::Report => {
                let clients = self.sizes().clients;
                Step::Report { client: self.only.unwrap_or_else(|| self.number(clients, clients)) }
            }
            StepKind::End => Step::End,
        }
    }

    /// Three clients, different ones where the scope has so many.
    pub fn some_clients(&mut self) -> [u64; 3] {
        let first = self.rng.below(self.scope.clients);
        [first, first + 1, first + 2].map(|client| (client % self.scope.clients) as u64)
    }

    pub fn some_file(&mut self) -> u64 {
        self.rng.below(self.scope.files) as u64
    }

    /// The file after this one, a different one where the scope has two.
    pub fn next_file(&self, file: u64) -> u64 {
        (file + 1) % self.scope.files as u64
    }

    pub fn some_block(&mut self) -> u64 {
        self.rng.below(self.scope.blocks) as u64
    }

    pub fn blocks_in_scope(&self) -> u64 {
        self.scope.blocks as u64
    }

    /// Two blocks, different ones where the scope has so many.
    pub fn some_blocks(&mut self) -> [u64; 2] {
        let first = self.some_block();
        [first, (first + 1) % self.scope.blocks as u64]
    }

    fn mode(&mut self) -> Mode {
        *self.rng.pick(&[Mode::Read, Mode::Read, Mode::Write])
    }

    fn client(&mut self) -> u64 {
        if let Some(client) = self.only {
            return client;
        }
        if self.rng.one_in(3) { self.latest.0 } else { self.number(self.scope.clients, self.sizes().clients) }
    }

    fn file(&mut self) -> u64 {
        if self.rng.one_in(3) { self.latest.1 } else { self.number(self.scope.files, self.sizes().files) }
    }

    fn block(&mut self) -> u64 {
        self.number(self.scope.blocks, self.sizes().blocks)
    }

    /// A number below `scope`, or now and then one of `limit` or more.
    fn number(&mut self, scope: usize, limit: usize) -> u64 {
        if !self.rng.one_in(self.stray) {
            return self.rng.below(scope) as u64;
        }
        let limit = limit as u64;
        let beyond = [limit, limit + 1, limit + 256, limit << 32, u64::MAX, u64::MAX - limit];
        *self.rng.pick(&beyond)
    }

    pub fn value(&mut self) -> u64 {
        match self.rng.below(4) {
            0 => *self.rng.pick(&[0, 1, u64::MAX, u64::MAX - 1, 1 << 32]),
            1 => self.rng.draw(),
            _ => self.rng.below(1000) as u64,
        }
    }
}
