//! A working session: all desks open files, read and write their blocks and close them again. Callbacks are replied to
//! at once; now and then the server crashes and all of them report.

use std::collections::VecDeque;

use super::Author;
use super::rng::Rng;
use super::stage::{Scope, Stage};
use super::text::write_step;
use crate::{CLIENTS, Mode, Outcome, Service, Settings, Step};

/// So many files, or all if there are fewer, are for every desk to work on.
const SHARED_FILES: usize = 8;
const LINES_BETWEEN_CRASHES: usize = 20_000;

#[derive(Clone, Copy)]
struct Job {
    mode: Mode,
    file: u64,
    /// Reads, writes and flushes still to do before the close.
    accesses: usize,
}

pub struct Session {
    stage: Stage,
    shared_files: usize,
    /// The other files belong to one desk each: so many to each desk.
    own_files: usize,
    desks: [Option<Job>; CLIENTS],
    /// Steps that follow at once: callback replies, or reports and the end.
    due: VecDeque<Step>,
}

impl Session {
    pub fn new(seed: u64, settings: Settings) -> Self {
        let sizes = settings.read();
        let stage = Stage::new(Rng::new(seed ^ 0x5e55_1017), settings, Scope::whole(sizes));
        let shared_files = sizes.files.min(SHARED_FILES);
        let own_files = (sizes.files - shared_files) / sizes.clients;
        Session { stage, shared_files, own_files, desks: [None; CLIENTS], due: VecDeque::new() }
    }

    /// A session that goes on from this service, in which every client has closed.
    pub fn from(service: Service, seed: u64) -> Self {
        let mut session = Session::new(seed, service.settings);
        session.stage.service = service;
        session
    }

    fn choose(&mut self) -> Step {
        if let Some(step) = self.due.pop_front() {
            return step;
        }
        let clients = self.stage.sizes().clients;
        if self.stage.rng.one_in(LINES_BETWEEN_CRASHES) {
            self.due.extend((0..clients as u64).map(|client| Step::Report { client }));
            self.due.push_back(Step::End);
            return Step::Crash;
        }
        let desk = self.stage.rng.below(clients);
        match self.desks[desk] {
            None => self.begin(desk),
            Some(Job { mode, file, accesses: 0 }) => {
                self.desks[desk] = None;
                Step::Close { mode, client: desk as u64, file }
            }
            Some(job) => {
                self.desks[desk] = Some(Job { accesses: job.accesses - 1, ..job });
                self.access(desk, job)
            }
        }
    }

    fn begin(&mut self, desk: usize) -> Step {
        let rng = &mut self.stage.rng;
        let mode = if rng.below(10) < 7 { Mode::Read } else { Mode::Write };
        let own = match self.own_files {
            0 => rng.below(self.shared_files),
            files => self.shared_files + desk * files + rng.below(files),
        };
        let file = if rng.one_in(3) { rng.below(self.shared_files) } else { own } as u64;
        self.desks[desk] = Some(Job { mode, file, accesses: 10 + rng.below(40) });
        Step::Open { mode, client: desk as u64, file }
    }

    fn access(&mut self, desk: usize, job: Job) -> Step {
        let (client, file, block) = (desk as u64, job.file, self.stage.some_block());
        if job.mode == Mode::Read || self.stage.rng.one_in(2) {
            return Step::Read { client, file, block };
        }
        let flush = Step::Flush { client, file, block };
        if self.stage.rng.one_in(10) && self.stage.service.refusal(&flush).is_none() {
            return flush;
        }
        Step::Write { client, file, block, value: self.stage.value() }
    }
}

impl Author for Session {
    fn line(&mut self, _offset: usize, text: &mut Vec<u8>) {
        let step = self.choose();
        write_step(&step, text);
        if let (Step::Open { file, .. }, Outcome::Waits(callbacks)) = (step, self.stage.take(&step)) {
            let replies = callbacks.clients().members().map(|client| Step::Reply { client: client as u64, file });
            self.due.extend(replies);
        }
    }
}
