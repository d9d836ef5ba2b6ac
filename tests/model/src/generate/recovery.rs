//! Recoveries of services made by hand: what the clients say of a file need not go together. No step file leads there.

use super::rng::Rng;
use super::text::write_step;
use crate::{
    CLIENTS, Claim, ClientField, ClientFile, ClientSet, Document01, Entry, FILES, Mode, Outcome, Record, Service,
    Settings, Sizes, Step,
};

const fn claim(readers: u8, writers: u8, may_cache: bool, flagged: bool) -> Claim {
    Claim { record: Record { readers, writers, may_cache }, flagged }
}

/// What a client may say if it follows the rules.
const LAWFUL: [Claim; 8] = [
    claim(1, 0, true, false),
    claim(1, 0, true, false),
    claim(1, 0, false, false),
    claim(0, 1, true, false),
    claim(0, 1, false, false),
    claim(2, 255, true, false),
    claim(0, 0, false, true),
    claim(1, 0, true, true),
];

/// What cannot be true of one client alone.
const UNLAWFUL: [Claim; 6] = [
    claim(0, 0, true, false),
    claim(0, 0, true, true),
    claim(0, 1, true, true),
    claim(0, 1, false, true),
    claim(1, 0, false, true),
    claim(1, 1, true, true),
];

/// Makes services, and then the steps of their recoveries one at a time.
pub struct Recovery {
    rng: Rng,
    /// The files that are made: the first, the last in force and the one past it. The others are fresh.
    files: Vec<usize>,
    /// Of so many clients one says something of a file, and of so many that do one says what cannot be true.
    spread: usize,
    unlawful: usize,
}

impl Recovery {
    pub fn new(seed: u64) -> Self {
        Recovery { rng: Rng::new(seed ^ 0x4ec0_7e47), files: Vec::new(), spread: 1, unlawful: 1 }
    }

    /// Makes this service, which was fresh or made by this before, anew. It runs, or recovers and has some reports.
    pub fn make(&mut self, service: &mut Service) {
        for &file in &self.files {
            service.server.entries[file] = Entry::fresh();
            service.clients.iter_mut().for_each(|client| client.files[file] = ClientFile::default());
        }
        service.settings = self.settings();
        let Sizes { files, .. } = service.sizes();
        self.files = vec![0, files - 1, files.min(FILES - 1)];
        self.spread = *self.rng.pick(&[1, 2, 3, 4]);
        self.unlawful = *self.rng.pick(&[4, 12, 40]);
        service.server.recovering = self.rng.one_in(2);
        service.server.reported = self.some_clients(2);
        service.server.embargoed = if self.rng.one_in(2) { self.some_clients(4) } else { ClientSet::NONE };
        for file in self.files.clone() {
            self.make_file(service, file);
        }
    }

    /// The files that are not fresh.
    pub fn files(&self) -> &[usize] {
        &self.files
    }

    fn settings(&mut self) -> Settings {
        Settings {
            clients: *self.rng.pick(&[1, 2, 2, 3, 3, 4, 6, 8, 0]),
            files: *self.rng.pick(&[1, 1, 2, 2, 3, 5, 64, 65]),
            blocks: *self.rng.pick(&[1, 2, 8]),
            store: *self.rng.pick(&[0, 1, 2, 5, 512, 513]),
        }
    }

    fn some_clients(&mut self, spread: usize) -> ClientSet {
        let any = |set: ClientSet, client| if self.rng.one_in(spread) { set.with(client) } else { set };
        (0..CLIENTS).fold(ClientSet::NONE, any)
    }

    /// The server's end has what the clients say, or anything.
    fn make_file(&mut self, service: &mut Service, file: usize) {
        let last_writer = *self.rng.pick(&[0, 1, 2, 3, 7, 8, 255]);
        service.server.entries[file].last_writer = ClientField(last_writer);
        for client in 0..CLIENTS {
            let (own, other) = (self.claim(), self.claim());
            let at_server = if self.rng.one_in(3) { other } else { own };
            service.server.entries[file].records[client] = at_server.record;
            if at_server.flagged && self.rng.one_in(2) {
                service.server.entries[file].last_writer = ClientField::of(client);
            }
            let mut made = ClientFile { record: own.record, last_writer_flag: own.flagged, ..ClientFile::default() };
            made.copies.held[0] = self.rng.one_in(2);
            service.clients[client].files[file] = made;
        }
    }

    fn claim(&mut self) -> Claim {
        if !self.rng.one_in(self.spread) {
            return Claim::NOTHING;
        }
        let claims: &[Claim] = if self.rng.one_in(self.unlawful) { &UNLAWFUL } else { &LAWFUL };
        *self.rng.pick(claims)
    }

    /// The next step of a recovery: mostly a report.
    pub fn step(&mut self, service: &Service) -> Step {
        let sizes = service.sizes();
        let missing = service.server.reports_missing(sizes);
        let client = self.client(sizes, missing);
        let (file, block) = (*self.rng.pick(&self.files) as u64, self.rng.below(sizes.blocks) as u64);
        match self.rng.below(40) {
            0..18 => Step::Report { client },
            18..21 => Step::Restart { client },
            21..24 => Step::Lift { client: self.client(sizes, service.server.embargoed) },
            24 => Step::Crash,
            25..28 => Step::Read { client, file, block },
            28..31 => Step::Write { client, file, block, value: 9 },
            31 => Step::Open { mode: Mode::Read, client, file },
            32 => Step::Flush { client, file, block },
            _ => Step::End,
        }
    }

    /// Mostly one of these, if there is one; now and then one that is not there.
    fn client(&mut self, sizes: Sizes, among: ClientSet) -> u64 {
        let among: Vec<usize> = among.and(sizes.client_set()).members().collect();
        if !among.is_empty() && !self.rng.one_in(4) {
            return *self.rng.pick(&among) as u64;
        }
        let beyond = usize::from(self.rng.one_in(8));
        self.rng.below(sizes.clients + beyond) as u64
    }
}

/// A service made by hand, and up to so many steps that it takes, as lines. Of two seeds one begins with a crash.
pub fn hand_made_recovery(seed: u64, most: usize) -> (Service, Vec<u8>) {
    let mut recovery = Recovery::new(seed);
    let mut made = Service::fresh();
    recovery.make(&mut made);
    let mut service = made.clone();
    let mut lines = Vec::new();
    for count in 0..most {
        let crash = count == 0 && seed.is_multiple_of(2);
        let step = if crash { Step::Crash } else { recovery.step(&service) };
        write_step(&step, &mut lines);
        lines.push(b'\n');
        if service.take::<Document01>(&step) == Outcome::Done && step == Step::End {
            break;
        }
    }
    (made, lines)
}
