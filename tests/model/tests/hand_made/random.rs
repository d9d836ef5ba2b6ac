//! Random services with every sort of field and of settings, what lies past them included, and random steps on them with
//! numbers in and out of range.

use std::ops::Range;

use model::check::{Tally, Witness};
use model::generate::Rng;
use model::{
    CLIENTS, Callbacks, ClientField, ClientFile, ClientSet, Copies, Document01, FILES, Mode, Record, Refusal, Service,
    Settings, Step, VersionField, WaitField, replay_from,
};

use crate::plain;
use crate::promises::{Taken, broken};
use crate::sizes::in_force;

/// Takes so many steps from the service of each seed, under every promise; tells what they met.
fn hold(seeds: Range<u64>, steps: usize) -> Tally {
    let mut tally = Tally::default();
    for seed in seeds {
        let mut maker = Maker { rng: Rng::new(seed) };
        let mut service = maker.service();
        for _ in 0..steps {
            let step = maker.step(&service);
            tally.before(&service, &step);
            let taken = Taken::from(service, step);
            assert_eq!(broken(&taken), None, "seed {seed}: {:?} gets {:?}", taken.step, taken.outcome);
            tally.after(&taken.after, &taken.step, &taken.outcome);
            tally.answered(&taken.outcome);
            service = taken.after;
        }
        let summary = replay_from::<Document01>(&mut service, b"", &mut ());
        assert_eq!(String::from_utf8_lossy(&summary), plain::summary(&service), "seed {seed}");
    }
    tally
}

#[test]
fn random_services_keep_every_promise() {
    let tally = hold(0..24_000, 8);
    use Refusal::*;
    let met = |refusal| tally.refused(refusal) > 50;
    assert!([NoSuchClient, NoSuchFile, NoSuchBlock, Recovering, NotRecovering, AlreadyReported].into_iter().all(met));
    assert!([ReportsMissing, OpenWaits, NoCallback, NotOpen, CountAtLimit, NotDirty].into_iter().all(met));
    assert!(met(VersionAtLimit) && tally.waits() > 1000 && tally.grants_after_waits() > 500);
    assert!(tally.recoveries() > 100);
    assert!(tally.behind().least() > 10, "{}", tally.behind());
    assert!(tally.restarts().least() > 5, "{}", tally.restarts());
    assert!(met(UnderEmbargo) && met(NotUnderEmbargo) && met(ReportsClash));
    assert!(met(NoPlace), "{tally}");
    assert!(tally.embargoes().least() > 5, "{}", tally.embargoes());
}

/// Run it with `--release` and `--ignored`.
#[test]
#[ignore = "takes minutes"]
fn many_random_services_keep_every_promise() {
    hold(1_000_000..1_500_000, 8);
}

/// The files that are made by hand: the first two, the last one, and those just past it and at the end of the arrays.
/// The others are fresh.
fn made(service: &Service) -> [usize; 5] {
    let files = in_force(service).files;
    [0, 1, files - 1, files.min(FILES - 1), FILES - 1]
}

struct Maker {
    rng: Rng,
}

impl Maker {
    fn service(&mut self) -> Service {
        let mut service = Service::fresh();
        service.settings = self.settings();
        service.server.recovering = self.rng.one_in(4);
        service.server.reported = self.some_clients();
        service.server.embargoed = if self.rng.one_in(3) { self.some_clients() } else { ClientSet::NONE };
        service.server.free = *self.rng.pick(&[0, 0, 0, 0, 1, 2, 40, 512, usize::MAX]);
        for file in made(&service) {
            self.make(&mut service, file);
        }
        service
    }

    /// Settings in range or, each by itself, out of it.
    fn settings(&mut self) -> Settings {
        if self.rng.one_in(4) {
            return Settings::NOT_GIVEN;
        }
        let [clients, files, blocks] = [8, 64, 8].map(|largest| {
            let beyond = [0, largest + 1, 255, 256 + largest, (1 << 32) + 1, u64::MAX];
            if self.rng.one_in(5) { *self.rng.pick(&beyond) } else { 1 + self.rng.below(largest as usize) as u64 }
        });
        let any = self.rng.below(513) as u64;
        let store = *self.rng.pick(&[0, 1, 2, 5, any, 512, 513, u64::MAX]);
        Settings { clients, files, blocks, store }
    }

    fn some_clients(&mut self) -> ClientSet {
        match self.rng.below(4) {
            0 => ClientSet::NONE,
            1 => ClientSet::ALL,
            _ => (0..CLIENTS).fold(ClientSet::NONE, |set, client| if self.coin() { set.with(client) } else { set }),
        }
    }

    fn make(&mut self, service: &mut Service, file: usize) {
        let spread = *self.rng.pick(&[1, 3, 8, 8]);
        let entry = &mut service.server.entries[file];
        entry.version = VersionField(*self.rng.pick(&[0, 0, 1, 2, 7, u32::MAX - 1, u32::MAX]));
        entry.last_writer = self.client_field();
        entry.waiting = self.wait();
        entry.blocks = std::array::from_fn(|_| self.value());
        let spread_used = *self.rng.pick(&[1, 2, 6]);
        entry.used = std::array::from_fn(|_| self.rng.one_in(spread_used));
        for client in 0..CLIENTS {
            let record = self.record(spread);
            entry.records[client] = record;
            let own = if self.rng.one_in(4) { self.record(spread) } else { record };
            service.clients[client].files[file] = self.end(own, entry.version.read());
        }
    }

    /// A client or a number that reads as none.
    fn client_field(&mut self) -> ClientField {
        ClientField(if self.coin() { self.rng.below(CLIENTS) as u8 } else { *self.rng.pick(&[8, 9, 15, 128, 255]) })
    }

    fn wait(&mut self) -> WaitField {
        let opener = if self.rng.one_in(3) { ClientField::NONE } else { self.client_field() };
        let kinds: &[u8] = if self.coin() { &[0, 0, 0, 0, 0, 0, 1, 2, 3, 4] } else { &[0, 1, 2, 3, 4, 7, 129, 255] };
        WaitField { opener, mode: self.mode(), callbacks: Callbacks([(); CLIENTS].map(|()| *self.rng.pick(kinds))) }
    }

    /// One client in so many is open; most that are may cache.
    fn record(&mut self, spread: usize) -> Record {
        if !self.rng.one_in(spread) {
            return Record { may_cache: self.rng.one_in(6), ..Record::default() };
        }
        Record { readers: self.count(), writers: self.count(), may_cache: !self.rng.one_in(5) }
    }

    fn count(&mut self) -> u8 {
        *self.rng.pick(&[0, 0, 0, 1, 1, 2, 254, 255])
    }

    /// A client's end of a file at this version.
    fn end(&mut self, record: Record, version: u32) -> ClientFile {
        let cached_version = *self.rng.pick(&[0, 1, version - 1, version, version.saturating_add(1)]);
        let spread = *self.rng.pick(&[2, 8]);
        let copies = Copies {
            values: std::array::from_fn(|_| self.value()),
            held: std::array::from_fn(|_| self.coin()),
            dirty: std::array::from_fn(|_| self.rng.one_in(spread)),
        };
        ClientFile { record, last_writer_flag: self.rng.one_in(3), cached_version, copies }
    }

    fn step(&mut self, service: &Service) -> Step {
        let sizes = in_force(service);
        let (client, file, block) = (self.number(sizes.clients), self.file(service), self.number(sizes.blocks));
        let mode = self.mode();
        match self.rng.below(50) {
            0..9 => Step::Open { mode, client, file },
            9..13 => Step::Close { mode, client, file },
            13..20 => Step::Reply { client: self.called(service, file).unwrap_or(client), file },
            20..23 => Step::Read { client, file, block },
            23..26 => {
                Step::Write { client: self.writer(service, file).unwrap_or(client), file, block, value: self.value() }
            }
            26..28 => self.flush(service, client, file, block),
            28 => Step::Crash,
            29 => Step::End,
            30..33 => Step::Report { client },
            33..39 => Step::Restart { client: self.restarting(service, file).unwrap_or(client) },
            39..46 => Step::Embargo { client: self.called(service, file).unwrap_or(client), file },
            _ => Step::Lift { client },
        }
    }

    /// Half of the time of a dirty block of the file's last writer, if it has one.
    fn flush(&mut self, service: &Service, client: u64, file: u64, block: u64) -> Step {
        let dirty = self.dirty_at_last_writer(service, file as usize).filter(|_| self.coin());
        let (client, block) = dirty.unwrap_or((client, block));
        Step::Flush { client, file, block }
    }

    fn dirty_at_last_writer(&mut self, service: &Service, file: usize) -> Option<(u64, u64)> {
        let sizes = in_force(service);
        let client = service.server.entries.get(file)?.last_writer.read(sizes)?;
        let copies = &service.clients[client].files[file].copies;
        let dirty: Vec<usize> = (0..sizes.blocks).filter(|&block| copies.dirty[block]).collect();
        (!dirty.is_empty()).then(|| (client as u64, *self.rng.pick(&dirty) as u64))
    }

    /// Half of the time a client that has this file open for write, if any has.
    fn writer(&mut self, service: &Service, file: u64) -> Option<u64> {
        let has = |client: &usize| service.clients[*client].files[file as usize].record.writers > 0;
        let clients = 0..in_force(service).clients;
        let writers: Vec<usize> = clients.filter(|client| (file as usize) < FILES && has(client)).collect();
        (self.coin() && !writers.is_empty()).then(|| *self.rng.pick(&writers) as u64)
    }

    /// Half of the time a client that is called on this file, if any is.
    fn called(&mut self, service: &Service, file: u64) -> Option<u64> {
        let waiting = service.server.entries.get(file as usize)?.waiting.read(in_force(service))?;
        let called: Vec<usize> = waiting.callbacks.clients().members().collect();
        (self.coin() && !called.is_empty()).then(|| *self.rng.pick(&called) as u64)
    }

    /// Half of the time a client that is called on this file or waits for it, or its last writer, if there is one.
    fn restarting(&mut self, service: &Service, file: u64) -> Option<u64> {
        let sizes = in_force(service);
        let entry = service.server.entries.get(file as usize)?;
        let opener = entry.waiting.read(sizes).map(|open| open.opener as u64);
        let last_writer = entry.last_writer.read(sizes).map(|client| client as u64);
        let called = self.called(service, file);
        if self.coin() { *self.rng.pick(&[called, called, opener, last_writer]) } else { None }
    }

    fn file(&mut self, service: &Service) -> u64 {
        let [first, second, last, past, _] = made(service);
        match self.rng.below(20) {
            0 => self.number(in_force(service).files),
            1 => past as u64,
            _ => *self.rng.pick(&[first, second.min(last), last]) as u64,
        }
    }

    /// A number below the limit, or now and then one at it or above.
    fn number(&mut self, limit: usize) -> u64 {
        let beyond = [0, 1, limit as u64, 256, 1 << 32, u64::MAX - limit as u64].map(|more| limit as u64 + more);
        if self.rng.one_in(16) { *self.rng.pick(&beyond) } else { self.rng.below(limit) as u64 }
    }

    fn mode(&mut self) -> Mode {
        *self.rng.pick(&[Mode::Read, Mode::Write])
    }

    fn value(&mut self) -> u64 {
        *self.rng.pick(&[0, 1, 2, 3, u64::MAX])
    }

    fn coin(&mut self) -> bool {
        self.rng.one_in(2)
    }
}
