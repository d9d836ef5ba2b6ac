//! "It takes versions and blocks and is otherwise a crash; the reports bring back opens and marks." It takes the
//! embargoes too (Wish 9).

use model::check::Witness;
use model::generate::{FileKind, step_file};
use model::images::written;
use model::{
    ClientField, ClientSet, Document01, Outcome, Refusal, Service, Settings, Step, VersionField, replay, replay_from,
};

use crate::made::{Entries, after, whole_case};

/// A service of the small image's sizes in which everything goes on, with something past the sizes.
fn busy() -> Service {
    let mut service = after(&[
        "SET 3 4 2 5",
        "OW 0 1",
        "WR 0 1 0 7",
        "FL 0 1 0",
        "WR 0 1 1 8",
        "OW 2 2",
        "WR 2 2 0 9",
        "CW 2 2",
        "OR 1 1",
    ]);
    for entry in [4, 63].into_iter().chain(0..4) {
        service.server.entries[entry].blocks[7] = 70;
        service.server.entries[entry].records[5].readers = 5;
    }
    service.server.entries[63].version = VersionField(9);
    service.server.entries[63].last_writer = ClientField(1);
    service.server.embargoed = ClientSet::only(1).with(2).with(5);
    service
}

fn crashed(mut service: Service) -> Service {
    service.take::<Document01>(&Step::Crash);
    service
}

/// A crash, but with the versions, used blocks and embargoes of the small image: three of five places are used.
fn as_read(service: Service) -> Service {
    let mut service = crashed(service);
    let entries = &mut service.server.entries;
    for (entry, (version, [first, second])) in
        entries.iter_mut().zip([(1, [0, 5]), (2, [1 << 63, 0]), (1, [0, 0]), (1, [0, u64::MAX])])
    {
        entry.version = VersionField(version);
        entry.blocks[..2].copy_from_slice(&[first, second]);
        entry.used[..2].copy_from_slice(&[first != 0, second != 0]);
    }
    service.server.free = 2;
    let past = service.server.embargoed.minus(ClientSet::first(3));
    service.server.embargoed = past.with(0).with(2);
    service
}

/// Files that are not listed are at version 1, blocks that are not are 0, clients that are not are without embargo;
/// past the sizes, and at the clients, nothing changes.
#[test]
fn versions_and_blocks_are_taken_and_all_else_is_a_crash() {
    let mut service = busy();
    assert_eq!(service.read_image(&Entries::small().bytes()), Ok(()));
    assert_eq!(service, as_read(busy()));
    assert!(service.server.recovering && service.clients[0].files[1].copies.dirty[1]);
}

/// A version of 0 reads as 1, and is 1 after a reading that does not list the file.
#[test]
fn a_stored_version_of_0_is_read_over() {
    let mut service = Service::fresh();
    service.server.entries[5].version = VersionField(0);
    assert_eq!(service.read_image(&[8, 32, 4, 0, 2, 0, 0, 0, 0, 0, 0, 0, 0]), Ok(()));
    assert_eq!(service, crashed(Service::fresh()));
}

/// "Reading tests 17 only": neither a recovery nor a wait stands in its way, and it is one more crash.
#[test]
fn reading_in_recovery_takes_the_reports_back() {
    let mut service = crashed(busy());
    for client in [0, 2] {
        service.take::<Document01>(&Step::Report { client });
    }
    assert_eq!(service.read_image(&Entries::small().bytes()), Ok(()));
    assert_eq!(service, as_read(busy()));
}

/// "A refusal gives only its number; server, stations .. stay as they came."
#[test]
fn a_refused_reading_changes_nothing() {
    let bytes = Entries::small().bytes();
    for before in [busy(), crashed(busy())] {
        for length in 0..bytes.len() {
            let mut service = before.clone();
            assert_eq!(service.read_image(&bytes[..length]), Err(Refusal::NoImage));
            assert_eq!(service, before);
        }
    }
}

/// Sizes out of range that read as those of the image.
#[test]
fn the_sizes_are_those_in_force() {
    let image = written(&whole_case()).expect("it is written");
    let mut service = Service::fresh_of(Settings { clients: 9, files: 0, blocks: u64::MAX, store: 513 });
    assert_eq!(service.read_image(&image), Ok(()));
    assert_eq!(written(&service), Err(Refusal::Recovering));
    assert_eq!((service.server.entries[3].version, service.server.entries[3].blocks[0]), (VersionField(2), 77));
}

/// The standby machine: sizes by the image, fresh clients.
#[test]
fn a_session_is_resumed_from_an_image() {
    let service = Service::resumed(&Entries::small().bytes()).expect("it is an image");
    let fresh = Service::fresh_of(Settings { clients: 3, files: 4, blocks: 2, store: 5 });
    assert_eq!(service, as_read(fresh));
    let fronts = [&[][..], &[8], &[8, 32], &[8, 32, 4], &[8, 32, 4, 0], &[8, 32, 4, 0, 2], &[0, 32, 4], &[8, 65, 4]];
    for front in fronts {
        assert_eq!(Service::resumed(front), Err(Refusal::NoImage));
    }
    for front in [&[0, 32, 4, 0, 2][..], &[8, 65, 4, 0, 2], &[8, 32, 4, 1, 2], &[8, 32, 4, 255, 255]] {
        assert_eq!(Service::resumed(&[front, &[0; 8]].concat()), Err(Refusal::NoImage));
    }
}

/// "Past the reading of an image the sum holds": free is the store less the used blocks, zero ones too, and 0 if there are
/// more of them than the store has (Wish 13).
#[test]
fn free_is_what_the_used_blocks_leave() {
    let free = |store: u16, used: u8| {
        let mut image = Entries::small();
        (image.store, image.blocks) = (store, (0..used).map(|at| (at / 2, at % 2, u64::from(at % 2))).collect());
        Service::resumed(&image.bytes()).expect("it is an image").server.free
    };
    assert_eq!((free(5, 0), free(5, 3), free(5, 5), free(5, 8)), (5, 2, 0, 0));
    assert_eq!((free(0, 0), free(0, 1), free(512, 8)), (0, 0, 504));
}

/// The whole case goes on: client 1's report brings its open back.
#[test]
fn the_reports_bring_back_opens_and_flags() {
    let mut service = whole_case();
    let image = written(&service).expect("it is written");
    assert_eq!(service.read_image(&image), Ok(()));
    let said = replay_from::<Document01>(
        &mut service,
        b"RP 0\nRP 1\nRP 2\nRP 3\nRP 4\nRP 5\nRP 6\nRP 7\nEN\nRD 1 3 0\nOW 2 3\n",
        &mut (),
    );
    let expected = "1 K\n2 K\n3 K\n4 K\n5 K\n6 K\n7 K\n8 K\n9 K\n10 V 77\n11 W 1:2\nfiles 1\n3 2 2 -\n";
    assert_eq!(String::from_utf8_lossy(&said), expected);
}

/// Of clients under embargo: they cannot report, one that is told of it has reported, and the end waits for the others.
#[test]
fn the_embargoes_of_the_image_hold() {
    let mut service = Service::resumed(&Entries::small().bytes()).expect("it is an image");
    let said = replay_from::<Document01>(
        &mut service,
        b"RP 0\nRP 1\nLF 1\nLF 2\nRP 2\nEN\nOR 0 0\nOR 2 0\nEM 0 0\nBT 0\nOR 0 0\n",
        &mut (),
    );
    let answers = ["N 20", "K", "N 21", "K", "N 7", "K", "N 20", "G 1 0 1", "N 10", "K", "G 1 0 1"];
    let numbered: String = answers.iter().zip(1..).map(|(answer, line)| format!("{line} {answer}\n")).collect();
    let expected = numbered + "files 2\n0 4 1 -\n1 0 2 -\n";
    assert_eq!(String::from_utf8_lossy(&said), expected);
}

/// What survives a crash, and what goes by the clients.
type Lasting = (Vec<(VersionField, [u64; 8], [bool; 8])>, ClientSet);

fn lasting(service: &Service) -> Lasting {
    let entries = service.server.entries.iter().map(|entry| (entry.version, entry.blocks, entry.used)).collect();
    (entries, service.server.embargoed)
}

/// The latest image of a run, what the server had then, and how often it was read.
#[derive(Default)]
struct Readings {
    image: Vec<u8>,
    then: Lasting,
    readings: usize,
    /// Those at which no image could be written.
    later: usize,
    /// Those with a client under embargo.
    under_embargo: usize,
}

impl Witness for Readings {
    fn after(&mut self, service: &Service, _step: &Step, _outcome: &Outcome) {
        let now = written(service);
        self.later += usize::from(now.is_err() && self.then == lasting(service));
        if let Ok(image) = now {
            (self.image, self.then) = (image, lasting(service));
        }
        if self.then == lasting(service) {
            let mut read = service.clone();
            assert_eq!(read.read_image(&self.image), Ok(()));
            assert_eq!(read, crashed(service.clone()));
            self.readings += 1;
            self.under_embargo += usize::from(!service.server.embargoed.is_empty());
        }
    }
}

/// "On the premise that the server's blocks and versions hadn't changed since the image, demand 3 holds with the
/// reading as a crash", and the premise covers embargoes (Wish 9): on it the reading leaves the very service that a
/// crash leaves.
#[test]
fn on_the_premise_a_reading_is_a_crash() {
    let mut met = Readings::default();
    for seed in 0..40 {
        for kind in [FileKind::Hot, FileKind::Wide, FileKind::Session, FileKind::Embargo, FileKind::Space] {
            met.then = Lasting::default();
            replay::<Document01>(&step_file(kind, seed, 400), &mut met);
        }
    }
    assert!(met.readings > 10_000 && met.later > 2_000, "{} {}", met.readings, met.later);
    assert!(met.under_embargo > 1_000, "{}", met.under_embargo);
}

/// "Reports of stations that follow the rules always pass, on Wish 2's premise" (Wish 10): an image from before an embargo
/// breaks it, and the client that was put aside reports beside the one that was granted its file. A restart of either
/// lets the recovery end.
#[test]
fn an_image_from_before_an_embargo_brings_22() {
    let mut service = after(&["SET 2 1 1", "OW 0 0"]);
    let image = written(&service).expect("it is written");
    replay_from::<Document01>(&mut service, b"OR 1 0\nEM 0 0\n", &mut ());
    assert_eq!(service.read_image(&image), Ok(()));
    let said = |lines: &str| {
        let output = replay_from::<Document01>(&mut service.clone(), lines.as_bytes(), &mut ());
        String::from_utf8(output).expect("the output is ASCII")
    };
    assert_eq!(said("RP 0\nRP 1\nEN\n"), "1 K\n2 N 22\n3 N 8\nfiles 1\n0 5 2 -\n");
    assert_eq!(said("RP 1\nRP 0\nEN\n"), "1 K\n2 N 22\n3 N 8\nfiles 1\n0 2 2 -\n");
    assert_eq!(said("RP 0\nRP 1\nBT 0\nRP 1\nEN\n"), "1 K\n2 N 22\n3 K\n4 K\n5 K\nfiles 1\n0 2 2 -\n");
    assert_eq!(said("RP 0\nRP 1\nBT 1\nEN\n"), "1 K\n2 N 22\n3 K\n4 K\nfiles 1\n0 5 2 -\n");
}

/// The first image of a run, read again later, and what the reports then get.
#[derive(Default)]
struct Later {
    image: Option<(Vec<u8>, Lasting)>,
    line: usize,
    /// Readings with the embargoes that the server has, and other versions or blocks.
    same_embargoes: usize,
    other_embargoes: usize,
    clashes: usize,
}

impl Witness for Later {
    fn after(&mut self, service: &Service, _step: &Step, _outcome: &Outcome) {
        self.line += 1;
        if self.image.is_none() || self.line.is_multiple_of(150) {
            self.image = written(service).ok().map(|image| (image, lasting(service))).or(self.image.take());
        }
        let Some((image, then)) = &self.image else { return };
        let now = lasting(service);
        if *then == now {
            return;
        }
        let mut read = service.clone();
        assert_eq!(read.read_image(image), Ok(()));
        let clients = read.sizes().clients as u64;
        let reports: Vec<Outcome> =
            (0..clients).map(|client| read.take::<Document01>(&Step::Report { client })).collect();
        let clashed = |outcome: &&Outcome| **outcome == Outcome::Refused(Refusal::ReportsClash);
        let clashes = reports.iter().filter(clashed).count();
        if then.1 == now.1 {
            assert_eq!(clashes, 0);
            self.same_embargoes += 1;
        } else {
            self.other_embargoes += 1;
            self.clashes += clashes;
        }
        let refused = (0..clients).filter(|&client| clashed(&&reports[client as usize]));
        for client in refused {
            assert_eq!(read.take::<Document01>(&Step::Restart { client }), Outcome::Restarted { granted: vec![] });
        }
        assert_eq!(read.take::<Document01>(&Step::End), Outcome::Done);
    }
}

/// Of the premise only the part on embargoes is needed: with other versions and blocks no report gets 22. Where one
/// does, the restarts of those refused let the recovery end.
#[test]
fn only_other_embargoes_bring_22() {
    let mut met = Later::default();
    for seed in 0..40 {
        for kind in [FileKind::Hot, FileKind::Embargo, FileKind::Embargo] {
            (met.image, met.line) = (None, 0);
            replay::<Document01>(&step_file(kind, seed, 400), &mut met);
        }
    }
    let Later { same_embargoes, other_embargoes, clashes, .. } = met;
    assert!(
        same_embargoes > 5_000 && other_embargoes > 5_000 && clashes > 1_000,
        "{same_embargoes} {other_embargoes} {clashes}"
    );
}
