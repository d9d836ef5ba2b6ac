//! Random runs under the inductive invariant and Demand 3, and a check that no clause of it is empty.

use model::check::{CLAUSES, Demand3, Invariant, PlacesBreach, PlacesCheck, PlacesMet, Tally, Witness, broken_clauses};
use model::generate::{FileKind, step_file};
use model::{
    BLOCKS, Callbacks, ClientField, ClientSet, Document01, Kind, Mode, Outcome, Record, Refusal, Service, Settings,
    Step, VersionField, WaitField, WaitingOpen, replay,
};

/// Plays seeded files under the invariant; tells what they met.
fn hold(kind: FileKind, seeds: std::ops::Range<u64>, lines: usize) -> Tally {
    let mut tally = Tally::default();
    for seed in seeds {
        hold_with(&mut tally, kind, seed, lines);
    }
    tally
}

/// Plays one file, and adds what it met.
fn hold_with(tally: &mut Tally, kind: FileKind, seed: u64, lines: usize) {
    let mut invariant = Invariant::default();
    let mut places = PlacesCheck::default();
    // Sessions are long, and their stores large.
    if kind == FileKind::Session {
        replay::<Document01>(&step_file(kind, seed, lines), &mut (tally, &mut invariant));
    } else {
        replay::<Document01>(&step_file(kind, seed, lines), &mut (tally, (&mut invariant, &mut places)));
    }
    assert_eq!(places.breach(), None, "{} seed {seed}", kind.name());
    assert_eq!(invariant.broken(), None, "{} seed {seed}", kind.name());
    assert_eq!(invariant.demand3().breach(), None, "{} seed {seed}", kind.name());
}

#[test]
fn hot_files_keep_the_invariant() {
    let tally = hold(FileKind::Hot, 0..48, 2000);
    assert!(tally.waits() > 1000 && tally.recoveries() > 500);
    assert!(tally.behind().least() > 50, "{}", tally.behind());
    let met = |number| tally.refused(number) > 10;
    use Refusal::*;
    assert!([NoSuchClient, NoSuchFile, NoSuchBlock, Recovering, NotRecovering, AlreadyReported].into_iter().all(met));
    assert!([ReportsMissing, OpenWaits, NoCallback, NotOpen, CountAtLimit, NotDirty].into_iter().all(met));
}

#[test]
fn wide_files_keep_the_invariant() {
    hold(FileKind::Wide, 0..24, 2000);
}

/// Seeds 3, 5, 8 and 10 of every eleven.
#[test]
fn files_with_settings_keep_the_invariant() {
    let mut tally = Tally::default();
    for kind in FileKind::ALL {
        for seed in (0..10).flat_map(|round| [3, 5, 8, 10].map(|seed| 11 * round + seed)) {
            hold_with(&mut tally, kind, seed, 1000);
        }
    }
    assert!(tally.refused(Refusal::SettingOutOfRange) > 10);
    assert!((0..=BLOCKS).all(|sent| tally.replies(sent) > 3), "{tally}");
    assert!(tally.waits() > 1000 && tally.recoveries() > 200);
}

#[test]
fn malformed_files_keep_the_invariant() {
    assert!(hold(FileKind::Malformed, 0..8, 1000).refused(Refusal::NotAStep) > 1000);
}

/// Every sort of restart is met.
#[test]
fn files_with_restarts_keep_the_invariant() {
    let tally = hold(FileKind::Restart, 0..64, 2000);
    assert!(tally.restarts().restarts() > 4000 && tally.restarts().least() > 30, "{}", tally.restarts());
    assert!(tally.waits() > 1000 && tally.recoveries() > 500);
}

/// Every sort of embargo is met, and what comes of it.
#[test]
fn files_with_embargoes_keep_the_invariant() {
    let tally = hold(FileKind::Embargo, 0..64, 2000);
    assert!(tally.embargoes().embargoes() > 1500 && tally.embargoes().least() > 15, "{}", tally.embargoes());
    assert!(tally.restarts().least() > 3, "{}", tally.restarts());
    assert!(tally.waits() > 1000 && tally.recoveries() > 500);
    let met = |number| tally.refused(number) > 500;
    assert!(met(Refusal::UnderEmbargo) && met(Refusal::NotUnderEmbargo), "{tally}");
}

/// Places are taken and freed in every way.
#[test]
fn files_with_small_stores_keep_the_invariant() {
    let mut met = PlacesMet::default();
    for seed in 0..240 {
        let mut places = PlacesCheck::default();
        replay::<Document01>(&step_file(FileKind::Space, seed, 200), &mut places);
        assert_eq!(places.breach(), None, "seed {seed}");
        met.add(places.met());
    }
    assert!(met.least() > 10, "{met}");
    let tally = hold(FileKind::Space, 0..96, 600);
    assert!(tally.refused(Refusal::NoPlace) > 1000, "{tally}");
}

/// What the check of the places finds, in a store of one place, if the last of these steps is changed after it is taken.
fn found(steps: &[Step], change: impl FnOnce(&mut Service, &mut Outcome)) -> Option<PlacesBreach> {
    let mut check = PlacesCheck::default();
    let mut service = Service::fresh_of(Settings { clients: 2, files: 1, blocks: 2, store: 1 });
    let (last, before) = steps.split_last().expect("there are steps");
    for step in before {
        check.before(&service, step);
        let outcome = service.take::<Document01>(step);
        check.after(&service, step, &outcome);
    }
    check.before(&service, last);
    let mut outcome = service.take::<Document01>(last);
    change(&mut service, &mut outcome);
    check.after(&service, last, &outcome);
    check.breach().cloned()
}

#[test]
fn the_check_of_the_places_is_not_empty() {
    let open = Step::Open { mode: Mode::Write, client: 0, file: 0 };
    let write = |block| Step::Write { client: 0, file: 0, block, value: 5 };
    let flush = Step::Flush { client: 0, file: 0, block: 0 };
    assert_eq!(found(&[open, write(0), write(1)], |_, _| {}), None);
    assert_eq!(found(&[open, write(0), flush, Step::Crash, Step::Report { client: 0 }], |_, _| {}), None);
    let freed = found(&[open, write(0)], |service, _| service.server.free = 1);
    assert!(matches!(freed, Some(PlacesBreach::Sum { free: 1, reserved: 1, .. })), "{freed:?}");
    let taken_back = found(&[open, write(0), Step::Crash], |service, _| service.server.free = 0);
    assert!(matches!(taken_back, Some(PlacesBreach::Sum { free: 0, reserved: 0, .. })), "{taken_back:?}");
    let unused = found(&[open, write(0), flush], |service, _| service.server.entries[0].used[0] = false);
    assert!(matches!(unused, Some(PlacesBreach::Used { .. })), "{unused:?}");
    let not_zero = found(&[open], |service, _| service.server.entries[0].blocks[1] = 9);
    assert!(matches!(not_zero, Some(PlacesBreach::NotZero { block: 1, .. })), "{not_zero:?}");
    let refused = found(&[open, write(0)], |_, outcome| *outcome = Outcome::Refused(Refusal::NoPlace));
    assert!(matches!(refused, Some(PlacesBreach::Refused { .. })), "{refused:?}");
    let accepted = found(&[open, write(0), write(1)], |_, outcome| *outcome = Outcome::Done);
    assert!(matches!(accepted, Some(PlacesBreach::Accepted { .. })), "{accepted:?}");
    let in_recovery = found(&[open, Step::Crash, write(0)], |_, outcome| *outcome = Outcome::Done);
    assert!(matches!(in_recovery, Some(PlacesBreach::Accepted { .. })), "{in_recovery:?}");
}

#[test]
fn the_other_files_have_no_restart_and_no_embargo() {
    for kind in [FileKind::Hot, FileKind::Wide, FileKind::Session] {
        assert_eq!(hold(kind, 0..8, 1000).restarts().restarts(), 0);
    }
    assert_eq!(hold(FileKind::Restart, 0..8, 1000).embargoes().embargoes(), 0);
}

#[test]
fn sessions_keep_the_invariant() {
    hold(FileKind::Session, 0..4, 30_000);
}

/// Some twelve million lines; run it with `--release` and `--ignored`.
#[test]
#[ignore = "takes minutes"]
fn long_runs_keep_the_invariant() {
    hold(FileKind::Hot, 1000..3000, 2000);
    hold(FileKind::Wide, 1000..1500, 2000);
    hold(FileKind::Restart, 1000..2000, 2000);
    hold(FileKind::Embargo, 1000..3000, 2000);
    hold(FileKind::Session, 1000..1010, 100_000);
}

/// A run of a few steps with Demand 3 beside it.
struct Run {
    service: Service,
    demand3: Demand3,
}

impl Run {
    fn of(steps: &[Step]) -> Self {
        let mut run = Run { service: Service::fresh(), demand3: Demand3::default() };
        for step in steps {
            run.demand3.before(&run.service, step);
            let outcome = run.service.take::<Document01>(step);
            run.demand3.after(&run.service, step, &outcome);
        }
        assert_eq!(broken_clauses(&run.service, &run.demand3, 0..run.service.sizes().files).next(), None);
        run
    }
}

/// A change to the service after some steps that the clause must notice.
type Spoilt = (&'static str, &'static [Step], fn(&mut Service));

const RECORD: Record = Record { readers: 1, writers: 0, may_cache: false };
const WRITER: Record = Record { readers: 0, writers: 1, may_cache: true };

fn waiting(opener: usize, called: usize) -> WaitField {
    WaitingOpen { opener, mode: Mode::Write, callbacks: Callbacks::to(ClientSet::only(called), Kind::Both) }.into()
}

/// Client 0 is last writer of file 0 with block 3 dirty.
const LEFT_DIRTY: [Step; 3] = [
    Step::Open { mode: Mode::Write, client: 0, file: 0 },
    Step::Write { client: 0, file: 0, block: 3, value: 7 },
    Step::Close { mode: Mode::Write, client: 0, file: 0 },
];

/// Client 0 is under embargo, with what it wrote in its copy; client 1 has file 0 open for read.
const PUT_ASIDE: [Step; 4] = [
    Step::Open { mode: Mode::Write, client: 0, file: 0 },
    Step::Write { client: 0, file: 0, block: 3, value: 7 },
    Step::Open { mode: Mode::Read, client: 1, file: 0 },
    Step::Embargo { client: 0, file: 0 },
];

const SPOILT: [Spoilt; 25] = [
    ("A1", &[], |service| service.server.entries[0].records[0] = RECORD),
    ("A2", &[], |service| service.server.entries[0].last_writer = ClientField(0)),
    ("B1", &[Step::Crash], |service| service.server.entries[0].waiting = waiting(0, 1)),
    ("B2", &[Step::Crash, Step::Report { client: 0 }], |service| service.server.entries[0].records[0] = RECORD),
    ("B3", &[Step::Crash], |service| service.server.entries[0].last_writer = ClientField(0)),
    ("B4", &[Step::Crash], |service| service.server.entries[0].version = VersionField(2)),
    ("S1", &[], |service| service.clients[0].files[0].record.may_cache = true),
    ("S2", &[], |service| {
        service.clients[0].files[0].record = WRITER;
        service.clients[1].files[0].record = RECORD;
    }),
    ("S3", &[], |service| {
        service.clients[0].files[0].last_writer_flag = true;
        service.clients[1].files[0].record = RECORD;
    }),
    ("S4", &[], |service| {
        service.clients[0].files[0].record = RECORD;
        service.clients[0].files[0].last_writer_flag = true;
    }),
    ("S5", &[], |service| {
        service.clients[0].files[0].record = WRITER;
        service.clients[1].files[0].record = Record { may_cache: true, ..RECORD };
    }),
    ("L1", &[], |service| service.clients[0].files[0].cached_version = 2),
    ("L2", &[], |service| service.clients[0].files[0].last_writer_flag = true),
    ("L3", &[], |service| {
        service.clients[0].files[0].record = WRITER;
        service.clients[1].files[0].cached_version = 1;
    }),
    ("L4", &[], |service| {
        service.clients[0].files[0].last_writer_flag = true;
        service.clients[1].files[0].cached_version = 1;
    }),
    ("D1", &[], |service| service.clients[0].files[0].copies.dirty[3] = true),
    ("D2", &[], |service| service.clients[0].files[0].copies.dirty[3] = true),
    ("D3", &[], |service| {
        let file = &mut service.clients[0].files[0];
        file.cached_version = 1;
        file.copies.held[3] = true;
        file.copies.values[3] = 7;
    }),
    ("D5", &[], |service| service.server.entries[0].blocks[3] = 7),
    ("D6", &LEFT_DIRTY, |service| service.clients[0].files[0].copies.dirty[3] = false),
    ("M1", &LEFT_DIRTY, |service| service.clients[0].files[0].copies.dirty[3] = false),
    ("WS", &[], |service| service.server.entries[0].waiting = waiting(0, 0)),
    ("W6", &[], |service| {
        service.server.entries[0].version = VersionField(u32::MAX);
        service.server.entries[0].waiting = waiting(0, 1);
    }),
    ("E1", &PUT_ASIDE, |service| service.server.entries[0].records[0] = RECORD),
    ("E2", &PUT_ASIDE, |service| {
        service.server.recovering = true;
        service.server.reported = ClientSet::only(0);
    }),
];

/// Each part of what the server must not have of a client under embargo.
const PARTS_OF_E1: [fn(&mut Service); 4] = [
    |service| service.server.entries[0].records[0] = RECORD,
    |service| service.server.entries[0].last_writer = ClientField(0),
    |service| service.server.entries[0].waiting = waiting(0, 1),
    |service| service.server.entries[0].waiting = waiting(1, 0),
];

#[test]
fn the_server_has_nothing_of_a_client_under_embargo() {
    for spoil in PARTS_OF_E1 {
        let mut run = Run::of(&PUT_ASIDE);
        spoil(&mut run.service);
        assert!(broken_clauses(&run.service, &run.demand3, 0..1).any(|broken| broken == ("E1", 0)));
    }
}

#[test]
fn every_clause_notices_a_spoilt_service() {
    assert_eq!(SPOILT.map(|(clause, ..)| clause), CLAUSES.map(|(clause, _)| clause));
    for (clause, steps, spoil) in SPOILT {
        let mut run = Run::of(steps);
        spoil(&mut run.service);
        assert!(broken_clauses(&run.service, &run.demand3, 0..1).any(|broken| broken == (clause, 0)), "{clause}");
    }
}
