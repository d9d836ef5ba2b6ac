//! Reports that cannot both be true (document 02, Wish 10): "no file has permission at a station that isn't open; a mark
//! at a station with writers, or open without permission; a marked station and another open or marked; or a station with
//! writers and another that may cache". No steps from a fresh service lead there.

use model::generate::Recovery;
use model::{CLIENTS, ClientField, ClientSet, Document01, Outcome, Record, Refusal, Service, Step};

use crate::made::{CLOSED, HandMade, READER, WRITER, block_0, uncached};
use crate::refusals::{Known, can_be_true};
use crate::sizes::in_force;
use crate::{plain, refusals};

/// What a client says of a file: its record, and whether it has the mark.
type Side = (Record, bool);

const NOTHING: Side = (CLOSED, false);
const PERMITTED: Record = Record { may_cache: true, ..CLOSED };
const BOTH: Record = Record { readers: 2, writers: 255, may_cache: true };

/// What no report can say, whoever else has reported.
const ALONE: [Side; 8] = [
    (PERMITTED, false),
    (PERMITTED, true),
    (WRITER, true),
    (BOTH, true),
    (uncached(WRITER), true),
    (uncached(BOTH), true),
    (uncached(READER), true),
    (uncached(Record { readers: 255, ..CLOSED }), true),
];

/// What two reports cannot say together, though each can be true alone: a mark beside an open or a mark, writers beside
/// permission.
const TOGETHER: [(Side, Side); 11] = [
    ((CLOSED, true), (CLOSED, true)),
    ((CLOSED, true), (READER, true)),
    ((READER, true), (READER, true)),
    ((CLOSED, true), (READER, false)),
    ((CLOSED, true), (uncached(READER), false)),
    ((READER, true), (uncached(READER), false)),
    ((CLOSED, true), (uncached(WRITER), false)),
    ((WRITER, false), (WRITER, false)),
    ((WRITER, false), (READER, false)),
    ((uncached(WRITER), false), (READER, false)),
    ((uncached(WRITER), false), (WRITER, false)),
];

/// What can be true together.
const NEAR_MISSES: [(Side, Side); 9] = [
    ((uncached(WRITER), false), (uncached(WRITER), false)),
    ((uncached(BOTH), false), (uncached(READER), false)),
    ((WRITER, false), (uncached(READER), false)),
    ((READER, false), (READER, false)),
    ((READER, false), (uncached(READER), false)),
    ((READER, true), NOTHING),
    ((CLOSED, true), NOTHING),
    ((WRITER, false), NOTHING),
    (NOTHING, NOTHING),
];

/// This file of three clients, four files and one block.
struct At {
    file: usize,
    service: Service,
}

impl At {
    fn file(file: usize) -> Self {
        let made = HandMade::fresh().settings(3, 4, 1).recovering(ClientSet::NONE);
        At { file, service: made.service }
    }

    fn says(mut self, client: usize, (record, marked): Side) -> Self {
        let own = &mut self.service.clients[client].files[self.file];
        (own.record, own.last_writer_flag) = (record, marked);
        self
    }

    /// The server has this of a client that has reported, and the client says nothing any more.
    fn accepted(mut self, client: usize, (record, marked): Side) -> Self {
        let entry = &mut self.service.server.entries[self.file];
        entry.records[client] = record;
        if marked {
            entry.last_writer = ClientField(client as u8);
        }
        self.service.server.reported = self.service.server.reported.with(client);
        self
    }

    fn report(&mut self, client: u64) -> Result<(), usize> {
        let before = self.service.clone();
        match self.service.take::<Document01>(&Step::Report { client }) {
            Outcome::Refused(refusal) => {
                assert_eq!(self.service, before);
                Err(refusal.number())
            }
            outcome => {
                assert_eq!(outcome, Outcome::Done);
                Ok(())
            }
        }
    }
}

/// The first file and the last in force.
const IN_FORCE: [usize; 2] = [0, 3];

#[test]
fn what_no_report_can_say() {
    for side in ALONE {
        for file in IN_FORCE {
            assert_eq!(At::file(file).says(1, side).report(1), Err(22), "{side:?} of file {file}");
            let mut later = At::file(file).says(1, side).accepted(0, NOTHING).accepted(2, NOTHING);
            assert_eq!(later.report(1), Err(22), "{side:?} of file {file}");
        }
        for file in [4, 63] {
            assert_eq!(At::file(file).says(1, side).report(1), Ok(()), "{side:?} of file {file}, which is not there");
        }
    }
}

#[test]
fn what_two_reports_cannot_say() {
    for (one, other) in TOGETHER {
        for (first, second) in [(one, other), (other, one)] {
            for (earlier, later) in [(0, 2), (2, 0)] {
                for file in IN_FORCE {
                    let mut at = At::file(file).says(earlier, first).says(later, second);
                    let reports = [earlier as u64, later as u64].map(|client| at.report(client));
                    assert_eq!(reports, [Ok(()), Err(22)], "{first:?} and {second:?} of file {file}");
                    assert_eq!(at.service.server.reported, ClientSet::only(earlier));
                    // What the server has accepted counts, and not what that client says now.
                    let mut at = At::file(file).accepted(earlier, first).says(later, second);
                    assert_eq!(at.report(later as u64), Err(22), "{first:?} and {second:?} of file {file}");
                }
                for file in [4, 63] {
                    let mut at = At::file(file).says(earlier, first).says(later, second);
                    let reports = [earlier as u64, later as u64].map(|client| at.report(client));
                    assert_eq!(reports, [Ok(()), Ok(())], "{first:?} and {second:?} of file {file}");
                }
            }
        }
    }
}

#[test]
fn what_two_reports_can_say() {
    for (one, other) in NEAR_MISSES {
        for (first, second) in [(one, other), (other, one)] {
            for file in IN_FORCE {
                let mut at = At::file(file).says(0, first).says(2, second);
                assert_eq!([0, 2, 1].map(|client| at.report(client)), [Ok(()); 3], "{first:?} and {second:?}");
            }
        }
    }
}

/// Of two files: what is said of one does not meet what is said of the other.
#[test]
fn different_files_do_not_clash() {
    for (one, other) in TOGETHER {
        let mut at = At::file(0).says(0, one);
        at.file = 3;
        at = at.says(2, other);
        assert_eq!([0, 2].map(|client| at.report(client)), [Ok(()), Ok(())], "{one:?} and {other:?}");
    }
}

/// "With those already accepted": a client counts once it has reported, if it is there. One under embargo has not.
#[test]
fn only_clients_that_have_reported_count() {
    for (one, other) in TOGETHER {
        let unheard = At::file(0).says(0, one).says(2, other);
        let mut at = At { service: unheard.service.clone(), ..unheard };
        at.service.server.embargoed = ClientSet::only(0);
        assert_eq!([0, 2].map(|client| at.report(client)), [Err(20), Ok(())]);
        // A table that stands where a crash would have cleared it was not reported.
        let mut stored = At::file(0).accepted(0, one).says(2, other);
        stored.service.server.reported = ClientSet::NONE;
        assert_eq!(stored.report(2), Ok(()), "{one:?} and {other:?}");
        let mut past = At::file(0).accepted(3, one).accepted(7, one).says(2, other);
        assert_eq!(past.report(2), Ok(()), "{one:?} and {other:?}");
    }
}

/// The flag of the report counts, also for a client under embargo, which no steps lead to.
#[test]
fn a_stored_report_counts() {
    for (one, other) in TOGETHER {
        let mut at = At::file(0).accepted(0, one).says(2, other);
        at.service.server.embargoed = ClientSet::only(0);
        assert_eq!(at.report(2), Err(22), "{one:?} and {other:?}");
    }
}

/// DECISIONS: "A client that says nothing of a file" breaks nothing there, whatever the table holds; one that says
/// anything meets what was accepted, in both orders.
#[test]
fn a_client_that_says_nothing_is_never_refused() {
    for bad in ALONE {
        assert_eq!(At::file(3).accepted(0, bad).report(1), Ok(()), "{bad:?}");
        assert_eq!(At::file(3).accepted(0, bad).accepted(2, (WRITER, false)).report(1), Ok(()), "{bad:?}");
        for side in [(READER, false), (WRITER, false), (uncached(WRITER), false), (CLOSED, true)] {
            assert_eq!(At::file(3).accepted(0, bad).says(1, side).report(1), Err(22), "{side:?} beside {bad:?}");
        }
    }
}

/// A last writer that has not reported, or is not there, is no mark that was accepted.
#[test]
fn a_stored_last_writer_is_a_mark_only_of_one_that_has_reported() {
    for stored in [1, 3, 8, 255] {
        let mut at = At::file(0).accepted(0, NOTHING).says(2, (READER, false));
        at.service.server.entries[0].last_writer = ClientField(stored);
        assert_eq!(at.report(2), Ok(()), "{stored}");
    }
    let mut at = At::file(0).accepted(0, NOTHING).says(2, (READER, false));
    at.service.server.entries[0].last_writer = ClientField(0);
    assert_eq!(at.report(2), Err(22));
}

/// "22 .. after 7": and after 2, 20 and 6.
#[test]
fn the_place_of_22() {
    let clashing = || HandMade::fresh().at_client(1, PERMITTED).at_client(2, PERMITTED);
    clashing().plays(&[("RP 8", "N 2"), ("RP 1", "N 6")], &["files 0"]);
    let recovering = clashing().embargoed(ClientSet::only(1)).recovering(ClientSet::only(2));
    recovering.clone().plays(&[("RP 8", "N 2"), ("RP 1", "N 20"), ("RP 2", "N 7")], &["files 0"]);
    recovering.recovering(ClientSet::NONE).plays(&[("RP 2", "N 22"), ("RP 0", "K")], &["files 0"]);
    clashing().embargoed(ClientSet::only(1)).plays(&[("RP 1", "N 20"), ("RP 2", "N 6")], &["files 0"]);
}

/// "The station counts as not having reported": it reads and writes its copy on, the end waits for it, and nothing of
/// its report is in the table, on files before the one that clashes either.
#[test]
fn a_refused_report_leaves_everything() {
    let mut made = HandMade::fresh().settings(2, 4, 1).at_client(0, WRITER).copy(0, 1, block_0(7, true, true));
    for file in [1, 3] {
        made.service.clients[0].files[file].record = WRITER;
    }
    made.service.clients[1].files[3].record = READER;
    let refused = made.recovering(ClientSet::NONE).plays(
        &[
            ("RP 1", "K"),
            ("RP 0", "N 22"),
            ("RP 0", "N 22"),
            ("RD 0 0 0", "V 7"),
            ("WR 0 0 0 8", "K"),
            ("RD 1 3 0", "N 5"),
            ("EN", "N 8"),
        ],
        &["files 1", "3 2 1 -"],
    );
    assert_eq!(refused.service.server.reported, ClientSet::only(1));
    assert!(refused.service.server.entries.iter().all(|entry| entry.records[0] == CLOSED));
}

/// A restart of the other one lets it report; so does one of its own, which is an empty report; and so does a crash, for
/// the one that reports first.
#[test]
fn a_restart_of_either_lets_the_recovery_end() {
    let made = HandMade::fresh().settings(2, 1, 1).at_client(0, WRITER).at_client(1, READER);
    let refused = made.recovering(ClientSet::NONE).plays(&[("RP 0", "K"), ("RP 1", "N 22")], &["files 1", "0 5 1 -"]);
    let restart_of_the_other = [("BT 0", "K"), ("RP 0", "N 7"), ("RP 1", "K"), ("EN", "K")];
    refused.clone().plays(&restart_of_the_other, &["files 1", "0 2 1 -"]);
    refused.clone().plays(&[("BT 1", "K"), ("RP 1", "N 7"), ("EN", "K")], &["files 1", "0 5 1 -"]);
    refused.plays(&[("XX", "K"), ("RP 1", "K"), ("RP 0", "N 22")], &["files 1", "0 2 1 -"]);
}

/// A lift of the other one too, in the place of a report of it.
#[test]
fn a_lift_is_an_empty_report() {
    let made = HandMade::fresh().settings(2, 1, 1).at_client(0, WRITER).at_client(1, READER);
    let made = made.embargoed(ClientSet::only(0)).recovering(ClientSet::NONE);
    made.plays(&[("RP 1", "K"), ("RP 0", "N 20"), ("LF 0", "K"), ("EN", "K")], &["files 1", "0 2 1 -"]);
}

/// Of three that clash pair by pair only the first is accepted; a third that goes with it is accepted too.
#[test]
fn each_report_meets_every_one_that_was_accepted() {
    let made = HandMade::fresh().settings(4, 1, 1).at_client(0, READER).at_client(1, WRITER).at_client(3, READER);
    let made = made.flagged(2).recovering(ClientSet::NONE);
    let in_order = [("RP 0", "K"), ("RP 1", "N 22"), ("RP 2", "N 22"), ("RP 3", "K"), ("EN", "N 8")];
    made.clone().plays(&in_order, &["files 1", "0 4 1 -"]);
    made.plays(&[("RP 2", "K"), ("RP 3", "N 22"), ("RP 1", "N 22"), ("RP 0", "N 22")], &["files 1", "0 1 1 2"]);
}

/// No two accepted reports clash, nor does one of them alone.
fn accepted_reports_can_be_true(service: &Service) -> bool {
    let sizes = in_force(service);
    let has_reported = |client: &usize| service.server.reported.contains(*client);
    let mut known = Vec::with_capacity(CLIENTS);
    (0..sizes.files).all(|file| {
        known.clear();
        known.extend((0..sizes.clients).filter(has_reported).map(|client| Known::accepted(service, file, client)));
        can_be_true(&known)
    })
}

/// What the random recoveries met.
#[derive(Default, Debug)]
struct Met {
    recoveries: usize,
    ended: usize,
    steps: usize,
    reports: usize,
    clashes: usize,
    /// Reports accepted after one of the same client was refused with 22.
    let_in: usize,
}

/// A tenth without `--release`.
const RECOVERIES: usize = if cfg!(debug_assertions) { 50_000 } else { 500_000 };
const MOST_STEPS: usize = 40;

/// Recoveries after a crash of services made by hand, up to their end: the model and the second reading of the rules
/// judge each step alike, and after each the accepted reports can all be true.
#[test]
fn random_recoveries_accept_what_can_be_true() {
    // The same services and steps twice, so that none has to be copied.
    let (mut recovery, mut again) = (Recovery::new(10), Recovery::new(10));
    let (mut service, mut other) = (Service::fresh(), Service::fresh());
    let mut met = Met::default();
    while met.recoveries < RECOVERIES {
        recovery.make(&mut service);
        again.make(&mut other);
        let mut step = Step::Crash;
        let mut refused = ClientSet::NONE;
        for _ in 0..MOST_STEPS {
            let outcome = service.take::<Document01>(&step);
            let number = refusals::lowest(&other, &step);
            match outcome {
                Outcome::Refused(refusal) => assert_eq!(Some(refusal.number()), number, "{step:?}"),
                _ => assert!(number.is_none() && plain::accept(&mut other, &step) == outcome, "{step:?}: {number:?}"),
            }
            assert!(accepted_reports_can_be_true(&service), "{step:?}");
            met.steps += 1;
            match (step, outcome) {
                (Step::Report { client }, Outcome::Refused(Refusal::ReportsClash)) => {
                    met.clashes += 1;
                    refused = refused.with(client as usize);
                }
                (Step::Report { client }, Outcome::Done) => {
                    met.reports += 1;
                    met.let_in += usize::from(refused.contains(client as usize));
                }
                (Step::End, Outcome::Done) => {
                    met.ended += 1;
                    break;
                }
                _ => {}
            }
            step = recovery.step(&service);
            assert_eq!(step, again.step(&other));
        }
        assert_eq!(service.server, other.server);
        let own = |service: &Service, file: usize| service.clients.each_ref().map(|client| client.files[file].clone());
        assert!(recovery.files().iter().all(|&file| own(&service, file) == own(&other, file)));
        assert!(!met.recoveries.is_multiple_of(1000) || service == other);
        met.recoveries += 1;
    }
    println!("{met:?}");
    assert!(met.ended > RECOVERIES / 2 && met.clashes > RECOVERIES / 4 && met.let_in > RECOVERIES / 50, "{met:?}");
}
