//! The whole case and every sentence of "Edges" in document 01.

mod common;

use common::{RECOVERY, check, played};
use model::{
    ClientFile, Copies, Document01, Grant, Mode, Outcome, Refusal, Service, Settings, State, Step, VersionField,
};

const WHOLE_CASE: [(&str, &str); 8] = [
    ("OW 0 3", "G 2 1 1"),
    ("WR 0 3 0 77", "K"),
    ("CW 0 3", "K"),
    ("OR 1 3", "W 0:1"),
    ("RD 1 3 0", "N 11"),
    ("AN 0 3", "A 1 1 2 1 1"),
    ("RD 1 3 0", "V 77"),
    ("OW 2 3", "W 1:2"),
];

#[test]
fn whole_case() {
    check(&WHOLE_CASE, &["files 1", "3 2 2 -"]);
}

#[test]
fn empty_input() {
    check(&[], &["files 0"]);
}

#[test]
fn station_7_runs_8_gets_2() {
    check(&[("OR 7 0", "G 1 0 1"), ("OR 8 0", "N 2")], &["files 1", "0 2 1 -"]);
}

#[test]
fn file_32_gets_3() {
    check(&[("OR 0 31", "G 1 0 1"), ("OR 0 32", "N 3")], &["files 1", "31 2 1 -"]);
}

#[test]
fn block_4_gets_4() {
    check(&[("OR 0 0", "G 1 0 1"), ("RD 0 0 3", "V 0"), ("RD 0 0 4", "N 4")], &["files 1", "0 2 1 -"]);
}

#[test]
fn the_256th_read_open_by_one_station_gets_12() {
    let mut listing = vec![("OR 0 0", "G 1 0 1"); 255];
    listing.push(("OR 0 0", "N 12"));
    check(&listing, &["files 1", "0 2 1 -"]);
}

#[test]
fn a_copy_labelled_5_meets_latest_6() {
    let mut copies = Copies::default();
    (copies.values[0], copies.held[0]) = (9, true);
    let labelled_5 = ClientFile { cached_version: 5, copies: copies.clone(), ..ClientFile::default() };
    let grant = Grant { latest: 6, previous: 5, may_cache: true };
    for (mode, kept) in [(Mode::Write, copies), (Mode::Read, Copies::default())] {
        let mut file = labelled_5.clone();
        file.grant(Settings::NOT_GIVEN.read(), mode, &grant);
        assert_eq!(file.copies, kept, "{mode:?}");
        assert_eq!(file.cached_version, 6);
    }
}

#[test]
fn version_4294967294_opens_for_write_once_more_then_14() {
    let mut service = Service::fresh();
    service.server.entries[0].version = VersionField(4_294_967_294);
    let open = |mode, client| Step::Open { mode, client, file: 0 };
    let last = Grant { latest: 4_294_967_295, previous: 4_294_967_294, may_cache: true };
    assert_eq!(service.take::<Document01>(&open(Mode::Write, 0)), Outcome::Granted(last));
    let before = service.clone();
    assert_eq!(service.take::<Document01>(&open(Mode::Write, 0)), Outcome::Refused(Refusal::VersionAtLimit));
    assert_eq!(service.take::<Document01>(&open(Mode::Write, 1)), Outcome::Refused(Refusal::VersionAtLimit));
    assert_eq!(service, before);
    assert_eq!(service.take::<Document01>(&open(Mode::Read, 0)), Outcome::Granted(last));
}

#[test]
fn a_reply_with_no_call_gets_10() {
    check(&[("AN 0 0", "N 10")], &["files 0"]);
}

#[test]
fn en_on_a_fresh_service_gets_6() {
    check(&[("EN", "N 6")], &["files 0"]);
}

#[test]
fn after_the_listing_xx_then_an_1_3_gets_5() {
    let listing = [&WHOLE_CASE[..], &[("XX", "K"), ("AN 1 3", "N 5")]].concat();
    check(&listing, &["files 1", "3 0 2 -"]);
}

const BROKEN_OFF: [(&str, &str); 4] =
    [("OR 1 0", "G 1 0 1"), ("OR 2 0", "G 1 0 1"), ("OW 3 0", "W 1:2 2:2"), ("AN 1 0", "A 0")];

#[test]
fn broken_off_invalidation_is_write_shared() {
    check(&[&BROKEN_OFF[..], &RECOVERY].concat(), &["files 1", "0 6 1 -"]);
}

#[test]
fn broken_off_invalidation_leaves_1_without_permission_and_2_with_it() {
    let mut service = Service::fresh();
    let open = |mode, client| Step::Open { mode, client, file: 0 };
    let steps = [open(Mode::Read, 1), open(Mode::Read, 2), open(Mode::Write, 3), Step::Reply { client: 1, file: 0 }];
    let reports = (0..8).map(|client| Step::Report { client });
    for step in steps.into_iter().chain([Step::Crash]).chain(reports).chain([Step::End]) {
        assert!(!matches!(service.take::<Document01>(&step), Outcome::Refused(_)), "{step:?}");
    }
    let entry = &service.server.entries[0];
    assert_eq!(State::of(service.sizes(), entry), State::WriteShared);
    assert_eq!([1, 2].map(|client| entry.records[client].may_cache), [false, true]);
    assert!(entry.waiting.read(service.sizes()).is_none());
}

#[test]
fn each_line_of_output_ends_with_lf() {
    assert_eq!(played("OR 0 0"), "1 G 1 0 1\nfiles 1\n0 2 1 -\n");
}
