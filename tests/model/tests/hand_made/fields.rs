//! "A station field of 8 or more reads as none, a version of 0 as 1." By docs/DECISIONS.md such a field "stays stored
//! until a step sets it".

use model::{ClientField, ClientSet, Mode, State, Step, VersionField, WaitField};

use crate::made::{HandMade, READER, WRITER, block_0};

/// Each would name a client if it were cut to three bits.
const NO_CLIENT: [u8; 6] = [8, 9, 15, 16, 128, 255];

/// The client that a field of too many bits would name.
fn cut(field: u8) -> usize {
    usize::from(field % 8)
}

/// "0 CLOSED: none open, no last writer. 1 CLOSED_DIRTY: none open, a last writer. .. 3 ONE_RDRDIRTY: one open, and it is
/// the last writer. 2 ONE_READER: one open."
#[test]
fn a_last_writer_of_8_or_more_is_none_in_the_state_names() {
    for field in NO_CLIENT {
        let made = HandMade::fresh().last_writer(field);
        assert_eq!(made.state(), State::Closed, "{field}");
        assert_eq!(made.at_server(cut(field), READER).state(), State::OneReader, "{field}");
    }
    let made = HandMade::fresh().last_writer(7);
    assert_eq!(made.state(), State::ClosedDirty);
    assert_eq!(made.at_server(7, READER).state(), State::OneRdrDirty);
}

/// The rows "CLOSED: none, none" and "ONE_READER: none, each other open one: 2", not those of a last writer.
#[test]
fn a_last_writer_of_8_or_more_is_not_called() {
    for field in NO_CLIENT {
        let made = HandMade::fresh().last_writer(field);
        made.clone().plays(&[("OR 3 0", "G 1 0 1")], &["files 1", "0 2 1 -"]);
        made.plays(&[("OW 3 0", "G 2 1 1")], &["files 1", "0 5 2 -"]);

        let read = HandMade::fresh().last_writer(field).at_both_ends(cut(field), READER);
        read.clone().plays(&[("OR 3 0", "G 1 0 1")], &["files 1", "0 4 1 -"]);
        let called = format!("W {}:2", cut(field));
        read.plays(&[("OW 3 0", &called)], &["files 1", "0 2 1 -"]);
    }
}

/// "How many files are not CLOSED or not at version 1, and for each .. last writer or '-'"
#[test]
fn a_last_writer_of_8_or_more_prints_as_none() {
    for field in NO_CLIENT {
        HandMade::fresh().last_writer(field).plays(&[], &["files 0"]);
        HandMade::fresh().last_writer(field).version(5).plays(&[], &["files 1", "0 0 5 -"]);
    }
    HandMade::fresh().last_writer(7).plays(&[], &["files 1", "0 1 1 7"]);
}

/// DECISIONS: "it stays stored until a step sets it". A read open, a report without the flag, a flush and kind 2 do not
/// set it; a write open, a close of the last writer count, a crash and kinds 1 and 3 do.
#[test]
fn a_last_writer_of_8_or_more_stays_until_a_step_sets_it() {
    let open = |mode| Step::Open { mode, client: 0, file: 0 };
    let close = Step::Close { mode: Mode::Write, client: 0, file: 0 };
    let reply = Step::Reply { client: 0, file: 0 };
    let flush = Step::Flush { client: 0, file: 0, block: 0 };
    for field in NO_CLIENT {
        let made = || HandMade::fresh().last_writer(field);
        let left = |made: HandMade, step| made.takes(step).entry().last_writer;
        assert_eq!(left(made(), open(Mode::Read)), ClientField(field));
        assert_eq!(left(made().recovering(ClientSet::NONE), Step::Report { client: 0 }), ClientField(field));
        assert_eq!(left(made(), open(Mode::Write)), ClientField::NONE);
        assert_eq!(left(made().at_both_ends(0, WRITER), close), ClientField::NONE);
        let dirty = || made().copy(0, 1, block_0(7, true, true));
        assert_eq!(left(dirty().at_both_ends(0, WRITER), close), ClientField(0));
        assert_eq!(left(dirty(), flush), ClientField(field));
        assert_eq!(left(made(), Step::Crash), ClientField::NONE);
        let answered = [1, 2, 3].map(|kind| left(made().wait(2, Mode::Read, &[(0, kind)]), reply));
        assert_eq!(answered, [ClientField::NONE, ClientField(field), ClientField::NONE]);
    }
}

/// "The grant tells latest version, previous (latest less 1)"; for write "the version rises by 1". DECISIONS: "it stays
/// stored as 0 until a write open is granted".
#[test]
fn a_version_of_0_is_granted_as_1() {
    let made = HandMade::fresh().version(0);
    let read = made.clone().plays(&[("OR 0 0", "G 1 0 1")], &["files 1", "0 2 1 -"]);
    assert_eq!(read.entry().version, VersionField(0));
    let written = made.plays(&[("OW 0 0", "G 2 1 1")], &["files 1", "0 5 2 -"]);
    assert_eq!(written.entry().version, VersionField(2));
}

/// An open that waited "is granted in the step in which the last called station replies", by the same rule.
#[test]
fn a_version_of_0_is_granted_as_1_after_a_wait() {
    let waiting = |mode| HandMade::fresh().version(0).wait(2, mode, &[(0, 1)]);
    waiting(Mode::Read).plays(&[("AN 0 0", "A 0 2 1 0 1")], &["files 1", "0 2 1 -"]);
    waiting(Mode::Write).plays(&[("AN 0 0", "A 0 2 2 1 1")], &["files 1", "0 5 2 -"]);
}

/// DECISIONS: the summary prints "1, and a CLOSED file with it is not listed". "Versions and blocks survive a crash."
#[test]
fn a_version_of_0_prints_as_1() {
    HandMade::fresh().version(0).plays(&[], &["files 0"]);
    HandMade::fresh().version(0).last_writer(3).plays(&[], &["files 1", "0 1 1 3"]);
    let crashed = HandMade::fresh().version(0).plays(&[("XX", "K")], &["files 0"]);
    assert_eq!(crashed.entry().version, VersionField(0));
}

/// DECISIONS: "A callback kind outside 1 to 3 is no callback". "10 this station has no call on this file."
#[test]
fn a_kind_above_3_is_no_callback() {
    for kind in [4, 5, 6, 7, 128, 129, 130, 131, 255] {
        let made = HandMade::fresh().at_both_ends(1, READER).wait(2, Mode::Read, &[(0, 1), (1, kind)]);
        let answered = made.plays(&[("AN 1 0", "N 10"), ("AN 0 0", "A 0 2 1 0 1")], &["files 1", "0 4 1 -"]);
        assert_eq!(answered.client(1).record, READER);
        assert_eq!(answered.entry().waiting, WaitField::NONE);
    }
}
