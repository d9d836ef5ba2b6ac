//! Restarts in hand-made states: "its counts, permissions, marks, copies and any waiting open of its own go at both ends,
//! with the calls of that open. Then a call on it counts as replied to with no blocks, which may grant opens of others"
//! (document 02, Wish 8).

use model::{Callbacks, ClientField, ClientFile, ClientSet, Mode, Record, WaitField};

use crate::made::{CLOSED, HandMade, READER, WRITER, block_0, uncached};

/// "At both ends": whatever stands there, and however the two ends differ.
#[test]
fn what_stands_at_either_end_goes() {
    let made = HandMade::fresh().block(5).at_client(0, WRITER).at_server(0, uncached(READER)).last_writer(0).flagged(0);
    let made = made.copy(0, 7, block_0(9, true, true));
    let restarted = made.plays(&[("BT 0", "K"), ("FL 0 0 0", "N 13"), ("RD 0 0 0", "N 11")], &["files 0"]);
    assert_eq!(restarted.client(0), &ClientFile::default());
    assert_eq!((restarted.entry().records[0], restarted.entry().last_writer), (CLOSED, ClientField::NONE));
    assert_eq!(restarted.entry().blocks[0], 5);
}

/// DECISIONS: a block that is dirty but not held goes, and so does one that is held without permission.
#[test]
fn every_block_is_dropped() {
    for copies in [block_0(9, false, true), block_0(9, true, false), block_0(9, false, false)] {
        let restarted = HandMade::fresh().copy(3, 1, copies).plays(&[("BT 3", "K")], &["files 0"]);
        assert_eq!(restarted.client(3), &ClientFile::default());
    }
}

/// Another client's record, mark, copy and place as last writer stay where no call is counted as replied to.
#[test]
fn what_others_have_stays() {
    let made = HandMade::fresh().at_both_ends(1, READER).last_writer(5).flagged(5).copy(5, 1, block_0(9, true, true));
    let restarted = made.clone().plays(&[("BT 0", "K")], &["files 1", "0 2 1 5"]);
    assert_eq!(restarted.service, made.service);
}

/// DECISIONS: "Kinds 1 and 3 clear the last writer, whoever it is", for a call that counts as replied to as for an
/// answer; kind 2 does not.
#[test]
fn a_call_of_kind_1_or_3_clears_the_last_writer_whoever_it_is() {
    for (kind, summary) in [(1, "0 2 1 -"), (2, "0 2 1 5"), (3, "0 2 1 -")] {
        let made = HandMade::fresh().last_writer(5).flagged(5).wait(2, Mode::Read, &[(0, kind)]);
        let restarted = made.plays(&[("BT 0", "K 2 1 0 1")], &["files 1", summary]);
        assert!(restarted.client(5).last_writer_flag);
        assert_eq!(restarted.entry().waiting, WaitField::NONE);
    }
}

/// "With no blocks": what is dirty there is lost, and the waiting open is granted by the rule of the last answer.
#[test]
fn the_last_call_grants_the_waiting_open_and_sends_nothing() {
    let made = HandMade::fresh().block(5).at_both_ends(0, WRITER).copy(0, 1, block_0(9, true, true));
    let granted = made
        .wait(2, Mode::Write, &[(0, 3)])
        .plays(&[("BT 0", "K 2 2 1 1"), ("RD 2 0 0", "V 5")], &["files 1", "0 5 2 -"]);
    assert_eq!(granted.client(2).record, WRITER);
}

/// While others have still to answer, the table has changed and the open waits on.
#[test]
fn with_others_still_to_answer_the_open_waits_on() {
    let made =
        HandMade::fresh().at_both_ends(0, READER).at_both_ends(1, READER).wait(2, Mode::Write, &[(0, 2), (1, 2)]);
    let waiting = made.plays(&[("BT 0", "K"), ("AN 0 0", "N 10"), ("OR 3 0", "N 9")], &["files 1", "0 2 1 -"]);
    waiting.clone().plays(&[("AN 1 0", "A 0 2 2 1 0")], &["files 1", "0 6 2 -"]);
    waiting.plays(&[("BT 1", "K 2 2 1 1")], &["files 1", "0 5 2 -"]);
}

/// "Any waiting open of its own .., with the calls of that open": the mode of a wait that is not there is read.
#[test]
fn its_own_wait_goes_with_every_call() {
    let made = HandMade::fresh().at_both_ends(0, READER).wait(2, Mode::Write, &[(0, 2), (1, 3), (3, 9)]);
    let restarted = made.plays(&[("BT 2", "K"), ("AN 0 0", "N 10"), ("AN 1 0", "N 10")], &["files 1", "0 2 1 -"]);
    assert_eq!(restarted.entry().waiting, WaitField::NONE);
}

/// DECISIONS: an opener that is itself called: the wait goes with its calls before any call can count as replied to, so
/// a last writer that is another stays.
#[test]
fn an_opener_that_is_itself_called_answers_nothing() {
    let made = HandMade::fresh().last_writer(5).wait(2, Mode::Read, &[(2, 1), (0, 1)]);
    let restarted = made.plays(&[("BT 2", "K"), ("AN 0 0", "N 10")], &["files 1", "0 1 1 5"]);
    assert_eq!(restarted.entry().waiting, WaitField::NONE);
}

/// DECISIONS: a wait of another in which this client has no call is neither touched nor granted, also where nobody is
/// left to answer.
#[test]
fn a_wait_without_a_call_on_it_is_not_touched() {
    for called in [&[][..], &[(0, 4), (5, 255)], &[(1, 2)]] {
        let made = HandMade::fresh().at_both_ends(1, READER).wait(2, Mode::Write, called);
        let restarted = made.clone().plays(&[("BT 0", "K"), ("OR 3 0", "N 9")], &["files 1", "0 2 1 -"]);
        assert_eq!(restarted.service, made.service);
    }
}

/// DECISIONS: "A wait whose client reads as none is no wait, and its callbacks are none"; what is stored stays.
#[test]
fn a_wait_whose_client_reads_as_none_stays_stored() {
    let made = HandMade::fresh().last_writer(5).wait(8, Mode::Write, &[(0, 3), (1, 1)]);
    let restarted = made.clone().plays(&[("BT 0", "K")], &["files 1", "0 1 1 5"]);
    assert_eq!(restarted.service, made.service);
}

/// "A grant that would pass the limit of 12 or 14 leaves that number."
#[test]
fn a_grant_at_a_limit_leaves_the_number() {
    let full = Record { readers: 255, ..READER };
    let made = HandMade::fresh().version(u32::MAX).at_both_ends(2, full).wait(2, Mode::Read, &[(0, 1)]);
    let granted = made.plays(&[("BT 0", "K 2 4294967295 4294967294 1")], &["files 1", "0 2 4294967295 -"]);
    assert_eq!(granted.entry().records[2], full);
    let made = HandMade::fresh().version(u32::MAX).wait(2, Mode::Write, &[(0, 1)]);
    made.plays(&[("BT 0", "K 2 4294967295 4294967294 1")], &["files 1", "0 5 4294967295 -"]);
}

/// "During recovery the restart stands as an empty report and supersedes one already given."
#[test]
fn in_recovery_it_is_a_report() {
    let made = HandMade::fresh().at_both_ends(0, WRITER).at_both_ends(1, uncached(READER)).last_writer(0);
    let made = made.recovering(ClientSet::only(0));
    let restarted = made.plays(&[("BT 0", "K"), ("RP 0", "N 7"), ("BT 1", "K"), ("RP 1", "N 7")], &["files 0"]);
    assert_eq!(restarted.service.server.reported, ClientSet::only(0).with(1));
}

/// DECISIONS: in recovery the same holds of a wait that stands there.
#[test]
fn in_recovery_a_stored_wait_is_taken_as_any_other() {
    let waiting = HandMade::fresh().at_both_ends(0, READER).wait(2, Mode::Write, &[(0, 2)]);
    let waiting = waiting.recovering(ClientSet::NONE);
    let granted = waiting.clone().plays(&[("BT 0", "K 2 2 1 1"), ("RP 2", "K")], &["files 1", "0 5 2 -"]);
    assert_eq!(granted.client(2).record, WRITER);
    let gone = waiting.plays(&[("BT 2", "K")], &["files 1", "0 2 1 -"]);
    assert_eq!(gone.entry().waiting, WaitField::NONE);
}

/// While running "a stored report tells nothing", and a restart stores none.
#[test]
fn while_running_it_is_no_report() {
    let mut made = HandMade::fresh();
    made.service.server.reported = ClientSet::only(3);
    let restarted = made.plays(&[("BT 0", "K"), ("BT 3", "K"), ("RP 0", "N 6")], &["files 0"]);
    assert_eq!(restarted.service.server.reported, ClientSet::only(3));
}

/// "What lies past them isn't there": files, blocks, callbacks and clients past the settings.
#[test]
fn what_lies_past_the_settings_stays() {
    let mut made = HandMade::fresh().settings(3, 1, 1).wait(2, Mode::Write, &[(0, 2), (5, 2)]);
    made.service.clients[0].files[0].copies.values = [7; 8];
    made.service.clients[0].files[0].copies.dirty = [true; 8];
    made.service.clients[0].files[1] = ClientFile { record: WRITER, ..ClientFile::default() };
    made.service.server.entries[1].records[0] = WRITER;
    let granted = made.plays(&[("BT 3", "N 2"), ("BT 0", "K 2 2 1 1")], &["files 1", "0 5 2 -"]);
    assert_eq!(granted.entry().waiting.callbacks, Callbacks([0, 0, 0, 0, 0, 2, 0, 0]));
    assert_eq!(granted.client(0).copies.values, [0, 7, 7, 7, 7, 7, 7, 7]);
    assert_eq!(granted.client(0).copies.dirty, [false, true, true, true, true, true, true, true]);
    assert_eq!(granted.service.clients[0].files[1].record, WRITER);
    assert_eq!(granted.service.server.entries[1].records[0], WRITER);
}

/// A station field past the settings "reads as none" and is no waiting open of client 0; 8 stored is none of the eight.
#[test]
fn a_last_writer_that_reads_as_none_stays_stored() {
    let made = HandMade::fresh().last_writer(200).plays(&[("BT 0", "K"), ("BT 7", "K")], &["files 0"]);
    assert_eq!(made.entry().last_writer, ClientField(200));
}
