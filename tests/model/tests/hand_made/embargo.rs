//! Embargoes in hand-made states: "the server forgets it as in Wish 8, but the station doesn't know. .. Telling it
//! drops all it holds, counts too" (document 02, Wish 9).

use model::{Callbacks, ClientField, ClientFile, ClientSet, Mode, Service, WaitField};

use crate::made::{CLOSED, HandMade, READER, WRITER, block_0, uncached};

/// Client 2 waits for client 0, which has written.
fn called() -> HandMade {
    let made = HandMade::fresh().block(5).at_both_ends(0, WRITER).copy(0, 1, block_0(9, true, true));
    made.wait(2, Mode::Read, &[(0, 3)])
}

/// The client's end stays, and what was dirty there does not come to the server.
#[test]
fn the_server_forgets_and_the_client_does_not() {
    let made = called();
    let aside = made.clone().plays(&[("EM 0 0", "A 0 2 1 0 1"), ("RD 2 0 0", "V 5")], &["files 1", "0 2 1 -"]);
    assert_eq!(aside.client(0), made.client(0));
    assert_eq!((aside.entry().records[0], aside.entry().blocks[0]), (CLOSED, 5));
    assert_eq!(aside.service.server.embargoed, ClientSet::only(0));
}

/// "Its own reads promise nothing": they go on from what it holds, and its writes into it.
#[test]
fn under_embargo_it_goes_on_with_its_copy() {
    let aside = called().plays(
        &[
            ("EM 0 0", "A 0 2 1 0 1"),
            ("RD 0 0 0", "V 9"),
            ("WR 0 0 0 7", "K"),
            ("RD 0 0 0", "V 7"),
            ("WR 0 0 1 8", "N 20"),
        ],
        &["files 1", "0 2 1 -"],
    );
    aside.plays(
        &[("RD 0 0 2", "N 20"), ("RD 2 0 0", "V 5"), ("RD 2 0 1", "V 0"), ("FL 0 0 0", "N 20")],
        &["files 1", "0 2 1 -"],
    );
}

/// "20 when an embargoed station's step other than BT or LF needs the server (any but a read or write does), after 4":
/// a read unless the client is open, may cache and holds the block, and a write unless it has writers and may cache. The
/// block is used, so that no write takes a place.
#[test]
fn a_read_or_write_that_needs_the_server_gets_20() {
    let embargoed = HandMade::fresh().used().embargoed(ClientSet::only(0));
    let held = block_0(9, true, false);
    for (record, read, write) in [
        (CLOSED, "N 20", "N 20"),
        (READER, "V 9", "N 20"),
        (WRITER, "V 9", "K"),
        (uncached(READER), "N 20", "N 20"),
        (uncached(WRITER), "N 20", "N 20"),
    ] {
        let made = embargoed.clone().at_client(0, record).copy(0, 1, held.clone());
        made.plays(&[("RD 0 0 0", read), ("WR 0 0 0 1", write), ("RD 0 0 3", "N 20")], &["files 0"]);
    }
}

/// "After 4", and before 5, 6, 9, 10, 11, 12 and 13.
#[test]
fn the_place_of_20() {
    let made = HandMade::fresh().embargoed(ClientSet::only(0)).wait(2, Mode::Read, &[(0, 3)]);
    let steps = [
        ("OR 8 0", "N 2"),
        ("OR 0 32", "N 3"),
        ("OR 0 0", "N 20"),
        ("CW 0 0", "N 20"),
        ("RD 0 32 0", "N 3"),
        ("RD 0 0 4", "N 4"),
        ("WR 0 0 4 1", "N 4"),
        ("FL 0 0 4", "N 4"),
        ("FL 0 0 0", "N 20"),
        ("AN 0 0", "N 20"),
        ("RP 8", "N 2"),
        ("RP 0", "N 20"),
        ("RP 1", "N 6"),
    ];
    made.clone().plays(&steps, &["files 0"]);
    let steps = [&steps[..12], &[("OR 1 0", "N 5"), ("RP 1", "K"), ("RP 1", "N 7")]].concat();
    made.recovering(ClientSet::only(0)).plays(&steps, &["files 0"]);
}

/// In recovery 5 follows: of one that has reported, which no steps lead to, a read that needs no server gets it.
#[test]
fn a_report_of_a_client_under_embargo_is_one_all_the_same() {
    let made = HandMade::fresh().used().at_client(0, WRITER).copy(0, 1, block_0(9, true, false));
    let made = made.embargoed(ClientSet::only(0)).recovering(ClientSet::only(0));
    made.clone().plays(&[("RD 0 0 0", "N 5"), ("WR 0 0 0 1", "N 5"), ("RD 0 0 1", "N 20")], &["files 0"]);
    made.recovering(ClientSet::NONE).plays(&[("RD 0 0 0", "V 9"), ("WR 0 0 0 1", "K")], &["files 0"]);
}

/// "EM is tested as a reply is, never by 20."
#[test]
fn an_embargo_is_tested_as_a_reply_is() {
    let made = called().embargoed(ClientSet::only(0));
    let tested = [("EM 8 0", "N 2"), ("EM 0 32", "N 3"), ("EM 1 0", "N 10"), ("EM 2 0", "N 10"), ("EM 0 1", "N 10")];
    made.clone()
        .plays(&[&tested[..], &[("EM 0 0", "A 0 2 1 0 1"), ("EM 0 0", "N 10")]].concat(), &["files 1", "0 2 1 -"]);
    made.recovering(ClientSet::NONE).plays(&[("EM 0 0", "N 5"), ("EM 1 0", "N 5")], &["files 1", "0 5 1 -"]);
}

/// "LF tests 2 and 21", in every state.
#[test]
fn a_lift_tests_2_and_21() {
    let made = HandMade::fresh().embargoed(ClientSet::only(3));
    let lifted = [("LF 8", "N 2"), ("LF 0", "N 21"), ("LF 3", "K"), ("LF 3", "N 21")];
    made.clone().plays(&lifted, &["files 0"]);
    let recovering = made.recovering(ClientSet::NONE).plays(&lifted, &["files 0"]);
    assert_eq!(recovering.service.server.reported, ClientSet::only(3));
}

/// "Telling it drops all it holds, counts too", of every file; the server's end stays, whatever stands there.
#[test]
fn a_lift_drops_what_the_client_holds_and_nothing_else() {
    let mut made = HandMade::fresh().embargoed(ClientSet::only(0)).at_both_ends(0, WRITER).last_writer(0).flagged(0);
    made = made.copy(0, 7, block_0(9, true, true)).wait(0, Mode::Read, &[(0, 1)]);
    made.service.clients[0].files[31] = made.client(0).clone();
    let before = made.service.server.entries.clone();
    let lifted = made.plays(&[("LF 0", "K")], &["files 1", "0 5 1 0"]);
    assert_eq!(lifted.service.clients, Service::fresh().clients);
    assert_eq!(lifted.service.server.entries, before);
    assert_eq!((lifted.service.server.embargoed, lifted.service.server.reported), (ClientSet::NONE, ClientSet::NONE));
}

/// "A restart lifts too", and it empties the server's end as ever.
#[test]
fn a_restart_lifts() {
    let made = called().embargoed(ClientSet::only(0).with(1));
    let restarted = made.plays(&[("BT 0", "K 2 1 0 1"), ("LF 0", "N 21"), ("LF 1", "K")], &["files 1", "0 2 1 -"]);
    assert_eq!(restarted.client(0), &ClientFile::default());
}

/// "Embargoes survive a crash, and recovery doesn't wait for such stations."
#[test]
fn the_end_does_not_wait_for_a_client_under_embargo() {
    let made = HandMade::fresh().settings(2, 1, 1).embargoed(ClientSet::only(1));
    let crash = [("XX", "K"), ("EN", "N 8"), ("RP 1", "N 20"), ("RP 0", "K"), ("EN", "K"), ("LF 1", "K")];
    made.plays(&crash, &["files 0"]);
    let all = HandMade::fresh().embargoed(ClientSet::ALL).plays(&[("XX", "K"), ("EN", "K")], &["files 0"]);
    assert_eq!(all.service.server.embargoed, ClientSet::ALL);
}

/// DECISIONS: "Kinds 1 and 3 clear the last writer, whoever it is", for a call that counts as replied to; kind 2 does
/// not. A call on a file that the step does not name counts as replied to as well.
#[test]
fn every_call_on_it_counts_as_replied_to() {
    for (kind, summary) in [(1, "0 2 1 -"), (2, "0 2 1 5"), (3, "0 2 1 -")] {
        let mut made = HandMade::fresh().last_writer(5).flagged(5).wait(2, Mode::Read, &[(0, kind)]);
        made.service.server.entries[1].waiting = made.entry().waiting;
        let embargo = [("EM 0 1", "A 0 2 1 0 1 2 1 0 1")];
        let aside = made.plays(&embargo, &["files 2", summary, "1 2 1 -"]);
        assert!(aside.client(5).last_writer_flag);
        assert_eq!(aside.entry().waiting, WaitField::NONE);
    }
}

/// "With the calls of that open": an opener that is itself called answers nothing.
#[test]
fn its_own_wait_goes_with_every_call() {
    let made = HandMade::fresh().last_writer(5).wait(2, Mode::Read, &[(2, 1), (0, 1)]);
    let aside = made.plays(&[("EM 2 0", "A 0"), ("AN 0 0", "N 10")], &["files 1", "0 1 1 5"]);
    assert_eq!(aside.entry().waiting, WaitField::NONE);
}

/// A grant goes by the rule also to an opener under embargo, which no steps lead to.
#[test]
fn an_opener_under_embargo_is_granted_as_any_other() {
    let made = called().embargoed(ClientSet::only(2));
    let granted = made.plays(&[("EM 0 0", "A 0 2 1 0 1"), ("RD 2 0 0", "N 20")], &["files 1", "0 2 1 -"]);
    assert_eq!(granted.client(2).record, READER);
    assert_eq!(granted.service.server.embargoed, ClientSet::only(0).with(2));
}

/// While running "a stored report tells nothing", and a lift stores none.
#[test]
fn while_running_a_lift_is_no_report() {
    let lifted = HandMade::fresh().embargoed(ClientSet::only(3)).plays(&[("LF 3", "K"), ("RP 3", "N 6")], &["files 0"]);
    assert_eq!(lifted.service.server.reported, ClientSet::NONE);
}

/// "What lies past them isn't there": an embargo past the settings holds nobody up and stays stored.
#[test]
fn what_lies_past_the_settings_stays() {
    let past = ClientSet::ALL.minus(ClientSet::first(3));
    let mut made = HandMade::fresh().settings(3, 1, 1).embargoed(past).wait(2, Mode::Write, &[(0, 2), (5, 2)]);
    made.service.clients[0].files[1] = ClientFile { record: WRITER, ..ClientFile::default() };
    made.service.server.entries[1].records[0] = WRITER;
    let listing = [("LF 3", "N 2"), ("EM 3 0", "N 2"), ("LF 0", "N 21"), ("EM 0 0", "A 0 2 2 1 1"), ("LF 0", "K")];
    let lifted = made.plays(&listing, &["files 1", "0 5 2 -"]);
    assert_eq!(lifted.service.server.embargoed, past);
    assert_eq!(lifted.entry().waiting.callbacks, Callbacks([0, 0, 0, 0, 0, 2, 0, 0]));
    assert_eq!(lifted.service.clients[0].files[1].record, WRITER);
    assert_eq!(lifted.service.server.entries[1].records[0], WRITER);
    assert_eq!(lifted.entry().last_writer, ClientField::NONE);
}
