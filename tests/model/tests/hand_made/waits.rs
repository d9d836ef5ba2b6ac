//! Waiting opens made by hand: "with no call due the open is granted in that step; else it waits and is granted in the
//! step in which the last called station replies".

use model::{Callbacks, ClientField, Copies, Mode, WaitField};

use crate::listing::RECOVERY;
use crate::made::{HandMade, READER, WRITER, block_0, uncached};

/// DECISIONS: a wait with nobody left to answer "goes on until a crash: no answer can come, since each is refused with
/// 10". "9 an open of this file waits."
#[test]
fn a_wait_with_nobody_left_to_answer_goes_on_until_a_crash() {
    for called in [&[][..], &[(0, 4), (5, 255)]] {
        let made = HandMade::fresh().at_both_ends(0, READER).wait(2, Mode::Write, called);
        let answers = (0..8).map(|client| (format!("AN {client} 0"), "N 10"));
        let opens =
            (0..8).flat_map(|client| ["OR", "OW", "CR", "CW"].map(|word| (format!("{word} {client} 0"), "N 9")));
        let refused: Vec<(String, &str)> = answers.chain(opens).collect();
        let refused: Vec<(&str, &str)> = refused.iter().map(|(line, said)| (line.as_str(), *said)).collect();
        let waiting = made.plays(&refused, &["files 1", "0 2 1 -"]);

        let then = [&RECOVERY[..], &[("AN 0 0", "N 10"), ("OR 2 0", "G 1 0 1")]].concat();
        waiting.plays(&then, &["files 1", "0 4 1 -"]);
    }
}

/// "Read and write 2, 3, 4, 5, 11; flush 2, 3, 4, 5, 13" have no 9, and it is for "this file" alone.
#[test]
fn a_wait_with_nobody_left_to_answer_stops_opens_and_closes_alone() {
    let made = HandMade::fresh().at_both_ends(0, WRITER).wait(2, Mode::Write, &[]);
    let accepted =
        [("WR 0 0 0 7", "K"), ("FL 0 0 0", "K"), ("RD 0 0 0", "V 7"), ("OW 0 1", "G 2 1 1"), ("CW 0 1", "K")];
    made.plays(&accepted, &["files 2", "0 5 1 -", "1 0 2 -"]);
}

/// DECISIONS: "A wait whose client reads as none is no wait, and its callbacks are none."
#[test]
fn a_wait_whose_client_reads_as_none_is_no_wait() {
    for opener in [8, 9, 16, 255] {
        let made = HandMade::fresh().at_both_ends(0, READER).wait(opener, Mode::Write, &[(0, 2), (1, 1), (2, 3)]);
        let none_due = [("AN 0 0", "N 10"), ("AN 1 0", "N 10"), ("AN 2 0", "N 10")];
        let made = made.plays(&none_due, &["files 1", "0 2 1 -"]);
        made.clone().plays(&[("OR 3 0", "G 1 0 1"), ("AN 0 0", "N 10")], &["files 1", "0 4 1 -"]);
        made.clone().plays(&[("OW 3 0", "W 0:2"), ("AN 1 0", "N 10")], &["files 1", "0 2 1 -"]);
        let closed = made.clone().plays(&[("CR 0 0", "K")], &["files 0"]);
        // A close sets no wait: what is stored stays.
        assert_eq!(closed.entry().waiting, made.entry().waiting);
    }
}

/// An open waits "with its station and mode, the stations still to reply and the kind of each call": all of it is new.
#[test]
fn an_open_that_waits_replaces_what_was_stored() {
    let made = HandMade::fresh().at_both_ends(0, READER).wait(200, Mode::Read, &[(1, 3), (4, 9)]);
    let waiting = made.plays(&[("OW 3 0", "W 0:2")], &["files 1", "0 2 1 -"]);
    let callbacks = Callbacks([2, 0, 0, 0, 0, 0, 0, 0]);
    assert_eq!(waiting.entry().waiting, WaitField { opener: ClientField(3), mode: Mode::Write, callbacks });
}

/// DECISIONS: "After a grant no open waits, and the callbacks are none, whatever stood there." "The mode of a wait that
/// is not there is read, after a grant and after a crash."
#[test]
fn after_a_grant_no_open_waits_and_no_call_is_out() {
    let stored = HandMade::fresh().wait(200, Mode::Write, &[(0, 1), (1, 2), (2, 3), (3, 4)]);
    let granted = stored.plays(&[("OR 5 0", "G 1 0 1")], &["files 1", "0 2 1 -"]);
    assert_eq!(granted.entry().waiting, WaitField::NONE);

    let waiting = HandMade::fresh().wait(5, Mode::Write, &[(0, 1), (3, 4), (5, 255)]);
    let granted = waiting.clone().plays(&[("AN 0 0", "A 0 5 2 1 1"), ("AN 3 0", "N 10")], &["files 1", "0 5 2 -"]);
    assert_eq!(granted.entry().waiting, WaitField::NONE);

    let crashed = waiting.plays(&[("XX", "K")], &["files 0"]);
    assert_eq!(crashed.entry().waiting, WaitField::NONE);
}

/// DECISIONS: the opener among the called "answers like any other client; if it was the last, its open is then granted".
#[test]
fn the_opener_among_the_called_answers_like_any_other() {
    let first = HandMade::fresh().wait(2, Mode::Read, &[(0, 1), (2, 1)]);
    first.clone().plays(&[("AN 2 0", "A 0"), ("AN 2 0", "N 10"), ("AN 0 0", "A 0 2 1 0 1")], &["files 1", "0 2 1 -"]);
    first.plays(&[("AN 0 0", "A 0"), ("AN 2 0", "A 0 2 1 0 1")], &["files 1", "0 2 1 -"]);
}

/// "1 sends every dirty block .. and clears mark and last writer"; the grant then finds its own copy.
#[test]
fn the_opener_writes_back_before_its_own_grant() {
    let made = HandMade::fresh().last_writer(2).flagged(2).copy(2, 1, block_0(7, true, true));
    let granted = made.wait(2, Mode::Read, &[(2, 1)]).plays(&[("AN 2 0", "A 1 2 1 0 1")], &["files 1", "0 2 1 -"]);
    assert_eq!((granted.entry().blocks[0], &granted.client(2).copies), (7, &block_0(7, true, false)));
    assert!(!granted.client(2).last_writer_flag);
}

/// "2 drops the copy, label 0, permission gone"; then "some station open before the grant, the opener included, may not
/// cache", or the opener "keeps its permission", of which it has none.
#[test]
fn the_opener_invalidates_before_its_own_grant() {
    let reader = HandMade::fresh().at_both_ends(2, READER).copy(2, 1, block_0(7, true, false));
    let granted = reader.wait(2, Mode::Write, &[(2, 2)]).plays(&[("AN 2 0", "A 0 2 2 1 0")], &["files 1", "0 6 2 -"]);
    assert_eq!((granted.client(2).cached_version, &granted.client(2).copies), (0, &Copies::default()));

    let writer = HandMade::fresh().at_both_ends(2, WRITER).copy(2, 1, block_0(7, true, true));
    let granted = writer.wait(2, Mode::Read, &[(2, 3)]).plays(&[("AN 2 0", "A 1 2 1 0 0")], &["files 1", "0 6 1 -"]);
    assert_eq!((granted.entry().blocks[0], &granted.client(2).copies), (7, &Copies::default()));

    let closed = HandMade::fresh().wait(2, Mode::Write, &[(2, 2)]);
    closed.plays(&[("AN 2 0", "A 0 2 2 1 1")], &["files 1", "0 5 2 -"]);
}

/// DECISIONS: "Kinds 1 and 3 clear the last writer, whoever it is"; the mark is that of the client that answers. Kind 2
/// clears neither, and a read open leaves the last writer.
#[test]
fn kinds_1_and_3_clear_the_last_writer_whoever_it_is() {
    for (kind, summary) in [(1, "0 2 1 -"), (2, "0 2 1 5"), (3, "0 2 1 -")] {
        let made = HandMade::fresh().last_writer(5).flagged(5).flagged(0).wait(2, Mode::Read, &[(0, kind)]);
        let answered = made.plays(&[("AN 0 0", "A 0 2 1 0 1")], &["files 1", summary]);
        assert_eq!([0, 5].map(|client| answered.client(client).last_writer_flag), [kind == 2, true]);
    }
}

/// "The table changes in that same step", whatever is still out.
#[test]
fn every_answer_changes_the_table_at_once() {
    let made = HandMade::fresh().at_both_ends(0, READER).last_writer(5).wait(2, Mode::Write, &[(0, 3), (1, 2)]);
    let answered = made.plays(&[("AN 0 0", "A 0")], &["files 1", "0 6 1 -"]);
    assert_eq!(answered.entry().records[0], uncached(READER));
}

/// "10 this station has no call on this file" is all that a reply tests: the called client need not be open.
#[test]
fn a_called_client_need_not_be_open() {
    let made = HandMade::fresh().copy(0, 1, block_0(7, true, true)).wait(2, Mode::Read, &[(0, 3)]);
    let answered = made.plays(&[("AN 0 0", "A 1 2 1 0 1")], &["files 1", "0 2 1 -"]);
    assert_eq!((answered.entry().blocks[0], &answered.client(0).copies), (7, &Copies::default()));
}

/// DECISIONS: permission is judged "on the table as it stands at the grant, also for an open that waited". Who was not
/// called keeps what it has.
#[test]
fn permission_is_judged_at_the_grant() {
    let waiting = |mode| HandMade::fresh().at_both_ends(3, READER).wait(2, mode, &[(0, 1)]);
    waiting(Mode::Read).plays(&[("AN 0 0", "A 0 2 1 0 1")], &["files 1", "0 4 1 -"]);
    waiting(Mode::Write).plays(&[("AN 0 0", "A 0 2 2 1 0")], &["files 1", "0 6 2 -"]);
    let writer = HandMade::fresh().at_both_ends(3, WRITER).wait(2, Mode::Read, &[(0, 1)]);
    writer.plays(&[("AN 0 0", "A 0 2 1 0 0"), ("WR 3 0 0 9", "K")], &["files 1", "0 6 1 -"]);
}
