//! Recoveries made by hand: waits, reports and tables that stand where a crash would have cleared them.

use model::{ClientField, ClientSet, Mode, WaitField};

use crate::listing::RECOVERY;
use crate::made::{HandMade, READER, WRITER, block_0, uncached};

/// "For the other steps 5 holds throughout recovery", and 5 comes before 9 and 10.
#[test]
fn while_recovering_a_stored_wait_is_not_looked_at() {
    let made = HandMade::fresh().at_both_ends(0, WRITER).wait(2, Mode::Write, &[(0, 3)]).recovering(ClientSet::NONE);
    let refused = ["OR 1 0", "OW 2 0", "CR 0 0", "CW 0 0", "AN 0 0", "AN 1 0", "FL 0 0 0"].map(|line| (line, "N 5"));
    made.clone().plays(&refused, &["files 1", "0 5 1 -"]);
    // Reads and writes go by the client's own record, called or not.
    made.used().plays(
        &[("WR 0 0 0 9", "K"), ("RD 0 0 0", "V 9"), ("RD 1 0 0", "N 5"), ("EN", "N 8")],
        &["files 1", "0 5 1 -"],
    );
}

/// A report gives "counts, permissions and marks", and an end lets "the service run again": neither names a wait, so one
/// that was stored waits on, and its callbacks are due.
#[test]
fn a_wait_stored_while_recovering_is_there_after_the_end() {
    let made = HandMade::fresh().wait(2, Mode::Read, &[(0, 1)]).recovering(ClientSet::NONE);
    let stored = made.entry().waiting;
    let ended = made.plays(&RECOVERY[1..], &["files 0"]);
    assert_eq!(ended.entry().waiting, stored);
    ended.plays(&[("OR 1 0", "N 9"), ("AN 1 0", "N 10"), ("AN 0 0", "A 0 2 1 0 1")], &["files 1", "0 2 1 -"]);
}

/// "Crash, also during recovery: .. waits and reports are lost."
#[test]
fn a_crash_while_recovering_drops_a_stored_wait() {
    let made = HandMade::fresh().at_both_ends(0, READER).wait(2, Mode::Read, &[(0, 1)]).recovering(ClientSet::ALL);
    let crashed = made.plays(&[("XX", "K"), ("EN", "N 8"), ("RP 0", "K")], &["files 1", "0 2 1 -"]);
    assert_eq!(crashed.entry().waiting, WaitField::NONE);
}

/// "5 holds during recovery if the station has reported": a stored report counts like any other, and "7 this station has
/// reported".
#[test]
fn a_stored_report_counts() {
    let made = HandMade::fresh().at_both_ends(0, READER).copy(0, 1, block_0(7, true, false));
    let reported = made.clone().recovering(ClientSet::only(0));
    reported.plays(&[("RD 0 0 0", "N 5"), ("RP 0", "N 7")], &["files 1", "0 2 1 -"]);
    made.clone().recovering(ClientSet::only(1)).plays(&[("RD 0 0 0", "V 7")], &["files 1", "0 2 1 -"]);
    made.recovering(ClientSet::ALL).plays(&[("EN", "K"), ("RD 0 0 0", "V 7")], &["files 1", "0 2 1 -"]);
}

/// "6 not recovering" comes before 7 and 8, and 5 is for recovery alone: while running a stored report tells nothing.
/// DECISIONS: reports "are cleared" at the end of recovery.
#[test]
fn reports_stored_while_running_tell_nothing() {
    let mut made = HandMade::fresh().at_both_ends(0, READER);
    made.service.server.reported = ClientSet::ALL;
    let running = [("RP 0", "N 6"), ("EN", "N 6"), ("RD 0 0 0", "V 0"), ("XX", "K"), ("EN", "N 8")];
    made.plays(&running, &["files 0"]);
    let ended = HandMade::fresh().recovering(ClientSet::ALL).plays(&[("EN", "K")], &["files 0"]);
    assert_eq!(ended.service.server.reported, ClientSet::NONE);
}

/// A table that stands while recovering goes on standing where no report speaks of it; DECISIONS: "A report without the
/// flag leaves the last writer as it is".
#[test]
fn a_table_stored_while_recovering_stands_until_it_is_reported() {
    let made = HandMade::fresh().at_server(6, uncached(READER)).last_writer(5).recovering(ClientSet::NONE);
    let reported = made.plays(&[("RP 5", "K")], &["files 1", "0 6 1 5"]);
    assert_eq!(reported.entry().last_writer, ClientField(5));
    reported.plays(&[("RP 6", "K")], &["files 1", "0 1 1 5"]);
}
