//! Counts at 0 and 255, and the version at its limit: "a grant that would pass the limit of 12 or 14 leaves that number";
//! "a count of 0 stays 0".

use model::{ClientField, Mode, Record, VersionField};

use crate::made::{CLOSED, HandMade, READER, WRITER};

const FULL: Record = Record { readers: 255, writers: 255, may_cache: true };

fn readers(readers: u8) -> Record {
    Record { readers, ..READER }
}

/// DECISIONS: "A count of 255 .. stay[s] as [it is]".
#[test]
fn a_grant_after_a_wait_leaves_a_count_of_255() {
    for (mode, said, summary) in [(Mode::Read, "A 0 2 1 0 1", "0 5 1 -"), (Mode::Write, "A 0 2 2 1 1", "0 5 2 -")] {
        let made = HandMade::fresh().at_both_ends(2, FULL).wait(2, mode, &[(0, 1)]);
        let granted = made.plays(&[("AN 0 0", said)], &["files 1", summary]);
        assert_eq!(granted.entry().records[2], FULL);
        assert_eq!(granted.client(2).record, FULL);
    }
}

/// "Refusals 11 to 13 .. go by the station's record; calls, grants and the table go by the server's."
#[test]
fn the_limit_of_a_count_is_tested_at_the_client() {
    let full_at_server = HandMade::fresh().at_server(0, readers(255)).at_client(0, readers(3));
    let granted = full_at_server.plays(&[("OR 0 0", "G 1 0 1")], &["files 1", "0 2 1 -"]);
    assert_eq!((granted.entry().records[0], granted.client(0).record), (readers(255), readers(4)));

    let full_at_client = HandMade::fresh().at_server(0, readers(3)).at_client(0, readers(255));
    full_at_client.plays(&[("OR 0 0", "N 12"), ("CR 0 0", "K"), ("OR 0 0", "G 1 0 1")], &["files 1", "0 2 1 -"]);
}

/// "12 that count is 255": the count of the open's own mode.
#[test]
fn a_full_count_of_the_other_mode_does_not_matter() {
    let made = HandMade::fresh().at_both_ends(0, readers(255));
    made.plays(&[("OW 0 0", "G 2 1 1"), ("OR 0 0", "N 12")], &["files 1", "0 5 2 -"]);
}

/// DECISIONS: "a version of 4,294,967,295 stay[s] as [it is]; the grant tells that version and the one before". "For
/// write .. the last writer becomes none."
#[test]
fn a_write_open_granted_after_a_wait_leaves_the_version_at_its_limit() {
    let made = HandMade::fresh().version(u32::MAX).last_writer(5).wait(0, Mode::Write, &[(1, 2)]);
    let answer = [("AN 1 0", "A 0 0 4294967295 4294967294 1")];
    let summary = ["files 1", "0 5 4294967295 -"];
    let granted = made.clone().plays(&answer, &summary);
    assert_eq!(granted.entry().version, VersionField(u32::MAX));
    assert_eq!(granted.entry().last_writer, ClientField::NONE);
    assert_eq!(granted.client(0).cached_version, u32::MAX);

    // "The copy is kept when its label equals the latest version, or for a write open the previous one."
    let cached = [0, 1, u32::MAX - 2, u32::MAX - 1, u32::MAX];
    assert_eq!(made.versions_kept(&cached, &answer, &summary), [u32::MAX - 1, u32::MAX]);
}

/// "14 the version is 4,294,967,295 and the open is for write", whoever opens; 12 comes before it.
#[test]
fn at_its_limit_a_version_refuses_write_opens_alone() {
    let made = HandMade::fresh().version(u32::MAX).at_both_ends(0, WRITER).at_client(1, FULL);
    let refused = [("OW 0 0", "N 14"), ("OW 2 0", "N 14"), ("OW 1 0", "N 12")];
    made.clone().plays(&refused, &["files 1", "0 5 4294967295 -"]);
    made.plays(&[("OR 0 0", "G 4294967295 4294967294 1")], &["files 1", "0 5 4294967295 -"]);
}

/// "For write, the version rises by 1": up to its limit, and then no more.
#[test]
fn a_version_below_its_limit_rises_once_more_after_a_wait() {
    let made = HandMade::fresh().version(u32::MAX - 1).wait(2, Mode::Write, &[(0, 3)]);
    let said = [("AN 0 0", "A 0 2 4294967295 4294967294 1"), ("OW 2 0", "N 14")];
    made.plays(&said, &["files 1", "0 5 4294967295 -"]);
}

/// "11 to 13 .. go by the station's record": the close is accepted, and the server's "count of 0 stays 0".
#[test]
fn a_count_of_0_at_the_server_stays_0() {
    let made = HandMade::fresh().at_client(0, Record { readers: 2, writers: 2, may_cache: true });
    let closed = made.plays(&[("CR 0 0", "K"), ("CW 0 0", "K")], &["files 0"]);
    assert_eq!(closed.entry().records[0], CLOSED);
    assert_eq!(closed.client(0).record, Record { readers: 1, writers: 1, may_cache: true });
}

/// "11 not open in the mode needed", by the station's record: the server's counts are not looked at.
#[test]
fn a_count_of_0_at_the_client_refuses_the_close() {
    let made = HandMade::fresh().at_server(0, FULL);
    let refused = made.plays(&[("CR 0 0", "N 11"), ("CW 0 0", "N 11")], &["files 1", "0 5 1 -"]);
    assert_eq!(refused.entry().records[0], FULL);
}

/// Both sentences of the head, of a record alone.
#[test]
fn a_record_at_its_limits_stays_there() {
    let mut record = CLOSED;
    assert!(!record.close(Mode::Read) && !record.close(Mode::Write));
    assert_eq!(record, CLOSED);
    let mut record = FULL;
    record.grant(Mode::Read, true);
    record.grant(Mode::Write, true);
    assert_eq!(record, FULL);
}
