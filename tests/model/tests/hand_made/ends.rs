//! The two ends apart. "Reads, writes, refusals 11 to 13 and a station's own change go by the station's record; calls,
//! grants and the table go by the server's."

use model::{ClientField, ClientSet, Copies, Mode, Record};

use crate::made::{CLOSED, HandMade, READER, WRITER, block_0, uncached};

/// Client 0 with these records at its own end and at the server's. The server's block 0 is 5.
fn apart(at_client: Record, at_server: Record) -> HandMade {
    HandMade::fresh().block(5).at_client(0, at_client).at_server(0, at_server)
}

/// "A station that may cache gives the held block, or fetches and holds it. Without permission the server's block is
/// given and not held."
#[test]
fn reads_go_by_the_clients_record() {
    let fetched = apart(READER, CLOSED).plays(&[("RD 0 0 0", "V 5")], &["files 0"]);
    assert_eq!(fetched.client(0).copies, block_0(5, true, false));
    let held = apart(READER, uncached(WRITER)).copy(0, 1, block_0(7, true, false));
    held.plays(&[("RD 0 0 0", "V 7")], &["files 1", "0 6 1 -"]);
    let given = apart(uncached(READER), READER).copy(0, 1, block_0(7, false, false));
    let given = given.plays(&[("RD 0 0 0", "V 5")], &["files 1", "0 2 1 -"]);
    assert_eq!(given.client(0).copies, block_0(7, false, false));
}

/// "With permission the copy is written, held and dirty; without, the server's block."
#[test]
fn writes_go_by_the_clients_record() {
    let cached = apart(WRITER, CLOSED).plays(&[("WR 0 0 0 9", "K")], &["files 0"]);
    assert_eq!((cached.entry().blocks[0], &cached.client(0).copies), (5, &block_0(9, true, true)));
    let sent = apart(uncached(WRITER), WRITER).plays(&[("WR 0 0 0 9", "K")], &["files 1", "0 5 1 -"]);
    assert_eq!((sent.entry().blocks[0], &sent.client(0).copies), (9, &Copies::default()));
}

/// "11 not open in the mode needed (a read needs either)": at the client.
#[test]
fn a_client_that_is_not_open_at_its_own_end_gets_11() {
    let refused = [("RD 0 0 0", "N 11"), ("WR 0 0 0 9", "N 11"), ("CR 0 0", "N 11"), ("CW 0 0", "N 11")];
    apart(CLOSED, WRITER).plays(&refused, &["files 1", "0 5 1 -"]);
    let reads = [("WR 0 0 0 9", "N 11"), ("CW 0 0", "N 11"), ("RD 0 0 0", "V 5")];
    apart(READER, WRITER).plays(&reads, &["files 1", "0 5 1 -"]);
}

/// "11 not open in the mode needed (a read needs either)": permission opens nothing.
#[test]
fn permission_at_a_closed_client_serves_nothing() {
    let permitted = apart(Record { may_cache: true, ..CLOSED }, CLOSED).copy(0, 1, block_0(7, true, true));
    permitted.plays(&[("RD 0 0 0", "N 11"), ("WR 0 0 0 9", "N 11")], &["files 0"]);
}

/// "13 the block isn't dirty there": a flush looks at nothing else.
#[test]
fn a_flush_goes_by_the_clients_block() {
    let made = apart(CLOSED, CLOSED).copy(0, 0, block_0(7, true, true));
    let flushed = made.plays(&[("FL 1 0 0", "N 13"), ("FL 0 0 0", "K"), ("FL 0 0 0", "N 13")], &["files 0"]);
    assert_eq!((flushed.entry().blocks[0], &flushed.client(0).copies), (7, &block_0(7, true, false)));
}

/// "Calls .. go by the server's" record; the client's own calls nobody.
#[test]
fn calls_go_by_the_servers_record() {
    apart(CLOSED, READER).plays(&[("OW 1 0", "W 0:2"), ("AN 0 0", "A 0 1 2 1 0")], &["files 1", "0 6 2 -"]);
    apart(CLOSED, WRITER).plays(&[("OR 1 0", "W 0:3")], &["files 1", "0 5 1 -"]);
    apart(WRITER, CLOSED).plays(&[("OW 1 0", "G 2 1 1")], &["files 1", "0 5 2 -"]);
    apart(WRITER, READER).plays(&[("OR 1 0", "G 1 0 1")], &["files 1", "0 4 1 -"]);
    // WRITE_SHARED: "each other open one that may cache".
    let shared = apart(uncached(READER), READER).at_both_ends(1, uncached(READER));
    shared.plays(&[("OR 2 0", "W 0:2")], &["files 1", "0 6 1 -"]);
    let shared = apart(READER, uncached(READER)).at_both_ends(1, uncached(READER));
    shared.plays(&[("OR 2 0", "G 1 0 0")], &["files 1", "0 6 1 -"]);
}

/// "CLOSED_DIRTY ..: last writer", of which the table tells; a flag alone calls nobody.
#[test]
fn the_last_writer_is_the_servers() {
    HandMade::fresh().flagged(0).plays(&[("OR 1 0", "G 1 0 1")], &["files 1", "0 2 1 -"]);
    let answered = HandMade::fresh()
        .last_writer(0)
        .plays(&[("OR 1 0", "W 0:1"), ("AN 0 0", "A 0 1 1 0 1")], &["files 1", "0 2 1 -"]);
    assert_eq!(answered.entry().last_writer, ClientField::NONE);
}

/// "A station already open that opens for read, or that has writers and opens for either, causes no call and keeps its
/// permission": open at the server.
#[test]
fn an_open_keeps_permission_by_the_servers_record() {
    let another = |at_client, at_server| apart(at_client, at_server).at_both_ends(1, READER);
    another(CLOSED, WRITER).plays(&[("OW 0 0", "G 2 1 1")], &["files 1", "0 4 2 -"]);
    another(WRITER, CLOSED).plays(&[("OW 0 0", "W 1:2")], &["files 1", "0 2 1 -"]);
    another(WRITER, READER).plays(&[("OW 0 0", "W 1:2")], &["files 1", "0 4 1 -"]);
}

/// DECISIONS: a kept grant tells "the server's [permission], and the client takes it". "The label becomes the latest.
/// Without permission the copy is dropped, label 0."
#[test]
fn a_kept_grant_tells_the_servers_permission() {
    let kept = apart(uncached(READER), READER).copy(0, 1, block_0(7, true, false));
    let permitted = kept.plays(&[("OR 0 0", "G 1 0 1"), ("RD 0 0 0", "V 7")], &["files 1", "0 2 1 -"]);
    assert!(permitted.client(0).record.may_cache);
    assert_eq!(permitted.client(0).cached_version, 1);

    let kept = apart(READER, uncached(READER)).copy(0, 1, block_0(7, true, true));
    let denied = kept.plays(&[("OR 0 0", "G 1 0 0"), ("RD 0 0 0", "V 5")], &["files 1", "0 6 1 -"]);
    assert!(!denied.client(0).record.may_cache);
    assert_eq!((denied.client(0).cached_version, &denied.client(0).copies), (0, &Copies::default()));
}

/// "The opener may cache unless some other station is open with writers ..": open at the server.
#[test]
fn permission_goes_by_the_servers_records() {
    let unknown_writer = HandMade::fresh().at_client(1, WRITER);
    unknown_writer.plays(&[("OR 0 0", "G 1 0 1")], &["files 1", "0 2 1 -"]);
    let forgotten_writer = HandMade::fresh().at_server(1, uncached(WRITER));
    forgotten_writer.plays(&[("OR 0 0", "G 1 0 0")], &["files 1", "0 6 1 -"]);
}

/// "The count of that mode rises by 1", at each end: where they differed they go on differing.
#[test]
fn a_grant_raises_each_count() {
    let granted = apart(CLOSED, READER).plays(&[("OR 0 0", "G 1 0 1")], &["files 1", "0 2 1 -"]);
    assert_eq!((granted.client(0).record.readers, granted.entry().records[0].readers), (1, 2));
}

/// "2 drops the copy, label 0, permission gone": at both ends, whichever had it.
#[test]
fn an_invalidation_takes_permission_at_both_ends() {
    for (at_client, at_server) in [(READER, uncached(READER)), (uncached(READER), READER), (READER, READER)] {
        let made = apart(at_client, at_server).wait(2, Mode::Write, &[(0, 2)]);
        let answered = made.plays(&[("AN 0 0", "A 0 2 2 1 0")], &["files 1", "0 6 2 -"]);
        assert_eq!((answered.client(0).record, answered.entry().records[0]), (uncached(READER), uncached(READER)));
    }
}

/// "A station gives counts, permissions and marks for all files; the table takes them", whatever stood there.
#[test]
fn a_report_gives_the_clients_record() {
    let made = apart(WRITER, uncached(READER)).at_server(1, READER).recovering(ClientSet::NONE);
    let reported = made.plays(&[("RP 0", "K")], &["files 1", "0 4 1 -"]);
    assert_eq!((reported.entry().records[0], reported.entry().records[1]), (WRITER, READER));
}
