//! Closes where the two ends differ. "Close in a mode lowers that count by 1. .. A final close takes its permission
//! away; its copy stays." "A close of the last writer count with permission sets mark and last writer if a block is
//! dirty, else clears both" (document 02, Wish 4).

use model::{ClientField, Copies, Mode, Record, Step};

use crate::made::{CLOSED, HandMade, READER, WRITER, block_0, uncached};

const TWO_WRITERS: Record = Record { writers: 2, ..WRITER };
const READER_AND_WRITER: Record = Record { readers: 1, ..WRITER };

const CLOSE_FOR_WRITE: Step = Step::Close { mode: Mode::Write, client: 0, file: 0 };

/// Client 0 with these records at its own end and at the server's.
fn ends(at_client: Record, at_server: Record) -> HandMade {
    HandMade::fresh().at_client(0, at_client).at_server(0, at_server)
}

/// Client 0's end, with block 0 dirty.
fn dirty(made: HandMade) -> HandMade {
    made.copy(0, 1, block_0(7, true, true))
}

/// Client 0's flag and the server's last writer.
fn marks(made: &HandMade) -> (bool, ClientField) {
    (made.client(0).last_writer_flag, made.entry().last_writer)
}

/// Records of the client and of the server, and which of the two ends closes a last writer count with permission.
const CLOSES: [(Record, Record, bool, bool); 8] = [
    (WRITER, WRITER, true, true),
    (READER_AND_WRITER, READER_AND_WRITER, true, true),
    (WRITER, TWO_WRITERS, true, false),
    (TWO_WRITERS, WRITER, false, true),
    (WRITER, uncached(WRITER), true, false),
    (uncached(WRITER), WRITER, false, true),
    (WRITER, READER, true, false),
    (WRITER, CLOSED, true, false),
];

/// "Sets mark and last writer if a block is dirty": each end by its own record, and whether a block is dirty is the
/// client's to say at both.
#[test]
fn a_dirty_close_sets_each_mark_by_its_own_record() {
    for (at_client, at_server, client_sets, server_sets) in CLOSES {
        let closed = dirty(ends(at_client, at_server)).takes(CLOSE_FOR_WRITE);
        let last_writer = if server_sets { ClientField(0) } else { ClientField::NONE };
        assert_eq!(marks(&closed), (client_sets, last_writer), "{at_client:?} {at_server:?}");
    }
}

/// "Else clears both": each end by its own record, and whoever the last writer is.
#[test]
fn a_clean_close_clears_each_mark_by_its_own_record() {
    for (at_client, at_server, client_clears, server_clears) in CLOSES {
        for last_writer in [0, 5, 8, 255].map(ClientField) {
            let made = ends(at_client, at_server).flagged(0).last_writer(last_writer.0);
            let closed = made.copy(0, 1, block_0(7, true, false)).takes(CLOSE_FOR_WRITE);
            let left = if server_clears { ClientField::NONE } else { last_writer };
            assert_eq!(marks(&closed), (!client_clears, left), "{at_client:?} {at_server:?}");
        }
    }
}

/// A block that is dirty but not held is dirty; one that is held is not dirty for that.
#[test]
fn a_close_goes_by_dirty_and_not_by_held() {
    for (held, dirty) in [(false, false), (false, true), (true, false), (true, true)] {
        let made = HandMade::fresh().at_both_ends(0, WRITER).copy(0, 1, block_0(7, held, dirty));
        let last_writer = if dirty { ClientField(0) } else { ClientField::NONE };
        assert_eq!(marks(&made.takes(CLOSE_FOR_WRITE)), (dirty, last_writer));
    }
}

/// A dirty block of this file at this client: not of another client, nor of another file.
#[test]
fn a_close_goes_by_its_own_client_and_file() {
    let mut made = HandMade::fresh().at_both_ends(0, WRITER).copy(1, 1, block_0(7, true, true));
    made.service.clients[0].files[1].copies = block_0(7, true, true);
    assert_eq!(marks(&made.takes(CLOSE_FOR_WRITE)), (false, ClientField::NONE));
}

/// "What lies past [the settings] isn't there" (Wish 7): a dirty block there is none.
#[test]
fn a_dirty_block_past_the_settings_leaves_nothing_behind() {
    let past = |blocks: usize| {
        let mut copies = Copies::default();
        copies.dirty[blocks..].fill(true);
        HandMade::fresh().at_both_ends(0, WRITER).flagged(0).last_writer(0).copy(0, 1, copies)
    };
    for blocks in 1..8 {
        let closed = past(blocks).settings(8, 32, blocks as u64).takes(CLOSE_FOR_WRITE);
        assert_eq!(marks(&closed), (false, ClientField::NONE), "{blocks}");
        let closed = past(blocks).settings(8, 32, blocks as u64 + 1).takes(CLOSE_FOR_WRITE);
        assert_eq!(marks(&closed), (true, ClientField(0)), "{blocks}");
    }
}

/// A close for read, and one of several write opens, neither set nor clear.
#[test]
fn other_closes_leave_both_marks() {
    let marked = |record| HandMade::fresh().at_both_ends(0, record).flagged(0).last_writer(0);
    for (record, mode) in [(READER, Mode::Read), (READER_AND_WRITER, Mode::Read), (TWO_WRITERS, Mode::Write)] {
        let close = Step::Close { mode, client: 0, file: 0 };
        assert_eq!(marks(&marked(record).takes(close)), (true, ClientField(0)));
        let unmarked = dirty(HandMade::fresh().at_both_ends(0, record));
        assert_eq!(marks(&unmarked.takes(close)), (false, ClientField::NONE));
    }
}

/// "A final close takes its permission away": final at an end when nothing is left open there.
#[test]
fn each_end_loses_permission_by_its_own_record() {
    let left = |mode, at_client, at_server| {
        let made = ends(at_client, at_server).takes(Step::Close { mode, client: 0, file: 0 });
        (made.client(0).record, made.entry().records[0])
    };
    assert_eq!(left(Mode::Read, READER, READER_AND_WRITER), (CLOSED, WRITER));
    assert_eq!(left(Mode::Read, READER_AND_WRITER, READER), (WRITER, CLOSED));
    assert_eq!(left(Mode::Write, WRITER, READER), (CLOSED, READER));
    assert_eq!(left(Mode::Read, READER, WRITER), (CLOSED, WRITER));
}

/// "A count of 0 stays 0", and the close is final there all the same: nothing is left open.
#[test]
fn a_close_at_a_closed_end_takes_its_permission_away() {
    let closed_with_permission = Record { may_cache: true, ..CLOSED };
    for (mode, at_client) in [(Mode::Read, READER), (Mode::Write, WRITER)] {
        let made = dirty(ends(at_client, closed_with_permission)).takes(Step::Close { mode, client: 0, file: 0 });
        assert_eq!(made.entry().records[0], CLOSED);
        assert_eq!(made.entry().last_writer, ClientField::NONE);
    }
}

/// It sets the last writer, whoever was; the other's flag is its own.
#[test]
fn a_close_takes_the_place_of_another_last_writer() {
    let made = dirty(HandMade::fresh().at_both_ends(0, WRITER)).last_writer(5).flagged(5);
    let closed = made.plays(&[("CW 0 0", "K")], &["files 1", "0 1 1 0"]);
    assert!(closed.client(0).last_writer_flag && closed.client(5).last_writer_flag);
}

/// "Its copy stays", with its label and its dirty blocks.
#[test]
fn a_final_close_leaves_the_copy() {
    let made = HandMade::fresh().at_both_ends(0, READER).copy(0, 9, block_0(7, true, true));
    let closed = made.plays(&[("CR 0 0", "K")], &["files 0"]);
    assert_eq!((closed.client(0).cached_version, &closed.client(0).copies), (9, &block_0(7, true, true)));
}
