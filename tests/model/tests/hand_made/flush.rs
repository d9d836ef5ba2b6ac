//! Flushes of the last dirty block. "The flush of the last dirty block clears the mark and, if the station is last
//! writer, that. A call already out is still replied to" (document 02, Wish 4).

use model::{ClientField, Copies, Mode, Step};

use crate::made::{HandMade, READER, WRITER, block_0};

const FLUSH: Step = Step::Flush { client: 0, file: 0, block: 0 };

/// Client 0 with these blocks dirty, its flag set; the last writer as stored.
fn marked(blocks: &[usize], last_writer: u8) -> HandMade {
    let mut copies = Copies::default();
    blocks.iter().for_each(|&block| (copies.held[block], copies.dirty[block]) = (true, true));
    HandMade::fresh().flagged(0).last_writer(last_writer).copy(0, 1, copies)
}

/// Client 0's flag and the server's last writer.
fn marks(made: &HandMade) -> (bool, ClientField) {
    (made.client(0).last_writer_flag, made.entry().last_writer)
}

#[test]
fn the_last_dirty_block_clears_both_and_one_of_two_neither() {
    assert_eq!(marks(&marked(&[0], 0).takes(FLUSH)), (false, ClientField::NONE));
    for other in [1, 2, 3] {
        assert_eq!(marks(&marked(&[0, other], 0).takes(FLUSH)), (true, ClientField(0)));
    }
}

/// "If the station is last writer": another stays, and so does a field that reads as none.
#[test]
fn another_last_writer_stays() {
    for last_writer in [1, 7, 8, 255] {
        assert_eq!(marks(&marked(&[0], last_writer).takes(FLUSH)), (false, ClientField(last_writer)));
    }
}

/// The flush clears whatever the records say, at each end what stands there: the flag alone, or the last writer alone.
#[test]
fn a_flush_goes_by_the_block_alone() {
    for record in [READER, WRITER] {
        let flushed = marked(&[0], 0).at_both_ends(0, record).takes(FLUSH);
        assert_eq!(marks(&flushed), (false, ClientField::NONE));
        assert_eq!((flushed.entry().records[0], flushed.client(0).record), (record, record));
    }
    let unflagged = HandMade::fresh().last_writer(0).copy(0, 1, block_0(7, true, true));
    assert_eq!(marks(&unflagged.takes(FLUSH)), (false, ClientField::NONE));
}

/// The flags of other clients, and this client's flag of another file, are not touched.
#[test]
fn a_flush_clears_its_own_flag_alone() {
    let mut made = marked(&[0], 0).flagged(1).copy(1, 1, block_0(7, true, true));
    made.service.clients[0].files[1].last_writer_flag = true;
    let flushed = made.takes(FLUSH);
    assert!(flushed.client(1).last_writer_flag && flushed.service.clients[0].files[1].last_writer_flag);
    assert_eq!(marks(&flushed), (false, ClientField::NONE));
}

/// "What lies past [the settings] isn't there" (Wish 7).
#[test]
fn a_dirty_block_past_the_settings_is_not_left() {
    for blocks in 1..8 {
        let flushed = |setting| marked(&[0, blocks], 0).settings(8, 32, setting as u64).takes(FLUSH);
        assert_eq!(marks(&flushed(blocks)), (false, ClientField::NONE), "{blocks}");
        assert_eq!(marks(&flushed(blocks + 1)), (true, ClientField(0)), "{blocks}");
    }
}

/// "A call already out is still replied to", whatever its kind and whoever waits.
#[test]
fn a_callback_stays_out_when_its_reason_is_gone() {
    for kind in [1, 2, 3] {
        let flushed = marked(&[0], 0).wait(2, Mode::Read, &[(0, kind)]).takes(FLUSH);
        assert_eq!((marks(&flushed), flushed.entry().waiting.callbacks.0[0]), ((false, ClientField::NONE), kind));
        flushed.plays(&[("OR 1 0", "N 9"), ("AN 0 0", "A 0 2 1 0 1")], &["files 1", "0 2 1 -"]);
    }
}
