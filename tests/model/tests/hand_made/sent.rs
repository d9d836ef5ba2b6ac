//! How many blocks an answer tells. "For kinds 1 and 3 it equals the dirty blocks of that file there just before the
//! reply; an invalidation alone gives 0" (document 02, Wish 5).

use model::{Copies, Document01, Mode, Outcome, Step};

use crate::made::{HandMade, READER, WRITER, block_0};

/// Client 0 with these blocks dirty and all held, called by client 2 with this kind, and no other client called.
fn called(dirty: &[usize], kind: u8) -> HandMade {
    let mut copies = Copies { held: [true; 8], ..Copies::default() };
    dirty.iter().for_each(|&block| copies.dirty[block] = true);
    HandMade::fresh().copy(0, 1, copies).wait(2, Mode::Read, &[(0, kind)])
}

/// What client 0's answer tells.
fn sent(made: &HandMade) -> usize {
    match made.clone().service.take::<Document01>(&Step::Reply { client: 0, file: 0 }) {
        Outcome::Replied { sent, .. } => sent,
        outcome => panic!("{outcome:?}"),
    }
}

/// Every set of dirty blocks, with every number of blocks: those past the settings are not there.
#[test]
fn an_answer_tells_the_dirty_blocks_in_force() {
    for set in 0..256_u32 {
        let dirty: Vec<usize> = (0..8).filter(|block| set >> block & 1 == 1).collect();
        for blocks in 1..=8 {
            let in_force = dirty.iter().filter(|&&block| block < blocks).count();
            let told = [1, 2, 3].map(|kind| sent(&called(&dirty, kind).settings(8, 32, blocks as u64)));
            assert_eq!(told, [in_force, 0, in_force], "{dirty:?} {blocks}");
        }
        let not_given = dirty.iter().filter(|&&block| block < 4).count();
        assert_eq!(sent(&called(&dirty, 1).settings(8, 32, 9)), not_given);
    }
}

/// "Of that file there": dirty blocks of other clients and of other files are not told.
#[test]
fn an_answer_tells_its_own_blocks_alone() {
    let mut made = called(&[1], 1).copy(2, 1, block_0(7, true, true)).copy(5, 1, block_0(7, true, true));
    made.service.clients[0].files[1].copies = block_0(7, true, true);
    assert_eq!(sent(&made), 1);
}

/// "Directly after A, before any grant": with and without one, whoever is still called.
#[test]
fn the_number_comes_before_any_grant() {
    let granted = called(&[0, 2], 3);
    granted.plays(&[("AN 0 0", "A 2 2 1 0 1")], &["files 1", "0 2 1 -"]);
    for (kind, said) in [(1, "A 3"), (2, "A 0"), (3, "A 3")] {
        let made = called(&[0, 1, 3], kind).wait(2, Mode::Read, &[(0, kind), (1, 1)]);
        made.plays(&[("AN 0 0", said), ("AN 1 0", "A 0 2 1 0 1")], &["files 1", "0 2 1 -"]);
    }
}

/// Neither the records, the flag and the last writer nor the cached version are asked.
#[test]
fn an_answer_tells_blocks_whatever_else_stands() {
    for record in [READER, WRITER] {
        assert_eq!(sent(&called(&[3], 1).at_both_ends(0, record).flagged(0).last_writer(0)), 1);
        assert_eq!(sent(&called(&[3], 3).at_client(0, record).last_writer(5)), 1);
    }
}

/// "A call already out is still replied to" (Wish 4), then with no block.
#[test]
fn an_answer_after_the_last_flush_tells_0() {
    let flushed = called(&[0], 1).takes(Step::Flush { client: 0, file: 0, block: 0 });
    flushed.plays(&[("AN 0 0", "A 0 2 1 0 1")], &["files 1", "0 2 1 -"]);
}
