//! Copies that no steps leave: dirty but not held, labelled 0 but held, dirty where nothing may be cached.

use model::{Copies, Mode};

use crate::made::{HandMade, READER, WRITER, block_0, uncached};

/// Client 0 with block 0 dirty but not held, its value 7; the server's is 5.
fn dirty_not_held() -> HandMade {
    HandMade::fresh().block(5).copy(0, 1, block_0(7, false, true))
}

/// DECISIONS, "Dirty but not held": "A flush and a write-back send it". "One dirty block goes to the server and is
/// clean."
#[test]
fn a_flush_sends_a_dirty_block_that_is_not_held() {
    let flushed = dirty_not_held().plays(&[("FL 0 0 0", "K"), ("FL 0 0 0", "N 13")], &["files 0"]);
    assert_eq!((flushed.entry().blocks[0], &flushed.client(0).copies), (7, &block_0(7, false, false)));
}

/// "1 sends every dirty block, each then clean and still held": held or not as it was.
#[test]
fn a_write_back_sends_a_dirty_block_that_is_not_held() {
    let answered = |kind, said| {
        let made = dirty_not_held().wait(2, Mode::Read, &[(0, kind)]);
        let made = made.plays(&[("AN 0 0", said)], &["files 1", "0 2 1 -"]);
        (made.entry().blocks[0], made.client(0).cached_version, made.client(0).copies.clone())
    };
    assert_eq!(answered(1, "A 1 2 1 0 1"), (7, 1, block_0(7, false, false)));
    assert_eq!(answered(3, "A 1 2 1 0 1"), (7, 0, Copies::default()));
    // "2 drops the copy": what is dirty is lost, and "an invalidation alone gives 0" (Wish 5).
    assert_eq!(answered(2, "A 0 2 1 0 1"), (5, 0, Copies::default()));
}

/// DECISIONS: "a read fetches over it and holds it, and it stays dirty". A flush then sends the fetched value.
#[test]
fn a_read_fetches_over_a_dirty_block_that_is_not_held() {
    let made = dirty_not_held().at_both_ends(0, READER);
    let read = made.plays(&[("RD 0 0 0", "V 5"), ("FL 0 0 0", "K")], &["files 1", "0 2 1 -"]);
    assert_eq!((read.entry().blocks[0], &read.client(0).copies), (5, &block_0(5, true, false)));
}

/// "Without permission the server's block is given and not held": the copy is left alone.
#[test]
fn an_uncached_read_leaves_a_dirty_block_alone() {
    for held in [false, true] {
        let copies = block_0(7, held, true);
        let made = HandMade::fresh().block(5).at_both_ends(0, uncached(READER)).copy(0, 1, copies.clone());
        let read = made.plays(&[("RD 0 0 0", "V 5")], &["files 1", "0 6 1 -"]);
        assert_eq!(read.client(0).copies, copies);
    }
}

/// "A read [needs the server] unless the station is open, may cache and holds the block"; a write does not look at it.
#[test]
fn in_recovery_a_dirty_block_that_is_not_held_needs_the_server() {
    let made = dirty_not_held().at_both_ends(0, WRITER);
    let written = [("XX", "K"), ("RD 0 0 0", "N 5"), ("WR 0 0 0 9", "K"), ("RD 0 0 0", "V 9")];
    assert_eq!(made.plays(&written, &["files 0"]).client(0).copies, block_0(9, true, true));
}

/// "With permission the copy is written, held and dirty; without, the server's block": a dirty copy there stays, and a
/// flush sends it over what was written.
#[test]
fn an_uncached_write_leaves_a_dirty_copy_alone() {
    let made = dirty_not_held().at_both_ends(0, uncached(WRITER));
    let written = made.plays(&[("WR 0 0 0 9", "K"), ("RD 0 0 0", "V 9")], &["files 1", "0 6 1 -"]);
    assert_eq!(written.client(0).copies, block_0(7, false, true));
    written.plays(&[("FL 0 0 0", "K"), ("RD 0 0 0", "V 7")], &["files 1", "0 6 1 -"]);
}

/// "The copy is kept when its label equals the latest version": all of it, dirty blocks and values not held included.
/// "Otherwise its blocks are dropped."
#[test]
fn a_grant_keeps_or_drops_what_is_not_held_as_well() {
    let opened = dirty_not_held().plays(&[("OR 0 0", "G 1 0 1")], &["files 1", "0 2 1 -"]);
    assert_eq!(opened.client(0).copies, block_0(7, false, true));
    let opened = dirty_not_held().version(3).plays(&[("OR 0 0", "G 3 2 1")], &["files 1", "0 2 3 -"]);
    assert_eq!(opened.client(0).copies, Copies::default());
}

/// "A label: the version of its copy, 0 for no copy": no version equals it, at either open.
#[test]
fn blocks_held_under_label_0_are_dropped_at_a_grant() {
    let made = HandMade::fresh().copy(0, 0, block_0(7, true, true));
    for (line, said, summary) in [("OR 0 0", "G 1 0 1", "0 2 1 -"), ("OW 0 0", "G 2 1 1", "0 5 2 -")] {
        let opened = made.clone().plays(&[(line, said)], &["files 1", summary]);
        assert_eq!(opened.client(0).copies, Copies::default());
    }
}

/// "The copy is kept when its label equals the latest version, or for a write open the previous one": no older one and no
/// later one, and "a version of 0 [reads] as 1".
#[test]
fn the_copy_check_goes_by_the_version_as_it_reads() {
    for (stored, version) in [(0, 1), (1, 1), (4, 4)] {
        let kept = |line, grant: String, summary: String| {
            let made = HandMade::fresh().version(stored);
            made.versions_kept(&[0, 1, 2, 3, 4, 5, 6], &[(line, &grant)], &["files 1", &summary])
        };
        let (previous, next) = (version - 1, version + 1);
        let read = kept("OR 0 0", format!("G {version} {previous} 1"), format!("0 2 {version} -"));
        assert_eq!(read, [version]);
        let written = kept("OW 0 0", format!("G {next} {version} 1"), format!("0 5 {next} -"));
        assert_eq!(written, [version, next]);
    }
}
