//! Places of the store that no steps lead to (document 02, Wish 13).

use model::{ClientSet, Mode, Step};

use crate::made::{HandMade, READER, WRITER, block_0, uncached};

const REPLY: Step = Step::Reply { client: 0, file: 0 };

/// Client 0 has block 0 dirty; of five places two are free.
fn dirty() -> HandMade {
    HandMade::fresh().places(5, 2).copy(0, 1, block_0(7, true, true))
}

fn free_after(made: HandMade, step: Step) -> usize {
    made.takes(step).service.server.free
}

fn write(client: u64, block: u64) -> Step {
    Step::Write { client, file: 0, block, value: 4 }
}

/// "A reserved block that is lost frees its place": dropped by an invalidation, unless it is used or another has it.
#[test]
fn an_invalidation_that_drops_a_dirty_block_frees_its_place() {
    let called = |made: HandMade| made.wait(1, Mode::Read, &[(0, 2)]);
    assert_eq!(free_after(called(dirty()), REPLY), 3);
    assert_eq!(free_after(called(dirty().used()), REPLY), 2);
    let another = dirty().copy(3, 1, block_0(8, true, true));
    assert_eq!(free_after(called(another.clone()), REPLY), 2);
    assert_eq!(free_after(called(another.embargoed(ClientSet::only(3))), REPLY), 3);
}

/// And by a grant that drops the copy.
#[test]
fn a_grant_that_drops_a_dirty_block_frees_its_place() {
    let open = Step::Open { mode: Mode::Read, client: 0, file: 0 };
    assert_eq!(free_after(dirty().version(9), open), 3);
    assert_eq!(free_after(dirty().version(9).used(), open), 2);
    assert_eq!(free_after(dirty(), open), 2);
    let waits = dirty().version(9).wait(0, Mode::Read, &[(1, 2)]);
    assert_eq!(free_after(waits.clone(), Step::Reply { client: 1, file: 0 }), 3);
    assert_eq!(free_after(waits, Step::Restart { client: 1 }), 3);
}

/// "Free places, kept within 0 and the size": more read as the size, and stay as they are until a step counts.
#[test]
fn free_places_above_the_size_read_as_the_size() {
    let made = HandMade::fresh().places(5, 99).at_both_ends(0, WRITER);
    assert_eq!(free_after(made.clone(), write(0, 0)), 4);
    assert_eq!(free_after(made.clone().used(), write(0, 0)), 99);
    assert_eq!(free_after(made, Step::Close { mode: Mode::Write, client: 0, file: 0 }), 99);
    let none = HandMade::fresh().places(0, 99).at_both_ends(0, WRITER);
    none.plays(&[("WR 0 0 0 4", "N 23")], &["files 1", "0 5 1 -"]);
}

/// They pass neither end: a restart with all free, and a report that finds none.
#[test]
fn free_places_stay_within_0_and_the_size() {
    assert_eq!(free_after(dirty().places(5, 5), Step::Restart { client: 0 }), 5);
    assert_eq!(free_after(dirty().places(5, 0).recovering(ClientSet::NONE), Step::Report { client: 0 }), 0);
    assert_eq!(free_after(dirty().places(0, 0).used(), Step::Crash), 0);
    assert_eq!(free_after(dirty().places(3, 0).used(), Step::Crash), 2);
}

/// "Reserved: dirty blocks not used, at stations without embargo": by any of them, and it need not be heard.
#[test]
fn a_block_reserved_by_another_takes_no_place() {
    let made = dirty().places(5, 0).at_both_ends(1, uncached(WRITER));
    made.clone().plays(&[("WR 1 0 0 4", "K"), ("WR 1 0 1 4", "N 23")], &["files 1", "0 6 1 -"]);
    let aside = made.embargoed(ClientSet::only(0));
    aside.plays(&[("WR 1 0 0 4", "N 23")], &["files 1", "0 6 1 -"]);
    let cached = dirty().at_client(1, WRITER).recovering(ClientSet::NONE);
    cached.plays(&[("WR 1 0 0 4", "K"), ("WR 1 0 1 4", "N 5")], &["files 0"]);
}

/// "Last of all": 11 comes before.
#[test]
fn the_place_of_23() {
    let made = HandMade::fresh().places(5, 0).at_both_ends(0, READER);
    made.plays(&[("WR 0 0 0 4", "N 11"), ("OW 0 0", "G 2 1 1"), ("WR 0 0 0 4", "N 23")], &["files 1", "0 5 2 -"]);
}

/// A report counts what is dirty and not used, each block once, whoever else has reported it.
#[test]
fn a_report_takes_a_place_for_each_block_that_it_newly_reserves() {
    let report = Step::Report { client: 0 };
    let recovering = |made: HandMade| made.recovering(ClientSet::NONE);
    assert_eq!(free_after(recovering(dirty()), report), 1);
    assert_eq!(free_after(recovering(dirty().used()), report), 2);
    let another = dirty().copy(3, 1, block_0(8, true, true));
    assert_eq!(free_after(another.clone().recovering(ClientSet::only(3)), report), 2);
    assert_eq!(free_after(recovering(another), report), 1);
}
