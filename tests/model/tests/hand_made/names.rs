//! State names and permission on tables that no steps lead to.

use model::{Mode, Record, State};

use crate::made::{HandMade, READER, WRITER, uncached};

fn table(records: &[(usize, Record)]) -> HandMade {
    records.iter().fold(HandMade::fresh(), |made, &(client, record)| made.at_server(client, record))
}

/// "Names, first that fits."
#[test]
fn names_first_that_fits() {
    let named = |records: &[(usize, Record)], last_writer| table(records).last_writer(last_writer).state();
    assert_eq!(named(&[], 255), State::Closed);
    assert_eq!(named(&[], 7), State::ClosedDirty);
    assert_eq!(named(&[(0, uncached(READER))], 255), State::WriteShared);
    assert_eq!(named(&[(0, WRITER), (1, uncached(READER))], 0), State::WriteShared);
    assert_eq!(named(&[(0, WRITER)], 0), State::OneWriter);
    assert_eq!(named(&[(0, READER)], 0), State::OneRdrDirty);
    assert_eq!(named(&[(0, READER)], 1), State::OneReader);
    assert_eq!(named(&[(0, READER), (1, READER)], 0), State::MultReaders);
    assert_eq!(named(&[(0, WRITER), (1, WRITER)], 255), State::MultReaders);
}

/// "6 WRITE_SHARED: some open station may not cache": permission at a client that is not open names nothing.
#[test]
fn permission_of_a_closed_client_names_no_state() {
    let closed_with_permission = Record { may_cache: true, ..Record::default() };
    assert_eq!(table(&[(0, closed_with_permission)]).state(), State::Closed);
    assert_eq!(table(&[(0, closed_with_permission), (1, READER)]).state(), State::OneReader);
}

/// "0 CLOSED .. 1 CLOSED_DIRTY .. 6 WRITE_SHARED .. 5 ONE_WRITER .. 3 ONE_RDRDIRTY .. 2 ONE_READER .. 4 MULT_READERS"
#[test]
fn codes_are_those_of_the_document() {
    let states = [
        State::Closed,
        State::ClosedDirty,
        State::OneReader,
        State::OneRdrDirty,
        State::MultReaders,
        State::OneWriter,
        State::WriteShared,
    ];
    assert_eq!(states.map(State::code), [0, 1, 2, 3, 4, 5, 6]);
}

/// "The opener may cache unless some other station is open with writers .."
#[test]
fn another_writer_shuts_caching_out() {
    let shared = table(&[(1, WRITER)]);
    assert!(!shared.permission_at_grant(0, Mode::Read));
    assert!(shared.permission_at_grant(1, Mode::Read));
}

/// ".. or this is a write open with some other station open .."
#[test]
fn another_open_client_shuts_caching_out_for_write() {
    let shared = table(&[(1, READER)]);
    assert!(shared.permission_at_grant(0, Mode::Read));
    assert!(!shared.permission_at_grant(0, Mode::Write));
}

/// ".. or some station open before the grant, the opener included, may not cache."
#[test]
fn a_missing_permission_shuts_caching_out() {
    assert!(!table(&[(1, uncached(READER))]).permission_at_grant(0, Mode::Read));
    assert!(!table(&[(0, uncached(READER))]).permission_at_grant(0, Mode::Write));
    assert!(table(&[(0, READER)]).permission_at_grant(0, Mode::Write));
}

/// "CLOSED_DIRTY, ONE_RDRDIRTY: last writer": a last writer is called in no other state.
#[test]
fn a_last_writer_beside_other_opens_is_not_called() {
    let shared = table(&[(0, READER), (1, READER)]).last_writer(0);
    shared.clone().plays(&[("OR 2 0", "G 1 0 1")], &["files 1", "0 4 1 0"]);
    shared.plays(&[("OW 2 0", "W 0:2 1:2")], &["files 1", "0 4 1 0"]);
    table(&[(1, READER)]).last_writer(0).plays(&[("OW 2 0", "W 1:2")], &["files 1", "0 2 1 0"]);
    table(&[(1, WRITER)]).last_writer(0).plays(&[("OR 2 0", "W 1:3")], &["files 1", "0 5 1 0"]);
}

/// "MULT_READERS: otherwise": two writers that may both cache have no name of their own, and are called as readers.
#[test]
fn two_caching_writers_are_called_as_readers() {
    let writers = table(&[(0, WRITER), (1, WRITER)]);
    writers.clone().plays(&[("OR 2 0", "G 1 0 0")], &["files 1", "0 6 1 -"]);
    writers.plays(&[("OW 2 0", "W 0:2 1:2")], &["files 1", "0 4 1 -"]);
}
