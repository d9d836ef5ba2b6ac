//! The hand-written explained files, and what the model's explainer tells in states that no step file reaches.

mod beside;

use model::explain::{explained, explained_from};
use model::{Callbacks, ClientField, Mode, Record, Service, Settings, VersionField, WaitingOpen};

use beside::{check, inputs};

#[test]
fn every_explained_file_is_met() {
    let vectors = inputs("tests/explained");
    vectors.iter().for_each(|path| check(path, "out", explained, explained_from));
    assert!(vectors.len() > 70);
}

#[test]
fn every_example_is_met() {
    let examples = inputs("examples");
    examples.iter().for_each(|path| check(path, "explained", explained, explained_from));
    assert_eq!(examples.len(), 5);
}

/// What is said of a service that no steps lead to.
fn said_from(service: Service, input: &str) -> String {
    String::from_utf8(explained_from(service, false, input.as_bytes())).expect("the output is ASCII")
}

#[test]
fn the_last_version_is_told() {
    let mut service = Service::fresh();
    service.server.entries[3].version = VersionField(u32::MAX);
    let expected = "1 N 14    version 4294967295 is the last, and no write open of file 3 can raise it\n\
                    2 G 4294967295 4294967294 1    station 5 has file 3 open for read at version 4294967295 and may \
                    cache; it had no copy\n\
                    the server runs\n\
                    places: 512; used: 0; reserved: 0; reserved by stations: none; free: 512\n\
                    file 3 is ONE_READER at version 4294967295; last writer: none\n  \
                    station 5: read opens 1, write opens 0, may cache; blocks held: none; dirty: none\n\
                    refused with 14: 1\n\
                    end of the picture\n";
    assert_eq!(said_from(service, "OW 5 3\nOR 5 3\n"), expected);
}

/// A version of 0 reads as 1, a last writer that is not there as none, and an open that waits for nobody is told so.
#[test]
fn fields_are_told_as_they_read() {
    let mut service = Service::fresh();
    service.server.entries[0].version = VersionField(0);
    service.server.entries[1].version = VersionField(7);
    service.server.entries[1].last_writer = ClientField(8);
    let open = WaitingOpen { opener: 4, mode: Mode::Write, callbacks: Callbacks::NONE };
    service.server.entries[1].waiting = open.into();
    let expected = "1 N 9    station 4 waits to open file 1 for write since line 0; stations still to answer: none\n\
                    the server runs\n\
                    places: 512; used: 0; reserved: 0; reserved by stations: none; free: 512\n\
                    file 1 is CLOSED at version 7; last writer: none\n  \
                    station 4 waits to open file 1 for write since line 0; stations still to answer: none\n\
                    refused with 9: 1\n\
                    end of the picture\n";
    assert_eq!(said_from(service, "OR 0 1\n"), expected);
}

/// A recovery of three clients, four files and one block, in which each client says this of these files.
fn recovery(says: &[(usize, usize, Record, bool)]) -> Service {
    let mut service = Service::fresh_of(Settings { clients: 3, files: 4, blocks: 1, store: 512 });
    service.server.recovering = true;
    for &(client, file, record, flag) in says {
        let own = &mut service.clients[client].files[file];
        (own.record, own.last_writer_flag) = (record, flag);
    }
    service
}

/// 22 alone: the first file on which the report cannot be true, and what the client has there.
#[test]
fn a_report_that_cannot_be_true_is_told() {
    let permitted = Record { readers: 0, writers: 0, may_cache: true };
    let uncached = Record { readers: 2, writers: 0, may_cache: false };
    let writer = Record { readers: 1, writers: 255, may_cache: true };
    let service =
        recovery(&[(0, 3, permitted, false), (1, 1, uncached, true), (1, 3, permitted, false), (2, 2, writer, true)]);
    let expected = "1 N 22    the report on file 3 cannot be true: station 0 has readers 0, writers 0, may cache, no mark\n\
                    2 N 22    the report on file 1 cannot be true: station 1 has readers 2, writers 0, may not cache, a \
                    mark\n\
                    3 N 22    the report on file 2 cannot be true: station 2 has readers 1, writers 255, may cache, a mark\n\
                    4 N 8    the recovery cannot end; stations still to report: 0 1 2\n\
                    the server recovers; stations still to report: 0 1 2\n\
                    places: 512; used: 0; reserved: 0; reserved by stations: none; free: 512\n\
                    file 1 is CLOSED at version 1; last writer: none\n  \
                    station 1: read opens 2, write opens 0, may not cache; blocks held: none; dirty: none\n\
                    file 2 is CLOSED at version 1; last writer: none\n  \
                    station 2: read opens 1, write opens 255, may cache; blocks held: none; dirty: none\n\
                    refused with 8: 1\n\
                    refused with 22: 3\n\
                    end of the picture\n";
    assert_eq!(said_from(service, "RP 0\nRP 1\nRP 2\nEN\n"), expected);
}

/// 22 with another: the first file, and there the first client, by what the server has accepted of it.
#[test]
fn reports_that_cannot_both_be_true_are_told() {
    let reader = Record { readers: 1, writers: 0, may_cache: true };
    let writer = Record { readers: 0, writers: 1, may_cache: true };
    let closed = Record::default();
    let mut service =
        recovery(&[(0, 1, reader, false), (1, 1, reader, false), (2, 1, writer, false), (2, 3, closed, true)]);
    let told = "1 K    station 1 reports what it has open\n\
                2 K    station 0 reports what it has open\n\
                3 N 22    the reports on file 1 cannot both be true: station 2 has readers 0, writers 1, may cache, no mark; \
                station 0 has readers 1, writers 0, may cache, no mark\n";
    let said = said_from(service.clone(), "RP 1\nRP 0\nRP 2\n");
    assert!(said.starts_with(told), "{said}");
    assert!(said.ends_with("refused with 22: 1\nend of the picture\n"), "{said}");
    // A mark that was accepted, of a client that says nothing any more.
    service.server.entries[3].last_writer = ClientField(2);
    service.server.reported = service.server.reported.with(2);
    service.clients[2].files[3].last_writer_flag = false;
    service.clients[0].files[3].record = Record { may_cache: false, ..reader };
    let told = "1 N 22    the reports on file 3 cannot both be true: station 0 has readers 1, writers 0, may not cache, no \
                mark; station 2 has readers 0, writers 0, may not cache, a mark\n\
                2 K    station 2 restarts; files it had open: 1; writes lost: none\n\
                3 K    station 0 reports what it has open\n";
    let said = said_from(service, "RP 0\nBT 2\nRP 0\n");
    assert!(said.starts_with(told), "{said}");
}
