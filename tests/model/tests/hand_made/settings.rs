//! Settings made by hand (document 02, Wish 7): "hand-made ones out of range: each as not given; what lies past them
//! isn't there".

use model::{ClientField, ClientSet, Copies, Mode, Settings, Sizes, State, Step};

use crate::made::{HandMade, READER, WRITER, block_0, uncached};

fn sizes(clients: usize, files: usize, blocks: usize) -> Sizes {
    Sizes { clients, files, blocks, store: 512 }
}

#[test]
fn each_setting_out_of_range_is_as_not_given() {
    let read = |clients, files, blocks| Settings { clients, files, blocks, ..Settings::NOT_GIVEN }.read();
    assert_eq!(read(8, 32, 4), sizes(8, 32, 4));
    assert_eq!(read(1, 1, 1), sizes(1, 1, 1));
    assert_eq!(read(8, 64, 8), sizes(8, 64, 8));
    for out in [0, 65, 255, 256, 257, 1 << 32, u64::MAX] {
        assert_eq!(read(out, 64, 8), sizes(8, 64, 8), "{out}");
        assert_eq!(read(1, out, 8), sizes(1, 32, 8), "{out}");
        assert_eq!(read(1, 64, out), sizes(1, 64, 4), "{out}");
    }
    assert_eq!(read(9, 65, 9), sizes(8, 32, 4));
}

/// "The store has a size of 0 to 512 blocks, a fourth setting, 512 if not given" (Wish 13).
#[test]
fn a_store_out_of_range_is_as_not_given() {
    let read = |store| Settings { store, ..Settings::NOT_GIVEN }.read().store;
    for store in [0, 1, 256, 511, 512] {
        assert_eq!(read(store), store as usize);
    }
    for store in [513, 1024, 1 << 16, (1 << 32) + 1, u64::MAX] {
        assert_eq!(read(store), 512, "{store}");
    }
}

/// "Refusals 2, 3 and 4 .. follow the settings."
#[test]
fn settings_out_of_range_refuse_as_the_usual_sizes_do() {
    let made = HandMade::fresh().settings(0, 65, 9).at_both_ends(7, READER);
    let said =
        [("OR 7 31", "G 1 0 1"), ("OR 8 31", "N 2"), ("OR 7 32", "N 3"), ("RD 7 0 3", "V 0"), ("RD 7 0 4", "N 4")];
    made.plays(&said, &["files 2", "0 2 1 -", "31 2 1 -"]);
}

/// "The station fields read as none": one of as many as there are clients.
#[test]
fn a_last_writer_past_the_clients_is_none() {
    let made = HandMade::fresh().last_writer(3);
    assert_eq!(made.clone().settings(4, 32, 4).state(), State::ClosedDirty);
    let past = made.settings(3, 32, 4);
    assert_eq!(past.state(), State::Closed);
    past.clone().plays(&[], &["files 0"]);
    past.clone().version(5).plays(&[], &["files 1", "0 0 5 -"]);
    let read = past.plays(&[("OR 0 0", "G 1 0 1")], &["files 1", "0 2 1 -"]);
    assert_eq!(read.entry().last_writer, ClientField(3));
}

/// A wait whose client reads as none is no wait.
#[test]
fn a_wait_of_a_client_past_the_clients_is_no_wait() {
    let made = HandMade::fresh().wait(3, Mode::Write, &[(0, 1)]);
    made.clone().settings(4, 32, 4).plays(&[("OR 1 0", "N 9"), ("AN 0 0", "A 0 3 2 1 1")], &["files 1", "0 5 2 -"]);
    made.settings(3, 32, 4).plays(&[("AN 0 0", "N 10"), ("OR 1 0", "G 1 0 1")], &["files 1", "0 2 1 -"]);
}

/// A client past the settings is not open, calls nobody and shuts nobody out.
#[test]
fn a_record_past_the_clients_names_no_state() {
    let made = HandMade::fresh().at_server(3, uncached(WRITER)).settings(3, 32, 4);
    made.clone().plays(&[("OW 0 0", "G 2 1 1")], &["files 1", "0 5 2 -"]);
    made.plays(&[], &["files 0"]);
}

/// The open is granted when the last client in force has replied; the call past it stays as it was stored.
#[test]
fn a_callback_past_the_clients_is_not_waited_for() {
    let made = HandMade::fresh().wait(1, Mode::Read, &[(0, 1), (3, 2)]).settings(3, 32, 4);
    let granted = made.plays(&[("AN 3 0", "N 2"), ("AN 0 0", "A 0 1 1 0 1")], &["files 1", "0 2 1 -"]);
    assert_eq!(granted.entry().waiting.callbacks.0, [0, 0, 0, 2, 0, 0, 0, 0]);
    let waiting = granted.plays(&[("OW 0 0", "W 1:2")], &["files 1", "0 2 1 -"]);
    assert_eq!(waiting.entry().waiting.callbacks.0, [0, 2, 0, 2, 0, 0, 0, 0]);
    let crashed = waiting.takes(Step::Crash);
    assert_eq!(crashed.entry().waiting.callbacks.0, [0, 0, 0, 2, 0, 0, 0, 0]);
}

/// "The eight reports .. follow the settings": those of the clients in force, and no others.
#[test]
fn reports_are_asked_of_the_clients_in_force() {
    let made = HandMade::fresh().settings(2, 32, 4).recovering(ClientSet::only(0).with(5));
    let said = [("EN", "N 8"), ("RP 0", "N 7"), ("RP 1", "K"), ("RP 2", "N 2"), ("EN", "K")];
    let ended = made.plays(&said, &["files 0"]);
    assert_eq!(ended.service.server.reported, ClientSet::only(5));
    let crashed = ended.takes(Step::Crash);
    assert_eq!(crashed.service.server.reported, ClientSet::only(5));
}

/// A crash leaves records past the clients, and files past the files, as they are; so does a report.
#[test]
fn a_crash_reaches_what_is_in_force() {
    let made = HandMade::fresh().settings(2, 1, 4).at_both_ends(1, READER).at_server(2, WRITER);
    let mut made = made.last_writer(0);
    made.service.server.entries[1] = made.entry().clone();
    made.service.clients[1].files[1].record = WRITER;
    let past = made.service.server.entries[1].clone();
    let crashed = made.takes(Step::Crash);
    assert_eq!((crashed.entry().records[1].is_open(), crashed.entry().records[2]), (false, WRITER));
    assert_eq!(crashed.service.server.entries[1], past);
    let reported = crashed.takes(Step::Report { client: 1 });
    assert_eq!((reported.entry().records[1], &reported.service.server.entries[1]), (READER, &past));
    reported.plays(&[], &["files 1", "0 2 1 -"]);
}

/// Blocks past the settings are neither sent nor dropped, with a callback or at a grant.
#[test]
fn blocks_past_the_settings_stay_at_the_client() {
    let every = Copies { values: [7; 8], held: [true; 8], dirty: [true; 8] };
    let made = HandMade::fresh().settings(2, 1, 3).copy(0, 1, every.clone());
    let answered = |kind| made.clone().wait(1, Mode::Read, &[(0, kind)]).takes(Step::Reply { client: 0, file: 0 });
    let [sent, dropped, both] = [1, 2, 3].map(answered);
    let clean = Copies { dirty: [false, false, false, true, true, true, true, true], ..every.clone() };
    assert_eq!((sent.entry().blocks, &sent.client(0).copies), ([7, 7, 7, 0, 0, 0, 0, 0], &clean));
    let past = Copies {
        values: [0, 0, 0, 7, 7, 7, 7, 7],
        held: [false, false, false, true, true, true, true, true],
        dirty: clean.dirty,
    };
    assert_eq!((dropped.entry().blocks, &dropped.client(0).copies), ([0; 8], &past));
    assert_eq!((both.entry().blocks, &both.client(0).copies), (sent.entry().blocks, &past));

    let granted = made.version(5).plays(&[("OR 0 0", "G 5 4 1"), ("RD 0 0 2", "V 0")], &["files 1", "0 2 5 -"]);
    assert_eq!(granted.client(0).copies.values, past.values);
}

/// "For each .. file" that is there: the summary ends with the last file in force.
#[test]
fn the_summary_lists_the_files_in_force() {
    let mut made = HandMade::fresh();
    for file in [0, 2, 31, 32, 63] {
        made.service.server.entries[file].version.0 = 9;
    }
    let listed = |files, summary: &[&str]| {
        made.clone().settings(8, files, 4).plays(&[], summary);
    };
    listed(2, &["files 1", "0 0 9 -"]);
    listed(3, &["files 2", "0 0 9 -", "2 0 9 -"]);
    listed(0, &["files 3", "0 0 9 -", "2 0 9 -", "31 0 9 -"]);
    listed(64, &["files 5", "0 0 9 -", "2 0 9 -", "31 0 9 -", "32 0 9 -", "63 0 9 -"]);
}

/// A line SET makes "the service .. a fresh one of these sizes"; refused, it leaves what there was.
#[test]
fn a_first_line_set_starts_afresh() {
    let made = HandMade::fresh().settings(5, 6, 7).version(9).copy(0, 1, block_0(7, true, true));
    let set = made.clone().plays(&[("SET 1 2 3", "K")], &["files 0"]);
    assert_eq!(set.service, model::Service::fresh_of(Settings { clients: 1, files: 2, blocks: 3, store: 512 }));
    let refused = made.clone().plays(&[("SET 0 2 3", "N 19")], &["files 1", "0 0 9 -"]);
    assert_eq!(refused.service, made.service);
}
