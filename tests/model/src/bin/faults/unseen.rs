//! Faults that no step file can show, each with the reason. They are tried like the others, and must not be found.

use model::{
    BLOCKS, Callbacks, ClientField, ClientFile, Entry, FILES, Grant, Kind, Mode, Record, Server, Service, Sizes,
    WaitingOpen,
};

use crate::fault::rule_faults;

rule_faults! {
    invalidation_keeps_the_cached_version(
        "the blocks are gone, so that keeping the copy at the next grant and dropping it are the same"
    ) {
        fn answer_at_client(sizes: Sizes, file: &mut ClientFile, kind: Kind, server: &mut [u64; BLOCKS]) {
            let cached_version = file.cached_version;
            file.answer(sizes, kind, server);
            file.cached_version = cached_version;
        }
    }
    copy_kept_without_permission(
        "reads go to the server while permission is missing, and cached version 0 drops the copy at the next grant"
    ) {
        fn grant_at_client(sizes: Sizes, file: &mut ClientFile, mode: Mode, grant: &Grant) {
            let copies = file.copies.clone();
            file.grant(sizes, mode, grant);
            if !grant.may_cache {
                file.copies = copies;
            }
        }
    }
    uncached_read_is_held(
        "the block is not read while permission is missing, and cached version 0 drops it at the next grant"
    ) {
        fn read(file: &mut ClientFile, block: usize, server: &[u64; BLOCKS]) -> u64 {
            let value = file.read(block, server);
            file.copies.held[block] = true;
            file.copies.values[block] = value;
            value
        }
    }
    clean_close_leaves_flag_and_last_writer("the write open that is closed has cleared both") {
        fn close_at_server(entry: &mut Entry, client: usize, mode: Mode, dirty: bool) {
            let last_writer = entry.last_writer;
            entry.close(client, mode, dirty);
            if !dirty {
                entry.last_writer = last_writer;
            }
        }
        fn close_at_client(file: &mut ClientFile, mode: Mode, dirty: bool) {
            let last_writer_flag = file.last_writer_flag;
            file.close(mode, dirty);
            file.last_writer_flag |= last_writer_flag;
        }
    }
    last_flush_clears_the_last_writer_whoever_it_is(
        "a client with a dirty block is the last writer, or it has writers and there is none"
    ) {
        fn flushed_at_server(entry: &mut Entry, _client: usize, dirty: bool) {
            if !dirty {
                entry.last_writer = ClientField::NONE;
            }
        }
    }
    dirty_blocks_past_the_settings_counted("they are never dirty") {
        fn dirty_at_close(service: &Service, client: usize, file: usize) -> bool {
            service.clients[client].files[file].copies.any_dirty(Sizes::LARGEST)
        }
        fn dirty_after_flush(service: &Service, client: usize, file: usize) -> bool {
            service.clients[client].files[file].copies.any_dirty(Sizes::LARGEST)
        }
    }
    dropped_blocks_not_zeroed("a block that is not held is never given") {
        fn answer_at_client(sizes: Sizes, file: &mut ClientFile, kind: Kind, server: &mut [u64; BLOCKS]) {
            let values = file.copies.values;
            file.answer(sizes, kind, server);
            file.copies.values = values;
        }
    }
    other_writers_ignored_at_grant(
        "a writer that may cache is called and loses permission, so that the missing permission shuts caching out"
    ) {
        fn permission_at_grant(sizes: Sizes, entry: &Entry, opener: usize, mode: Mode) -> bool {
            let mut readers = entry.clone();
            for client in entry.writing_clients(sizes).without(opener).members() {
                readers.records[client] = Record { readers: 1, writers: 0, ..entry.records[client] };
            }
            readers.permission_at_grant(sizes, opener, mode)
        }
    }
    other_opens_ignored_at_write_grant(
        "every other open client that may cache is called and loses permission, which shuts caching out"
    ) {
        fn permission_at_grant(sizes: Sizes, entry: &Entry, opener: usize, mode: Mode) -> bool {
            let kept = entry.records[opener].keeps_permission(mode);
            if kept { entry.permission_at_grant(sizes, opener, mode) } else { entry.permission_judged(sizes, opener, Mode::Read) }
        }
    }
    write_back_clears_only_the_clients_own_last_writer("a client called to write back is the last writer or none is") {
        fn answer_at_server(entry: &mut Entry, client: usize, kind: Kind) {
            let last_writer = entry.last_writer;
            entry.callback_answered(client, kind);
            if last_writer != ClientField::of(client) {
                entry.last_writer = last_writer;
            }
        }
    }
    invalidation_tells_dirty_blocks("no client that is called for an invalidation alone has a dirty block") {
        fn blocks_sent(service: &Service, client: usize, file: usize, _kind: Kind) -> usize {
            service.blocks_to_send(client, file, Kind::WriteBack)
        }
    }
    blocks_told_with_a_grant_only("a client that is asked for its blocks is the only one called") {
        fn blocks_sent(service: &Service, client: usize, file: usize, kind: Kind) -> usize {
            let called = service.server.entries[file].waiting.callbacks;
            if called.without(client).is_empty() { service.blocks_to_send(client, file, kind) } else { 0 }
        }
    }
    blocks_past_the_settings_told("they are never dirty") {
        fn blocks_sent(service: &Service, client: usize, file: usize, kind: Kind) -> usize {
            let copies = &service.clients[client].files[file].copies;
            if kind.writes_back() { copies.count_dirty(Sizes::LARGEST) } else { 0 }
        }
    }
    files_past_the_settings_listed("they stay CLOSED at version 1, and such a file is not listed") {
        fn files_in_summary(_sizes: Sizes) -> usize {
            FILES
        }
    }
    clients_past_the_settings_looked_at("they are never open, and no field names one of them") {
        fn callbacks_due(_sizes: Sizes, entry: &Entry, opener: usize, mode: Mode) -> Callbacks {
            entry.callbacks_due(Sizes::LARGEST, opener, mode)
        }
        fn permission_at_grant(_sizes: Sizes, entry: &Entry, opener: usize, mode: Mode) -> bool {
            entry.permission_at_grant(Sizes::LARGEST, opener, mode)
        }
    }
    blocks_past_the_settings_sent_and_dropped("they are never held or dirty") {
        fn answer_at_client(_sizes: Sizes, file: &mut ClientFile, kind: Kind, server: &mut [u64; BLOCKS]) {
            file.answer(Sizes::LARGEST, kind, server);
        }
        fn grant_at_client(_sizes: Sizes, file: &mut ClientFile, mode: Mode, grant: &Grant) {
            file.grant(Sizes::LARGEST, mode, grant);
        }
    }
    restart_keeps_the_label(
        "the blocks are gone, so that keeping the copy at the next grant and dropping it are the same"
    ) {
        fn restart_at_client(sizes: Sizes, file: &mut ClientFile, _server: &mut [u64; BLOCKS]) {
            let cached_version = file.cached_version;
            file.restart(sizes);
            file.cached_version = cached_version;
        }
    }
    restart_leaves_the_calls_of_its_wait_stored("without an opener no call is out, and the next wait replaces them") {
        fn restart_at_server(sizes: Sizes, server: &mut Server, file: usize, client: usize) -> Option<WaitingOpen> {
            let entry = &mut server.entries[file];
            let before = entry.waiting;
            let due = entry.restart(sizes, client);
            if before.opener == ClientField::of(client) {
                entry.waiting.callbacks = before.callbacks;
            }
            due
        }
    }
    restart_leaves_another_last_writer_at_a_call(
        "a client called to write back is the last writer or none is, and it is forgotten before"
    ) {
        fn restart_at_server(sizes: Sizes, server: &mut Server, file: usize, client: usize) -> Option<WaitingOpen> {
            let entry = &mut server.entries[file];
            let before = entry.last_writer;
            let due = entry.restart(sizes, client);
            if before != ClientField::of(client) {
                entry.last_writer = before;
            }
            due
        }
    }
    restart_reports_while_running("a running server's reports are never looked at, and a crash takes them back") {
        fn restart_reports(server: &mut Server, client: usize) {
            server.reported = server.reported.with(client);
        }
    }
    restart_reaches_past_the_settings("what lies there is as a restart would leave it") {
        fn restart_at_client(_sizes: Sizes, file: &mut ClientFile, _server: &mut [u64; BLOCKS]) {
            file.restart(Sizes::LARGEST);
        }
    }
    lift_keeps_the_label(
        "the blocks are gone, so that keeping the copy at the next grant and dropping it are the same"
    ) {
        fn lift_at_client(sizes: Sizes, file: &mut ClientFile, _server: &mut [u64; BLOCKS]) {
            let cached_version = file.cached_version;
            file.restart(sizes);
            file.cached_version = cached_version;
        }
    }
    lift_reports_while_running("a running server's reports are never looked at, and a crash takes them back") {
        fn lift_reports(server: &mut Server, client: usize) {
            server.reported = server.reported.with(client);
        }
    }
    lift_empties_the_servers_end("the server has nothing of a client under embargo") {
        fn lift_reports(server: &mut Server, client: usize) {
            server.entries.iter_mut().for_each(|entry| entry.records[client] = Record::default());
            server.count_as_reported(client);
        }
    }
    crash_reaches_past_the_settings("what lies there is as a crash would leave it") {
        fn crash(service: &mut Service) {
            service.server.crash(Sizes::LARGEST);
            service.server.free_but_used(service.sizes());
        }
    }
}
