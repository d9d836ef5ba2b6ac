//! Faults of the restart (document 02, Wish 8).

use model::{
    Admission, BLOCKS, ClientField, ClientFile, Entry, Kind, Record, Refusal, Server, Service, Settings, Sizes,
    WaitingOpen,
};

use crate::fault::rule_faults;

/// The restart at the server as it is, then the entry changed with what it was before.
fn restart_keeping(
    sizes: Sizes,
    server: &mut Server,
    file: usize,
    client: usize,
    keep: impl Fn(&mut Entry, &Entry),
) -> Option<WaitingOpen> {
    let before = server.entries[file].clone();
    let due = server.entries[file].restart(sizes, client);
    keep(&mut server.entries[file], &before);
    due
}

rule_faults! {
    // What the client loses.
    restart_keeps_a_dirty_copy {
        fn restart_at_client(sizes: Sizes, file: &mut ClientFile, _server: &mut [u64; BLOCKS]) {
            let (copies, label) = (file.copies.clone(), file.cached_version);
            file.restart(sizes);
            if copies.any_dirty(sizes) {
                (file.copies, file.cached_version) = (copies, label);
            }
        }
    }
    restart_keeps_dirty_blocks_without_a_label {
        fn restart_at_client(sizes: Sizes, file: &mut ClientFile, _server: &mut [u64; BLOCKS]) {
            let copies = file.copies.clone();
            file.restart(sizes);
            if copies.any_dirty(sizes) {
                file.copies = copies;
            }
        }
    }
    restart_keeps_a_clean_copy {
        fn restart_at_client(sizes: Sizes, file: &mut ClientFile, _server: &mut [u64; BLOCKS]) {
            let (mut copies, label) = (file.copies.clone(), file.cached_version);
            file.restart(sizes);
            copies.held.iter_mut().zip(&copies.dirty).for_each(|(held, &dirty)| *held &= !dirty);
            copies.dirty = [false; BLOCKS];
            (file.copies, file.cached_version) = (copies, label);
        }
    }
    restart_keeps_the_clients_counts {
        fn restart_at_client(sizes: Sizes, file: &mut ClientFile, _server: &mut [u64; BLOCKS]) {
            let Record { readers, writers, .. } = file.record;
            file.restart(sizes);
            file.record = Record { readers, writers, may_cache: false };
        }
    }
    restart_keeps_the_flag {
        fn restart_at_client(sizes: Sizes, file: &mut ClientFile, _server: &mut [u64; BLOCKS]) {
            let flag = file.last_writer_flag;
            file.restart(sizes);
            file.last_writer_flag = flag;
        }
    }
    restart_drops_four_blocks_only {
        fn restart_at_client(sizes: Sizes, file: &mut ClientFile, _server: &mut [u64; BLOCKS]) {
            let (copies, four) = (file.copies.clone(), Settings::NOT_GIVEN.blocks as usize);
            file.restart(sizes);
            file.copies.dirty[four..].copy_from_slice(&copies.dirty[four..]);
            file.copies.held[four..].copy_from_slice(&copies.held[four..]);
        }
    }
    restart_sends_the_dirty_blocks {
        fn restart_at_client(sizes: Sizes, file: &mut ClientFile, server: &mut [u64; BLOCKS]) {
            file.answer(sizes, Kind::WriteBack, server);
            file.restart(sizes);
        }
    }
    restart_loses_a_flushed_write {
        fn restart_at_client(sizes: Sizes, file: &mut ClientFile, server: &mut [u64; BLOCKS]) {
            for block in 0..sizes.blocks {
                if file.copies.held[block] && !file.copies.dirty[block] {
                    server[block] = 0;
                }
            }
            file.restart(sizes);
        }
    }
    restart_brings_the_block_under_a_lost_write_to_0 {
        fn restart_at_client(sizes: Sizes, file: &mut ClientFile, server: &mut [u64; BLOCKS]) {
            for block in 0..sizes.blocks {
                if file.copies.dirty[block] {
                    server[block] = 0;
                }
            }
            file.restart(sizes);
        }
    }

    // What the server forgets.
    restart_leaves_the_record {
        fn restart_at_server(sizes: Sizes, server: &mut Server, file: usize, client: usize) -> Option<WaitingOpen> {
            restart_keeping(sizes, server, file, client, |entry, before| entry.records[client] = before.records[client])
        }
    }
    restart_leaves_a_reader {
        fn restart_at_server(sizes: Sizes, server: &mut Server, file: usize, client: usize) -> Option<WaitingOpen> {
            restart_keeping(sizes, server, file, client, |entry, before| {
                if before.records[client].writers == 0 {
                    entry.records[client] = before.records[client];
                }
            })
        }
    }
    restart_leaves_the_last_writer {
        fn restart_at_server(sizes: Sizes, server: &mut Server, file: usize, client: usize) -> Option<WaitingOpen> {
            restart_keeping(sizes, server, file, client, |entry, before| {
                if before.last_writer == ClientField::of(client) {
                    entry.last_writer = before.last_writer;
                }
            })
        }
    }
    restart_clears_the_last_writer_whoever_it_is {
        fn restart_at_server(sizes: Sizes, server: &mut Server, file: usize, client: usize) -> Option<WaitingOpen> {
            restart_keeping(sizes, server, file, client, |entry, _| entry.last_writer = ClientField::NONE)
        }
    }
    restart_leaves_its_own_wait {
        fn restart_at_server(sizes: Sizes, server: &mut Server, file: usize, client: usize) -> Option<WaitingOpen> {
            restart_keeping(sizes, server, file, client, |entry, before| {
                if before.waiting.opener == ClientField::of(client) {
                    entry.waiting = before.waiting;
                }
            })
        }
    }
    /// The calls of its own wait can still be answered.
    restart_leaves_the_calls_of_its_wait {
        fn restart_at_server(sizes: Sizes, server: &mut Server, file: usize, client: usize) -> Option<WaitingOpen> {
            restart_keeping(sizes, server, file, client, |entry, before| {
                if before.waiting.opener == ClientField::of(client) {
                    entry.waiting.callbacks = before.waiting.callbacks;
                }
            })
        }
        fn may_reply(service: &Service, client: u64, file: u64) -> Result<Kind, Refusal> {
            match service.may_reply(client, file) {
                Err(Refusal::NoCallback) => {
                    let stored = service.server.entries[file as usize].waiting.callbacks.kind(client as usize);
                    stored.ok_or(Refusal::NoCallback)
                }
                answer => answer,
            }
        }
    }
    restart_takes_the_waits_of_others {
        fn restart_at_server(sizes: Sizes, server: &mut Server, file: usize, client: usize) -> Option<WaitingOpen> {
            let entry = &mut server.entries[file];
            let called = entry.callback(sizes, client).is_some();
            entry.forget(sizes, client);
            if called {
                entry.end_wait(sizes);
            }
            None
        }
    }
    restart_reaches_32_files_only {
        fn restart_at_server(sizes: Sizes, server: &mut Server, file: usize, client: usize) -> Option<WaitingOpen> {
            let there = file < Settings::NOT_GIVEN.files as usize;
            if there { server.entries[file].restart(sizes, client) } else { None }
        }
    }
    restart_reaches_the_first_file_only {
        fn restart_at_server(sizes: Sizes, server: &mut Server, file: usize, client: usize) -> Option<WaitingOpen> {
            if file == 0 { server.entries[file].restart(sizes, client) } else { None }
        }
    }

    // A call on it, and the grants.
    restart_leaves_its_call {
        fn restart_at_server(sizes: Sizes, server: &mut Server, file: usize, client: usize) -> Option<WaitingOpen> {
            server.entries[file].forget(sizes, client);
            None
        }
    }
    restart_takes_its_call_and_grants_nothing {
        fn restart_at_server(sizes: Sizes, server: &mut Server, file: usize, client: usize) -> Option<WaitingOpen> {
            server.entries[file].restart(sizes, client);
            None
        }
    }
    restart_grants_with_calls_still_out {
        fn restart_at_server(sizes: Sizes, server: &mut Server, file: usize, client: usize) -> Option<WaitingOpen> {
            let entry = &mut server.entries[file];
            entry.forget(sizes, client);
            if entry.count_as_answered(sizes, client) { entry.waiting.read(sizes) } else { None }
        }
    }
    restart_grants_waits_that_it_has_no_call_of {
        fn restart_at_server(sizes: Sizes, server: &mut Server, file: usize, client: usize) -> Option<WaitingOpen> {
            let entry = &mut server.entries[file];
            entry.forget(sizes, client);
            entry.count_as_answered(sizes, client);
            entry.waiting.read(sizes)
        }
    }
    /// The opener is judged with the record of the client that restarts.
    restart_grants_before_it_forgets {
        fn restart_at_server(sizes: Sizes, server: &mut Server, file: usize, client: usize) -> Option<WaitingOpen> {
            let entry = &mut server.entries[file];
            let record = entry.records[client];
            let due = entry.restart(sizes, client);
            if due.is_some() {
                entry.records[client] = Record { may_cache: false, ..record };
            }
            due
        }
    }
    restart_answers_the_call_of_kind_3_as_kind_1 {
        fn restart_at_server(sizes: Sizes, server: &mut Server, file: usize, client: usize) -> Option<WaitingOpen> {
            restart_keeping(sizes, server, file, client, |entry, before| {
                if before.callback(sizes, client) == Some(Kind::Both) {
                    entry.records[client].may_cache = before.records[client].may_cache;
                    entry.records[client].readers = before.records[client].readers;
                }
            })
        }
    }

    // Recovery, and the test.
    restart_is_no_report {
        fn restart_reports(_server: &mut Server, _client: usize) {}
    }
    restart_takes_its_report_back {
        fn restart_reports(server: &mut Server, client: usize) {
            server.reported = server.reported.without(client);
        }
    }
    restart_does_not_supersede_its_report {
        fn restart_at_server(sizes: Sizes, server: &mut Server, file: usize, client: usize) -> Option<WaitingOpen> {
            if server.recovering && server.reported.contains(client) {
                return None;
            }
            server.entries[file].restart(sizes, client)
        }
    }
    restart_ignored_in_recovery {
        fn restart_at_server(sizes: Sizes, server: &mut Server, file: usize, client: usize) -> Option<WaitingOpen> {
            if server.recovering { None } else { server.entries[file].restart(sizes, client) }
        }
    }
    restart_refused_in_recovery {
        fn may_restart(service: &Service, client: u64) -> Admission {
            service.may_restart(client)?;
            if service.server.recovering { Err(Refusal::Recovering) } else { Ok(()) }
        }
    }
    restart_refused_after_its_report {
        fn may_restart(service: &Service, client: u64) -> Admission {
            service.may_restart(client)?;
            let reported = service.server.recovering && service.server.reported.contains(client as usize);
            if reported { Err(Refusal::AlreadyReported) } else { Ok(()) }
        }
    }
    restart_refused_to_a_client_with_nothing_open {
        fn may_restart(service: &Service, client: u64) -> Admission {
            service.may_restart(client)?;
            let open = service.clients[client as usize].files.iter().any(|file| file.record.is_open());
            if open { Ok(()) } else { Err(Refusal::NotOpen) }
        }
    }
    restart_of_a_client_that_is_not_there_is_done {
        fn may_restart(service: &Service, client: u64) -> Admission {
            if client < 8 { Ok(()) } else { service.may_restart(client) }
        }
    }
    /// A report shows it: it gets 22.
    restart_keeps_permission {
        fn restart_at_client(sizes: Sizes, file: &mut ClientFile, _server: &mut [u64; BLOCKS]) {
            let may_cache = file.record.may_cache;
            file.restart(sizes);
            file.record.may_cache = may_cache;
        }
    }
}
