//! Faults of what a close and a flush leave behind (document 02, Wish 4).

use model::{ClientField, ClientFile, Entry, Kind, Mode, Refusal, Service, Settings};

use crate::fault::rule_faults;

/// The dirty flags of a client's blocks of a file, those past the settings left out.
fn dirty_blocks(service: &Service, client: usize, file: usize) -> &[bool] {
    &service.clients[client].files[file].copies.dirty[..service.sizes().blocks]
}

/// Whether a client has a dirty block of any file.
fn dirty_anywhere(service: &Service, client: usize) -> bool {
    (0..service.sizes().files).any(|file| service.any_dirty(client, file))
}

/// Whether one of the first four blocks is dirty.
fn dirty_of_four(service: &Service, client: usize, file: usize) -> bool {
    dirty_blocks(service, client, file).iter().take(Settings::NOT_GIVEN.blocks as usize).any(|&dirty| dirty)
}

rule_faults! {
    /// Document 01's rule, before Wish 4.
    clean_close_sets_flag_and_last_writer {
        fn dirty_at_close(_service: &Service, _client: usize, _file: usize) -> bool {
            true
        }
    }
    clean_close_sets_the_flag {
        fn close_at_client(file: &mut ClientFile, mode: Mode, _dirty: bool) {
            file.close(mode, true);
        }
    }
    clean_close_sets_the_last_writer {
        fn close_at_server(entry: &mut Entry, client: usize, mode: Mode, _dirty: bool) {
            entry.close(client, mode, true);
        }
    }
    close_counts_held_blocks {
        fn dirty_at_close(service: &Service, client: usize, file: usize) -> bool {
            service.clients[client].files[file].copies.held.contains(&true)
        }
    }
    close_asks_for_every_block_dirty {
        fn dirty_at_close(service: &Service, client: usize, file: usize) -> bool {
            !dirty_blocks(service, client, file).contains(&false)
        }
    }
    close_looks_at_the_first_block_alone {
        fn dirty_at_close(service: &Service, client: usize, file: usize) -> bool {
            dirty_blocks(service, client, file)[0]
        }
    }
    close_looks_at_four_blocks_only {
        fn dirty_at_close(service: &Service, client: usize, file: usize) -> bool {
            dirty_of_four(service, client, file)
        }
    }
    close_counts_dirty_blocks_of_other_files {
        fn dirty_at_close(service: &Service, client: usize, _file: usize) -> bool {
            dirty_anywhere(service, client)
        }
    }

    /// Document 01's rule, before Wish 4.
    last_flush_keeps_flag_and_last_writer {
        fn dirty_after_flush(_service: &Service, _client: usize, _file: usize) -> bool {
            true
        }
    }
    last_flush_keeps_the_flag {
        fn flushed_at_client(_file: &mut ClientFile, _dirty: bool) {}
    }
    last_flush_keeps_the_last_writer {
        fn flushed_at_server(_entry: &mut Entry, _client: usize, _dirty: bool) {}
    }
    flush_of_one_of_two_clears_both {
        fn dirty_after_flush(_service: &Service, _client: usize, _file: usize) -> bool {
            false
        }
    }
    flush_of_one_of_two_clears_the_flag {
        fn flushed_at_client(file: &mut ClientFile, _dirty: bool) {
            file.flushed(false);
        }
    }
    flush_of_one_of_two_clears_the_last_writer {
        fn flushed_at_server(entry: &mut Entry, client: usize, _dirty: bool) {
            entry.flushed(client, false);
        }
    }
    last_flush_by_an_open_client_clears_nothing {
        fn flushed_at_server(entry: &mut Entry, client: usize, dirty: bool) {
            entry.flushed(client, dirty || entry.records[client].is_open());
        }
        fn flushed_at_client(file: &mut ClientFile, dirty: bool) {
            file.flushed(dirty || file.record.is_open());
        }
    }
    flush_looks_at_the_first_block_alone {
        fn dirty_after_flush(service: &Service, client: usize, file: usize) -> bool {
            dirty_blocks(service, client, file)[0]
        }
    }
    flush_looks_at_four_blocks_only {
        fn dirty_after_flush(service: &Service, client: usize, file: usize) -> bool {
            dirty_of_four(service, client, file)
        }
    }
    flush_counts_dirty_blocks_of_other_files {
        fn dirty_after_flush(service: &Service, client: usize, _file: usize) -> bool {
            dirty_anywhere(service, client)
        }
    }
    last_flush_takes_the_callback_back {
        fn flushed_at_server(entry: &mut Entry, client: usize, dirty: bool) {
            entry.flushed(client, dirty);
            if !dirty {
                entry.waiting.callbacks = entry.waiting.callbacks.without(client);
            }
        }
    }
    last_flush_makes_an_invalidation_of_the_callback {
        fn flushed_at_server(entry: &mut Entry, client: usize, dirty: bool) {
            entry.flushed(client, dirty);
            let kind = &mut entry.waiting.callbacks.0[client];
            if !dirty && Kind::numbered(*kind) == Some(Kind::Both) {
                *kind = Kind::Invalidate as u8;
            }
        }
    }
    answer_refused_once_its_reason_is_gone {
        fn may_reply(service: &Service, client: u64, file: u64) -> Result<Kind, Refusal> {
            let kind = service.may_reply(client, file)?;
            let last_writer = service.server.entries[file as usize].last_writer;
            if kind == Kind::WriteBack && last_writer != ClientField::of(client as usize) {
                return Err(Refusal::NoCallback);
            }
            Ok(kind)
        }
    }
    /// Another client has a dirty block of the file only under embargo.
    close_counts_dirty_blocks_of_other_clients {
        fn dirty_at_close(service: &Service, _client: usize, file: usize) -> bool {
            (0..service.sizes().clients).any(|client| service.any_dirty(client, file))
        }
    }
}
