//! Faults of callback replies, at either end.

use model::{BLOCKS, Callbacks, ClientFile, Copies, Entry, Kind, Sizes};

use crate::fault::rule_faults;

rule_faults! {
    write_back_sends_first_dirty_block_only {
        fn answer_at_client(sizes: Sizes, file: &mut ClientFile, kind: Kind, server: &mut [u64; BLOCKS]) {
            if let (true, Some(first)) = (kind.writes_back(), file.copies.dirty.iter().position(|&dirty| dirty)) {
                file.flush(first, server);
                file.copies.dirty = [false; BLOCKS];
            }
            file.answer(sizes, kind, server);
        }
    }
    write_back_sends_nothing {
        fn answer_at_client(sizes: Sizes, file: &mut ClientFile, kind: Kind, server: &mut [u64; BLOCKS]) {
            file.copies.dirty = [false; BLOCKS];
            file.answer(sizes, kind, server);
        }
    }
    write_back_leaves_blocks_dirty {
        fn answer_at_client(sizes: Sizes, file: &mut ClientFile, kind: Kind, server: &mut [u64; BLOCKS]) {
            let dirty = file.copies.dirty;
            file.answer(sizes, kind, server);
            if kind == Kind::WriteBack {
                file.copies.dirty = dirty;
            }
        }
    }
    write_back_drops_the_copy {
        fn answer_at_client(sizes: Sizes, file: &mut ClientFile, kind: Kind, server: &mut [u64; BLOCKS]) {
            file.answer(sizes, kind, server);
            file.copies = Copies::default();
        }
    }
    write_back_keeps_the_flag {
        fn answer_at_client(sizes: Sizes, file: &mut ClientFile, kind: Kind, server: &mut [u64; BLOCKS]) {
            let flag = file.last_writer_flag;
            file.answer(sizes, kind, server);
            file.last_writer_flag = flag;
        }
    }
    write_back_keeps_the_last_writer {
        fn answer_at_server(entry: &mut Entry, client: usize, kind: Kind) {
            let last_writer = entry.last_writer;
            entry.callback_answered(client, kind);
            entry.last_writer = last_writer;
        }
    }
    invalidation_keeps_the_copy {
        fn answer_at_client(sizes: Sizes, file: &mut ClientFile, kind: Kind, server: &mut [u64; BLOCKS]) {
            let before = file.clone();
            file.answer(sizes, kind, server);
            if kind == Kind::Invalidate {
                file.copies = before.copies;
                file.cached_version = before.cached_version;
            }
        }
    }
    invalidation_keeps_permission_at_the_client {
        fn answer_at_client(sizes: Sizes, file: &mut ClientFile, kind: Kind, server: &mut [u64; BLOCKS]) {
            let may_cache = file.record.may_cache;
            file.answer(sizes, kind, server);
            file.record.may_cache = may_cache;
        }
    }
    invalidation_keeps_permission_at_the_server {
        fn answer_at_server(entry: &mut Entry, client: usize, kind: Kind) {
            let may_cache = entry.records[client].may_cache;
            entry.callback_answered(client, kind);
            entry.records[client].may_cache = may_cache;
        }
    }
    copy_dropped_before_it_is_sent {
        fn answer_at_client(sizes: Sizes, file: &mut ClientFile, kind: Kind, server: &mut [u64; BLOCKS]) {
            if kind == Kind::Both {
                file.answer(sizes, Kind::Invalidate, server);
            }
            file.answer(sizes, kind, server);
        }
    }
    /// A trap of document 01: recovery then differs.
    table_changes_only_with_the_last_reply {
        fn answer_at_server(entry: &mut Entry, client: usize, kind: Kind) {
            let before = entry.records;
            entry.callback_answered(client, kind);
            let sizes = Sizes::LARGEST;
            let Some(waiting) = entry.waiting.read(sizes) else { return };
            if !waiting.callbacks.is_empty() {
                entry.records = before;
            } else if kind.invalidates() {
                for other in entry.open_clients(sizes).without(waiting.opener).members() {
                    entry.records[other].may_cache = false;
                }
            }
        }
    }
    open_granted_with_the_first_reply {
        fn answer_at_server(entry: &mut Entry, client: usize, kind: Kind) {
            entry.callback_answered(client, kind);
            entry.waiting.callbacks = Callbacks::NONE;
        }
    }
}
