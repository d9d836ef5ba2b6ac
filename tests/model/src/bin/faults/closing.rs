//! Faults of closing: who becomes the last writer, and what a close takes away.

use model::{ClientField, ClientFile, Copies, Entry, Mode, Record, Service, Sizes};

use crate::fault::rule_faults;

rule_faults! {
    close_leaves_no_last_writer {
        fn dirty_at_close(_service: &Service, _client: usize, _file: usize) -> bool {
            false
        }
    }
    last_writer_only_at_final_close {
        fn close_at_server(entry: &mut Entry, client: usize, mode: Mode, dirty: bool) {
            let Record { readers, .. } = entry.records[client];
            entry.close(client, mode, dirty && readers == 0);
        }
        fn close_at_client(file: &mut ClientFile, mode: Mode, dirty: bool) {
            file.close(mode, dirty && file.record.readers == 0);
        }
    }
    last_writer_without_permission {
        fn close_at_server(entry: &mut Entry, client: usize, mode: Mode, dirty: bool) {
            let Record { writers, may_cache, .. } = entry.records[client];
            entry.close(client, mode, dirty);
            if mode == Mode::Write && writers == 1 && !may_cache {
                entry.last_writer = ClientField::of(client);
            }
        }
    }
    last_writer_at_any_write_close {
        fn close_at_server(entry: &mut Entry, client: usize, mode: Mode, dirty: bool) {
            let caching = entry.records[client].may_cache;
            entry.close(client, mode, dirty);
            if mode == Mode::Write && caching && dirty {
                entry.last_writer = ClientField::of(client);
            }
        }
    }
    last_writer_at_any_close {
        fn close_at_server(entry: &mut Entry, client: usize, mode: Mode, dirty: bool) {
            entry.close(client, mode, dirty);
            if dirty {
                entry.last_writer = ClientField::of(client);
            }
        }
    }
    flag_not_set_at_close {
        fn close_at_client(file: &mut ClientFile, mode: Mode, _dirty: bool) {
            file.close(mode, false);
        }
    }
    last_writer_not_set_at_close {
        fn close_at_server(entry: &mut Entry, client: usize, mode: Mode, _dirty: bool) {
            entry.close(client, mode, false);
        }
    }
    last_writer_cleared_by_its_read_close {
        fn close_at_server(entry: &mut Entry, client: usize, mode: Mode, dirty: bool) {
            entry.close(client, mode, dirty);
            if mode == Mode::Read && entry.last_writer == ClientField::of(client) {
                entry.last_writer = ClientField::NONE;
            }
        }
    }
    permission_taken_by_any_close {
        fn close_at_server(entry: &mut Entry, client: usize, mode: Mode, dirty: bool) {
            entry.close(client, mode, dirty);
            entry.records[client].may_cache = false;
        }
        fn close_at_client(file: &mut ClientFile, mode: Mode, dirty: bool) {
            file.close(mode, dirty);
            file.record.may_cache = false;
        }
    }
    final_close_drops_the_copy {
        fn close_at_client(file: &mut ClientFile, mode: Mode, dirty: bool) {
            file.close(mode, dirty);
            if !file.record.is_open() {
                file.copies = Copies::default();
            }
        }
    }
    /// A trap of document 01: WRITE_SHARED lasts until the final close.
    one_reader_back_when_write_shared_shrinks {
        fn close_at_server(entry: &mut Entry, client: usize, mode: Mode, dirty: bool) {
            entry.close(client, mode, dirty);
            if let Some(left) = entry.open_clients(Sizes::LARGEST).single() {
                entry.records[left].may_cache = true;
            }
        }
    }
    close_lowers_the_other_count {
        fn close_at_server(entry: &mut Entry, client: usize, mode: Mode, dirty: bool) {
            let other = if mode == Mode::Read { Mode::Write } else { Mode::Read };
            let both = entry.records[client].readers > 0 && entry.records[client].writers > 0;
            entry.close(client, if both { other } else { mode }, dirty);
        }
    }
    /// A report shows it: it gets 22.
    final_close_keeps_permission {
        fn close_at_server(entry: &mut Entry, client: usize, mode: Mode, dirty: bool) {
            let may_cache = entry.records[client].may_cache;
            entry.close(client, mode, dirty);
            entry.records[client].may_cache = may_cache;
        }
        fn close_at_client(file: &mut ClientFile, mode: Mode, dirty: bool) {
            let may_cache = file.record.may_cache;
            file.close(mode, dirty);
            file.record.may_cache = may_cache;
        }
    }
}
