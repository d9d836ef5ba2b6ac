//! Faults of reads, writes and flushes.

use model::{BLOCKS, ClientFile};

use crate::fault::rule_faults;

rule_faults! {
    /// A reviewer's sixth try.
    read_gives_zero {
        fn read(_file: &mut ClientFile, _block: usize, _server: &[u64; BLOCKS]) -> u64 {
            0
        }
    }
    fetched_block_not_held {
        fn read(file: &mut ClientFile, block: usize, server: &[u64; BLOCKS]) -> u64 {
            if file.copies.held[block] { file.read(block, server) } else { server[block] }
        }
    }
    read_always_from_server {
        fn read(_file: &mut ClientFile, block: usize, server: &[u64; BLOCKS]) -> u64 {
            server[block]
        }
    }
    /// A reviewer's seventh try: copies in name only.
    cached_write_sent_at_once {
        fn write(file: &mut ClientFile, block: usize, value: u64, server: &mut [u64; BLOCKS]) {
            file.write(block, value, server);
            if file.copies.dirty[block] {
                file.flush(block, server);
            }
        }
    }
    cached_write_not_dirty {
        fn write(file: &mut ClientFile, block: usize, value: u64, server: &mut [u64; BLOCKS]) {
            file.write(block, value, server);
            file.copies.dirty[block] = false;
        }
    }
    cached_write_not_held {
        fn write(file: &mut ClientFile, block: usize, value: u64, server: &mut [u64; BLOCKS]) {
            let held = file.copies.held[block];
            file.write(block, value, server);
            file.copies.held[block] = held;
        }
    }
    uncached_write_lost {
        fn write(file: &mut ClientFile, block: usize, value: u64, server: &mut [u64; BLOCKS]) {
            if file.record.may_cache {
                file.write(block, value, server);
            }
        }
    }
    uncached_write_kept_as_copy {
        fn write(file: &mut ClientFile, block: usize, value: u64, server: &mut [u64; BLOCKS]) {
            file.write(block, value, server);
            file.copies.values[block] = value;
            file.copies.held[block] = true;
            file.copies.dirty[block] = true;
        }
    }
    flush_leaves_block_dirty {
        fn flush(file: &mut ClientFile, block: usize, server: &mut [u64; BLOCKS]) {
            file.flush(block, server);
            file.copies.dirty[block] = true;
        }
    }
    flush_sends_nothing {
        fn flush(file: &mut ClientFile, block: usize, _server: &mut [u64; BLOCKS]) {
            file.copies.dirty[block] = false;
        }
    }
    flush_sends_every_dirty_block {
        fn flush(file: &mut ClientFile, _block: usize, server: &mut [u64; BLOCKS]) {
            for block in 0..BLOCKS {
                if file.copies.dirty[block] {
                    file.flush(block, server);
                }
            }
        }
    }
    flush_drops_the_block {
        fn flush(file: &mut ClientFile, block: usize, server: &mut [u64; BLOCKS]) {
            file.flush(block, server);
            file.copies.held[block] = false;
        }
    }
}
