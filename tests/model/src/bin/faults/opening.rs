//! Faults of opening: who is called, what a grant gives, which copy is kept.

use model::{
    Callbacks, ClientField, ClientFile, ClientSet, Copies, Entry, Grant, Kind, Mode, Record, Sizes, State, WaitingOpen,
};

use crate::fault::rule_faults;

fn last_writer(sizes: Sizes, entry: &Entry) -> ClientSet {
    entry.last_writer.read(sizes).map_or(ClientSet::NONE, ClientSet::only)
}

/// The right grant, but with the copies that the client had before.
fn grant_keeping_copies(sizes: Sizes, file: &mut ClientFile, mode: Mode, grant: &Grant) {
    let copies = file.copies.clone();
    file.grant(sizes, mode, grant);
    file.copies = copies;
}

rule_faults! {
    /// A copy check that forgets the mode.
    previous_copy_kept_at_read_open {
        fn grant_at_client(sizes: Sizes, file: &mut ClientFile, mode: Mode, grant: &Grant) {
            if grant.may_cache && file.cached_version == grant.previous {
                grant_keeping_copies(sizes, file, mode, grant);
            } else {
                file.grant(sizes, mode, grant);
            }
        }
    }
    previous_copy_dropped_at_write_open {
        fn grant_at_client(sizes: Sizes, file: &mut ClientFile, mode: Mode, grant: &Grant) {
            let previous = file.cached_version == grant.previous;
            file.grant(sizes, mode, grant);
            if previous {
                file.copies = Copies::default();
            }
        }
    }
    copy_kept_whatever_its_version {
        fn grant_at_client(sizes: Sizes, file: &mut ClientFile, mode: Mode, grant: &Grant) {
            if grant.may_cache {
                grant_keeping_copies(sizes, file, mode, grant);
            } else {
                file.grant(sizes, mode, grant);
            }
        }
    }
    latest_copy_dropped_at_open {
        fn grant_at_client(sizes: Sizes, file: &mut ClientFile, mode: Mode, grant: &Grant) {
            file.grant(sizes, mode, grant);
            file.copies = Copies::default();
        }
    }
    cached_version_not_renewed_at_write_open {
        fn grant_at_client(sizes: Sizes, file: &mut ClientFile, mode: Mode, grant: &Grant) {
            file.grant(sizes, mode, grant);
            if mode == Mode::Write && grant.may_cache {
                file.cached_version = grant.previous;
            }
        }
    }
    flag_kept_at_write_open {
        fn grant_at_client(sizes: Sizes, file: &mut ClientFile, mode: Mode, grant: &Grant) {
            let flag = file.last_writer_flag;
            file.grant(sizes, mode, grant);
            file.last_writer_flag = flag;
        }
    }

    last_writer_not_called {
        fn callbacks_due(sizes: Sizes, entry: &Entry, opener: usize, mode: Mode) -> Callbacks {
            match State::of(sizes, entry) {
                State::ClosedDirty | State::OneRdrDirty => Callbacks::NONE,
                _ => entry.callbacks_due(sizes, opener, mode),
            }
        }
    }
    last_writer_not_called_while_it_reads {
        fn callbacks_due(sizes: Sizes, entry: &Entry, opener: usize, mode: Mode) -> Callbacks {
            match State::of(sizes, entry) {
                State::OneRdrDirty => Callbacks::NONE,
                _ => entry.callbacks_due(sizes, opener, mode),
            }
        }
    }
    last_writer_called_for_its_own_open {
        fn callbacks_due(sizes: Sizes, entry: &Entry, opener: usize, mode: Mode) -> Callbacks {
            match State::of(sizes, entry) {
                State::ClosedDirty => Callbacks::to(last_writer(sizes, entry), Kind::WriteBack),
                _ => entry.callbacks_due(sizes, opener, mode),
            }
        }
    }
    last_writer_invalidated_at_read_open {
        fn callbacks_due(sizes: Sizes, entry: &Entry, opener: usize, mode: Mode) -> Callbacks {
            let clients = entry.callbacks_due(sizes, opener, mode).clients();
            match State::of(sizes, entry) {
                State::ClosedDirty | State::OneRdrDirty => Callbacks::to(clients, Kind::Both),
                _ => entry.callbacks_due(sizes, opener, mode),
            }
        }
    }
    last_writer_only_written_back_at_write_open {
        fn callbacks_due(sizes: Sizes, entry: &Entry, opener: usize, mode: Mode) -> Callbacks {
            let clients = entry.callbacks_due(sizes, opener, mode).clients();
            match State::of(sizes, entry) {
                State::ClosedDirty | State::OneRdrDirty => Callbacks::to(clients, Kind::WriteBack),
                _ => entry.callbacks_due(sizes, opener, mode),
            }
        }
    }
    readers_not_called_at_write_open {
        fn callbacks_due(sizes: Sizes, entry: &Entry, opener: usize, mode: Mode) -> Callbacks {
            match State::of(sizes, entry) {
                State::OneReader | State::MultReaders => Callbacks::NONE,
                _ => entry.callbacks_due(sizes, opener, mode),
            }
        }
    }
    only_first_reader_called_at_write_open {
        fn callbacks_due(sizes: Sizes, entry: &Entry, opener: usize, mode: Mode) -> Callbacks {
            let due = entry.callbacks_due(sizes, opener, mode);
            match (State::of(sizes, entry), due.clients().members().next()) {
                (State::MultReaders, Some(first)) => Callbacks::to(ClientSet::only(first), Kind::Invalidate),
                _ => due,
            }
        }
    }
    readers_called_at_read_open {
        fn callbacks_due(sizes: Sizes, entry: &Entry, opener: usize, mode: Mode) -> Callbacks {
            match State::of(sizes, entry) {
                State::OneReader => Callbacks::to(entry.open_clients(sizes).without(opener), Kind::Invalidate),
                _ => entry.callbacks_due(sizes, opener, mode),
            }
        }
    }
    writer_only_written_back_at_read_open {
        fn callbacks_due(sizes: Sizes, entry: &Entry, opener: usize, mode: Mode) -> Callbacks {
            let clients = entry.callbacks_due(sizes, opener, mode).clients();
            match (State::of(sizes, entry), mode) {
                (State::OneWriter, Mode::Read) => Callbacks::to(clients, Kind::WriteBack),
                _ => entry.callbacks_due(sizes, opener, mode),
            }
        }
    }
    writer_only_invalidated {
        fn callbacks_due(sizes: Sizes, entry: &Entry, opener: usize, mode: Mode) -> Callbacks {
            let clients = entry.callbacks_due(sizes, opener, mode).clients();
            match State::of(sizes, entry) {
                State::OneWriter => Callbacks::to(clients, Kind::Invalidate),
                _ => entry.callbacks_due(sizes, opener, mode),
            }
        }
    }
    write_shared_calls_nobody {
        fn callbacks_due(sizes: Sizes, entry: &Entry, opener: usize, mode: Mode) -> Callbacks {
            match State::of(sizes, entry) {
                State::WriteShared => Callbacks::NONE,
                _ => entry.callbacks_due(sizes, opener, mode),
            }
        }
    }
    write_shared_calls_every_other {
        fn callbacks_due(sizes: Sizes, entry: &Entry, opener: usize, mode: Mode) -> Callbacks {
            let others = entry.open_clients(sizes).without(opener);
            match State::of(sizes, entry) {
                State::WriteShared if !entry.records[opener].keeps_permission(mode) => {
                    Callbacks::to(others, Kind::Invalidate)
                }
                _ => entry.callbacks_due(sizes, opener, mode),
            }
        }
    }
    reopening_client_causes_calls {
        fn callbacks_due(sizes: Sizes, entry: &Entry, opener: usize, mode: Mode) -> Callbacks {
            let caching = entry.open_clients(sizes).and(entry.caching_clients(sizes)).without(opener);
            match State::of(sizes, entry) {
                State::WriteShared => Callbacks::to(caching, Kind::Invalidate),
                _ => entry.callbacks_due(sizes, opener, mode),
            }
        }
    }

    /// A reviewer's first try: its reads are right.
    caching_never_permitted {
        fn permission_at_grant(_sizes: Sizes, _entry: &Entry, _opener: usize, _mode: Mode) -> bool {
            false
        }
    }
    /// A reviewer's second try.
    caching_permitted_at_first_only {
        fn permission_at_grant(sizes: Sizes, entry: &Entry, opener: usize, mode: Mode) -> bool {
            entry.version.read() == 1 && entry.permission_at_grant(sizes, opener, mode)
        }
    }
    caching_always_permitted {
        fn permission_at_grant(_sizes: Sizes, _entry: &Entry, _opener: usize, _mode: Mode) -> bool {
            true
        }
    }
    permission_judged_anew_at_reopen {
        fn permission_at_grant(sizes: Sizes, entry: &Entry, opener: usize, mode: Mode) -> bool {
            entry.permission_judged(sizes, opener, mode)
        }
    }
    own_missing_permission_ignored_at_grant {
        fn permission_at_grant(sizes: Sizes, entry: &Entry, opener: usize, mode: Mode) -> bool {
            let mut others = entry.clone();
            if !entry.records[opener].keeps_permission(mode) {
                others.records[opener] = Record::default();
            }
            others.permission_at_grant(sizes, opener, mode)
        }
    }
    missing_permission_of_others_ignored_at_grant {
        fn permission_at_grant(sizes: Sizes, entry: &Entry, opener: usize, mode: Mode) -> bool {
            let mut caching = entry.clone();
            for client in entry.open_clients(sizes).without(opener).members() {
                caching.records[client].may_cache = true;
            }
            caching.permission_at_grant(sizes, opener, mode)
        }
    }

    version_raised_at_request {
        fn wait(sizes: Sizes, entry: &mut Entry, waiting: WaitingOpen) {
            entry.wait(sizes, waiting);
            entry.version.0 += u32::from(waiting.mode == Mode::Write);
        }
        fn grant_at_server(entry: &mut Entry, opener: usize, mode: Mode, may_cache: bool) -> Grant {
            entry.version.0 -= u32::from(entry.waiting.opener != ClientField::NONE && mode == Mode::Write);
            entry.grant(opener, mode, may_cache)
        }
    }
    version_kept_at_repeated_write_open {
        fn grant_at_server(entry: &mut Entry, opener: usize, mode: Mode, may_cache: bool) -> Grant {
            entry.version.0 -= u32::from(entry.records[opener].writers > 0 && mode == Mode::Write);
            entry.grant(opener, mode, may_cache)
        }
    }
    version_raised_at_read_open {
        fn grant_at_server(entry: &mut Entry, opener: usize, mode: Mode, may_cache: bool) -> Grant {
            entry.version.0 += u32::from(mode == Mode::Read);
            entry.grant(opener, mode, may_cache)
        }
    }
    last_writer_kept_at_write_open {
        fn grant_at_server(entry: &mut Entry, opener: usize, mode: Mode, may_cache: bool) -> Grant {
            let last_writer = entry.last_writer;
            let grant = entry.grant(opener, mode, may_cache);
            entry.last_writer = last_writer;
            grant
        }
    }
    write_open_counts_as_read_open_too {
        fn grant_at_server(entry: &mut Entry, opener: usize, mode: Mode, may_cache: bool) -> Grant {
            if mode == Mode::Write {
                entry.records[opener].grant(Mode::Read, may_cache);
            }
            entry.grant(opener, mode, may_cache)
        }
        fn grant_at_client(sizes: Sizes, file: &mut ClientFile, mode: Mode, grant: &Grant) {
            if mode == Mode::Write {
                file.record.grant(Mode::Read, grant.may_cache);
            }
            file.grant(sizes, mode, grant);
        }
    }
    table_changes_at_request {
        fn wait(sizes: Sizes, entry: &mut Entry, waiting: WaitingOpen) {
            entry.wait(sizes, waiting);
            for client in waiting.callbacks.clients().members() {
                entry.records[client].may_cache &= waiting.callbacks.kind(client) == Some(Kind::WriteBack);
            }
        }
    }
}
