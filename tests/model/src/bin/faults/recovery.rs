//! Faults of crash, report and end.

use model::{
    Admission, BLOCKS, Client, ClientField, ClientFile, Entry, Record, Refusal, Server, Service, Sizes, VersionField,
};

use crate::fault::rule_faults;

/// The crash as it is, then each entry changed with what it was before.
fn crash_keeping(service: &mut Service, keep: impl Fn(&mut Entry, &Entry)) {
    let before = service.server.entries.clone();
    service.server.crash(service.sizes());
    for (entry, before) in service.server.entries.iter_mut().zip(&before) {
        keep(entry, before);
    }
}

rule_faults! {
    /// A reviewer's eighth try: the reports have nothing to restore.
    crash_keeps_the_table {
        fn crash(service: &mut Service) {
            crash_keeping(service, |entry, before| {
                entry.records = before.records;
                entry.last_writer = before.last_writer;
            });
        }
    }
    crash_keeps_last_writers {
        fn crash(service: &mut Service) {
            crash_keeping(service, |entry, before| entry.last_writer = before.last_writer);
        }
    }
    crash_keeps_waiting_opens {
        fn crash(service: &mut Service) {
            crash_keeping(service, |entry, before| entry.waiting = before.waiting);
        }
    }
    crash_keeps_reports {
        fn crash(service: &mut Service) {
            let reported = service.server.reported;
            let again = service.server.recovering;
            service.server.crash(service.sizes());
            if again {
                service.server.reported = reported;
            }
        }
    }
    crash_forgets_versions {
        fn crash(service: &mut Service) {
            crash_keeping(service, |entry, _| entry.version = VersionField(1));
        }
    }
    crash_forgets_blocks {
        fn crash(service: &mut Service) {
            crash_keeping(service, |entry, _| entry.blocks = [0; BLOCKS]);
        }
    }
    crash_empties_the_clients {
        fn crash(service: &mut Service) {
            service.server.crash(service.sizes());
            service.clients.fill(Client::fresh());
        }
    }
    crash_drops_clean_copies {
        fn crash(service: &mut Service) {
            service.server.crash(service.sizes());
            for file in service.clients.iter_mut().flat_map(|client| &mut client.files) {
                file.copies.held = file.copies.dirty;
            }
        }
    }
    second_crash_ignored {
        fn crash(service: &mut Service) {
            if !service.server.recovering {
                service.server.crash(service.sizes());
            }
        }
    }
    crash_needs_no_recovery {
        fn crash(service: &mut Service) {
            service.server.crash(service.sizes());
            service.server.recovering = false;
        }
    }
    report_drops_the_flag {
        fn report(entry: &mut Entry, client: usize, file: &ClientFile) {
            entry.report(client, file.record, false);
        }
    }
    report_drops_permission {
        fn report(entry: &mut Entry, client: usize, file: &ClientFile) {
            entry.report(client, Record { may_cache: false, ..file.record }, file.last_writer_flag);
        }
    }
    report_gives_permission_to_every_open_client {
        fn report(entry: &mut Entry, client: usize, file: &ClientFile) {
            let record = Record { may_cache: file.record.is_open(), ..file.record };
            entry.report(client, record, file.last_writer_flag);
        }
    }
    report_counts_one_open_only {
        fn report(entry: &mut Entry, client: usize, file: &ClientFile) {
            let Record { readers, writers, may_cache } = file.record;
            let record = Record { readers: readers.min(1), writers: writers.min(1), may_cache };
            entry.report(client, record, file.last_writer_flag);
        }
    }
    report_without_flag_clears_the_last_writer {
        fn report(entry: &mut Entry, client: usize, file: &ClientFile) {
            entry.last_writer = ClientField::NONE;
            entry.report(client, file.record, file.last_writer_flag);
        }
    }
    /// A client that has writers has no flag, dirty blocks or not.
    report_takes_dirty_blocks_for_the_flag {
        fn report(entry: &mut Entry, client: usize, file: &ClientFile) {
            entry.report(client, file.record, file.copies.dirty.contains(&true));
        }
    }
    end_with_one_report_missing {
        fn may_end(service: &Service) -> Admission {
            match service.may_end() {
                Err(Refusal::ReportsMissing) => {
                    let missing = service.server.reports_missing(service.sizes());
                    if missing.single().is_some() { Ok(()) } else { Err(Refusal::ReportsMissing) }
                }
                answer => answer,
            }
        }
    }
    end_does_not_end {
        fn end(_sizes: Sizes, _server: &mut Server) {}
    }
    end_accepted_without_recovery {
        fn may_end(service: &Service) -> Admission {
            if service.server.recovering { service.may_end() } else { Ok(()) }
        }
    }
    report_accepted_twice {
        fn may_report(service: &Service, client: u64) -> Admission {
            match service.may_report(client) {
                Err(Refusal::AlreadyReported) => Ok(()),
                answer => answer,
            }
        }
    }
}
