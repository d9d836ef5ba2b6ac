//! Faults of refusal 22, reports that cannot both be true (document 02, Wish 10).

use model::{Admission, Claim, ClientSet, Entry, Refusal, Service, Sizes};

use crate::door::sparing;
use crate::fault::rule_faults;

/// The tests of a report as they are, but this one for that of 22.
fn tested_by(service: &Service, client: u64, clashes: impl FnOnce(usize) -> bool) -> Admission {
    match service.may_report(client) {
        Ok(()) | Err(Refusal::ReportsClash) => {
            if clashes(client as usize) {
                Err(Refusal::ReportsClash)
            } else {
                Ok(())
            }
        }
        answer => answer,
    }
}

/// What the test of 22 goes by, so that one part of it can be wrong.
struct Test {
    files: fn(Sizes) -> std::ops::Range<usize>,
    others: fn(&Service, usize) -> ClientSet,
    accepted: fn(&Service, usize, usize) -> Claim,
    breaks: fn(Claim, Claim) -> bool,
    clashes: fn(fn(Claim, Claim) -> bool, Claim, Claim) -> bool,
    alone: bool,
    silent: bool,
}

fn accepted(service: &Service, file: usize, client: usize) -> Claim {
    Claim::accepted(service.sizes(), &service.server.entries[file], client)
}

fn reported(service: &Service, client: usize) -> ClientSet {
    service.server.reported.and(service.sizes().client_set()).without(client)
}

const RIGHT: Test = Test {
    files: |sizes| 0..sizes.files,
    others: reported,
    accepted,
    breaks: Claim::breaks,
    clashes: |breaks, own, other| breaks(own, other) || breaks(other, own),
    alone: true,
    silent: false,
};

impl Test {
    fn may_report(&self, service: &Service, client: u64) -> Admission {
        tested_by(service, client, |client| {
            (self.files)(service.sizes()).any(|file| {
                let own = Claim::own(&service.clients[client].files[file]);
                let clashes = |other: Claim| (self.clashes)(self.breaks, own, other);
                let with = |other: usize| clashes((self.accepted)(service, file, other));
                (self.silent || !own.says_nothing())
                    && (self.alone && clashes(Claim::NOTHING) || (self.others)(service, client).members().any(with))
            })
        })
    }
}

/// The four conditions, with those dropped that do not count.
fn breaks(counted: [bool; 6], c: Claim, d: Claim) -> bool {
    let (open, writes, caches) = (c.record.is_open(), c.record.writers > 0, c.record.may_cache);
    let conditions = [
        caches && !open,
        c.flagged && writes,
        c.flagged && open && !caches,
        c.flagged && d.record.is_open(),
        c.flagged && d.flagged,
        writes && d.record.may_cache,
    ];
    conditions.into_iter().zip(counted).any(|(holds, counts)| holds && counts)
}

rule_faults! {
    // The conditions, each dropped.
    reports_never_clash {
        fn may_report(service: &Service, client: u64) -> Admission {
            sparing(service.may_report(client), Refusal::ReportsClash, || true)
        }
    }
    permission_of_a_closed_client_reported {
        fn may_report(service: &Service, client: u64) -> Admission {
            Test { breaks: |c, d| breaks([false, true, true, true, true, true], c, d), ..RIGHT }.may_report(service, client)
        }
    }
    flag_of_a_writer_reported {
        fn may_report(service: &Service, client: u64) -> Admission {
            Test { breaks: |c, d| breaks([true, false, true, true, true, true], c, d), ..RIGHT }.may_report(service, client)
        }
    }
    flag_of_an_open_client_without_permission_reported {
        fn may_report(service: &Service, client: u64) -> Admission {
            Test { breaks: |c, d| breaks([true, true, false, true, true, true], c, d), ..RIGHT }.may_report(service, client)
        }
    }
    flag_of_a_client_alone_reported {
        fn may_report(service: &Service, client: u64) -> Admission {
            Test { breaks: |c, d| breaks([true, false, false, true, true, true], c, d), ..RIGHT }.may_report(service, client)
        }
    }
    flag_beside_an_open_client_reported {
        fn may_report(service: &Service, client: u64) -> Admission {
            Test { breaks: |c, d| breaks([true, true, true, false, true, true], c, d), ..RIGHT }.may_report(service, client)
        }
    }
    two_flags_reported {
        fn may_report(service: &Service, client: u64) -> Admission {
            Test { breaks: |c, d| breaks([true, true, true, true, false, true], c, d), ..RIGHT }.may_report(service, client)
        }
    }
    flag_beside_another_reported {
        fn may_report(service: &Service, client: u64) -> Admission {
            Test { breaks: |c, d| breaks([true, true, true, false, false, true], c, d), ..RIGHT }.may_report(service, client)
        }
    }
    writer_beside_a_client_that_may_cache_reported {
        fn may_report(service: &Service, client: u64) -> Admission {
            Test { breaks: |c, d| breaks([true, true, true, true, true, false], c, d), ..RIGHT }.may_report(service, client)
        }
    }

    // The conditions, too many or turned round.
    two_writers_without_permission_clash {
        fn may_report(service: &Service, client: u64) -> Admission {
            let breaks = |c: Claim, d: Claim| c.breaks(d) || c.record.writers > 0 && d.record.writers > 0;
            Test { breaks, ..RIGHT }.may_report(service, client)
        }
    }
    two_readers_clash_if_one_may_not_cache {
        fn may_report(service: &Service, client: u64) -> Admission {
            let unlike = |c: Claim, d: Claim| c.record.may_cache && d.record.is_open() && !d.record.may_cache;
            tested_by(service, client, |client| {
                let own = |file: usize| Claim::own(&service.clients[client].files[file]);
                let unlike = |file: usize, other| unlike(own(file), accepted(service, file, other));
                let with = |file| reported(service, client).members().any(|other| unlike(file, other));
                service.first_clash(client).is_some() || (0..service.sizes().files).any(with)
            })
        }
    }
    flag_of_an_open_client_clashes_alone {
        fn may_report(service: &Service, client: u64) -> Admission {
            let breaks = |c: Claim, d: Claim| c.breaks(d) || c.flagged && c.record.is_open();
            Test { breaks, ..RIGHT }.may_report(service, client)
        }
    }
    only_the_accepted_report_is_broken {
        fn may_report(service: &Service, client: u64) -> Admission {
            Test { clashes: |breaks, own, other| breaks(other, own), ..RIGHT }.may_report(service, client)
        }
    }
    only_the_new_report_is_broken {
        fn may_report(service: &Service, client: u64) -> Admission {
            Test { clashes: |breaks, own, other| breaks(own, other), ..RIGHT }.may_report(service, client)
        }
    }
    first_report_not_tested {
        fn may_report(service: &Service, client: u64) -> Admission {
            Test { alone: false, ..RIGHT }.may_report(service, client)
        }
    }
    silent_client_refused_beside_an_accepted_report {
        fn may_report(service: &Service, client: u64) -> Admission {
            Test { silent: true, ..RIGHT }.may_report(service, client)
        }
    }

    // Against whom.
    clients_that_have_not_reported_looked_at {
        fn may_report(service: &Service, client: u64) -> Admission {
            let others = |service: &Service, client| service.sizes().client_set().without(client);
            let accepted = |service: &Service, file: usize, other: usize| Claim::own(&service.clients[other].files[file]);
            Test { others, accepted, ..RIGHT }.may_report(service, client)
        }
    }
    table_of_clients_that_have_not_reported_looked_at {
        fn may_report(service: &Service, client: u64) -> Admission {
            let others = |service: &Service, client| service.sizes().client_set().without(client);
            Test { others, ..RIGHT }.may_report(service, client)
        }
    }
    reports_past_the_settings_looked_at {
        fn may_report(service: &Service, client: u64) -> Admission {
            Test { others: |service, client| service.server.reported.without(client), ..RIGHT }.may_report(service, client)
        }
    }
    first_client_that_has_reported_looked_at_alone {
        fn may_report(service: &Service, client: u64) -> Admission {
            let first = |service: &Service, client| {
                reported(service, client).members().next().map_or(ClientSet::NONE, ClientSet::only)
            };
            Test { others: first, ..RIGHT }.may_report(service, client)
        }
    }
    accepted_report_read_at_the_client {
        fn may_report(service: &Service, client: u64) -> Admission {
            let accepted = |service: &Service, file: usize, other: usize| Claim::own(&service.clients[other].files[file]);
            Test { accepted, ..RIGHT }.may_report(service, client)
        }
    }
    flag_of_another_not_looked_at {
        fn may_report(service: &Service, client: u64) -> Admission {
            let accepted =
                |service: &Service, file, other| Claim { flagged: false, ..accepted(service, file, other) };
            Test { accepted, ..RIGHT }.may_report(service, client)
        }
    }
    flag_of_another_read_at_the_client {
        fn may_report(service: &Service, client: u64) -> Admission {
            let accepted = |service: &Service, file: usize, other: usize| {
                let flagged = service.clients[other].files[file].last_writer_flag;
                Claim { flagged, ..accepted(service, file, other) }
            };
            Test { accepted, ..RIGHT }.may_report(service, client)
        }
    }
    own_flag_not_looked_at {
        fn may_report(service: &Service, client: u64) -> Admission {
            tested_by(service, client, |client| {
                let mut unflagged = service.clone();
                unflagged.clients[client].files.iter_mut().for_each(|file| file.last_writer_flag = false);
                unflagged.first_clash(client).is_some()
            })
        }
    }

    // On which files.
    only_the_first_file_tested {
        fn may_report(service: &Service, client: u64) -> Admission {
            Test { files: |_| 0..1, ..RIGHT }.may_report(service, client)
        }
    }
    last_file_in_force_not_tested {
        fn may_report(service: &Service, client: u64) -> Admission {
            Test { files: |sizes| 0..sizes.files - 1, ..RIGHT }.may_report(service, client)
        }
    }
    file_past_the_settings_tested {
        fn may_report(service: &Service, client: u64) -> Admission {
            Test { files: |sizes| 0..(sizes.files + 1).min(64), ..RIGHT }.may_report(service, client)
        }
    }

    // In which order, and what a refusal leaves.
    clash_told_before_already_reported {
        fn may_report(service: &Service, client: u64) -> Admission {
            told_before(service, client, Refusal::AlreadyReported)
        }
    }
    clash_told_before_not_recovering {
        fn may_report(service: &Service, client: u64) -> Admission {
            told_before(service, client, Refusal::NotRecovering)
        }
    }
    clash_told_before_embargo {
        fn may_report(service: &Service, client: u64) -> Admission {
            told_before(service, client, Refusal::UnderEmbargo)
        }
    }
    files_before_the_clash_taken {
        fn report_refused(service: &mut Service, client: u64, refusal: Refusal) {
            if refusal == Refusal::ReportsClash {
                let clash = service.first_clash(client as usize).expect("the report clashes on some file");
                take(service, client as usize, |file| file < clash.file);
            }
        }
    }
    files_without_a_clash_taken {
        fn report_refused(service: &mut Service, client: u64, refusal: Refusal) {
            if refusal == Refusal::ReportsClash {
                let clash = service.first_clash(client as usize).expect("the report clashes on some file");
                take(service, client as usize, |file| file != clash.file);
            }
        }
    }
    refused_report_taken {
        fn report_refused(service: &mut Service, client: u64, refusal: Refusal) {
            if refusal == Refusal::ReportsClash {
                take(service, client as usize, |_| true);
            }
        }
    }
    refused_client_counts_as_reported {
        fn report_refused(service: &mut Service, client: u64, refusal: Refusal) {
            if refusal == Refusal::ReportsClash {
                service.server.count_as_reported(client as usize);
            }
        }
    }
    clash_takes_the_accepted_report_back {
        fn report_refused(service: &mut Service, client: u64, refusal: Refusal) {
            let clash = if refusal == Refusal::ReportsClash { service.first_clash(client as usize) } else { None };
            if let Some((other, _)) = clash.and_then(|clash| clash.other) {
                service.server.reported = service.server.reported.without(other);
            }
        }
    }
}

fn told_before(service: &Service, client: u64, refusal: Refusal) -> Admission {
    let answer = service.may_report(client);
    let clashes = || service.first_clash(client as usize).is_some();
    if answer == Err(refusal) && clashes() { Err(Refusal::ReportsClash) } else { answer }
}

/// The report on these files.
fn take(service: &mut Service, client: usize, files: impl Fn(usize) -> bool) {
    let sizes = service.sizes();
    let entries = service.server.entries[..sizes.files].iter_mut().enumerate().zip(&service.clients[client].files);
    for ((_, entry), own) in entries.filter(|((file, _), _)| files(*file)) {
        Entry::report(entry, client, own.record, own.last_writer_flag);
    }
}
