//! Faults of the tests at the door: refusals that are missing, too many, or in the wrong order.

use model::{Admission, ClientFile, Kind, Mode, Refusal, Service, WaitingOpen};

use crate::fault::rule_faults;

fn at_client(service: &Service, client: u64, file: u64) -> &ClientFile {
    &service.clients[client as usize].files[file as usize]
}

fn waiting(service: &Service, file: u64) -> Option<WaitingOpen> {
    service.server.entries[file as usize].waiting.read(service.sizes())
}

fn in_reach(copy: &ClientFile, block: u64) -> bool {
    copy.record.is_open() && copy.record.may_cache && copy.copies.held[block as usize]
}

/// The answer as it is, but nothing in place of this refusal where the condition holds.
pub fn sparing(answer: Admission, refusal: Refusal, spared: impl FnOnce() -> bool) -> Admission {
    if answer == Err(refusal) && spared() { Ok(()) } else { answer }
}

/// The answer as it is, but one refusal given for another where the condition holds.
fn swapping(answer: Admission, refusal: Refusal, given: Refusal, swapped: impl FnOnce() -> bool) -> Admission {
    if answer == Err(refusal) && swapped() { Err(given) } else { answer }
}

rule_faults! {
    waiting_opener_opens_again {
        fn may_open(service: &Service, mode: Mode, client: u64, file: u64) -> Admission {
            sparing(service.may_open(mode, client, file), Refusal::OpenWaits, || {
                waiting(service, file).is_some_and(|open| open.opener as u64 == client)
            })
        }
    }
    open_that_keeps_permission_does_not_wait {
        fn may_open(service: &Service, mode: Mode, client: u64, file: u64) -> Admission {
            sparing(service.may_open(mode, client, file), Refusal::OpenWaits, || {
                at_client(service, client, file).record.keeps_permission(mode)
            })
        }
    }
    close_allowed_while_an_open_waits {
        fn may_close(service: &Service, mode: Mode, client: u64, file: u64) -> Admission {
            sparing(service.may_close(mode, client, file), Refusal::OpenWaits, || {
                at_client(service, client, file).record.count(mode) > 0
            })
        }
    }
    not_open_told_before_open_waits {
        fn may_close(service: &Service, mode: Mode, client: u64, file: u64) -> Admission {
            swapping(service.may_close(mode, client, file), Refusal::OpenWaits, Refusal::NotOpen, || {
                at_client(service, client, file).record.count(mode) == 0
            })
        }
    }
    count_limit_told_before_open_waits {
        fn may_open(service: &Service, mode: Mode, client: u64, file: u64) -> Admission {
            swapping(service.may_open(mode, client, file), Refusal::OpenWaits, Refusal::CountAtLimit, || {
                at_client(service, client, file).record.count(mode) == u8::MAX
            })
        }
    }
    count_limit_told_before_recovering {
        fn may_open(service: &Service, mode: Mode, client: u64, file: u64) -> Admission {
            swapping(service.may_open(mode, client, file), Refusal::Recovering, Refusal::CountAtLimit, || {
                at_client(service, client, file).record.count(mode) == u8::MAX
            })
        }
    }
    count_limit_at_254 {
        fn may_open(service: &Service, mode: Mode, client: u64, file: u64) -> Admission {
            service.may_open(mode, client, file)?;
            let count = at_client(service, client, file).record.count(mode);
            if count == u8::MAX - 1 { Err(Refusal::CountAtLimit) } else { Ok(()) }
        }
    }
    count_limit_for_both_modes_together {
        fn may_open(service: &Service, mode: Mode, client: u64, file: u64) -> Admission {
            service.may_open(mode, client, file)?;
            let record = &at_client(service, client, file).record;
            let sum = u16::from(record.readers) + u16::from(record.writers);
            if sum >= u16::from(u8::MAX) { Err(Refusal::CountAtLimit) } else { Ok(()) }
        }
    }
    close_needs_any_open {
        fn may_close(service: &Service, mode: Mode, client: u64, file: u64) -> Admission {
            sparing(service.may_close(mode, client, file), Refusal::NotOpen, || {
                at_client(service, client, file).record.is_open()
            })
        }
    }
    not_open_told_before_recovering_at_close {
        fn may_close(service: &Service, mode: Mode, client: u64, file: u64) -> Admission {
            swapping(service.may_close(mode, client, file), Refusal::Recovering, Refusal::NotOpen, || {
                at_client(service, client, file).record.count(mode) == 0
            })
        }
    }

    read_needs_readers {
        fn may_read(service: &Service, client: u64, file: u64, block: u64) -> Admission {
            service.may_read(client, file, block)?;
            if at_client(service, client, file).record.readers == 0 { Err(Refusal::NotOpen) } else { Ok(()) }
        }
    }
    write_allowed_to_readers {
        fn may_write(service: &Service, client: u64, file: u64, block: u64) -> Admission {
            sparing(service.may_write(client, file, block), Refusal::NotOpen, || {
                at_client(service, client, file).record.is_open()
            })
        }
    }
    not_open_told_before_recovering_at_read {
        fn may_read(service: &Service, client: u64, file: u64, block: u64) -> Admission {
            swapping(service.may_read(client, file, block), Refusal::Recovering, Refusal::NotOpen, || {
                !at_client(service, client, file).record.is_open()
            })
        }
    }
    not_open_told_before_recovering_at_write {
        fn may_write(service: &Service, client: u64, file: u64, block: u64) -> Admission {
            swapping(service.may_write(client, file, block), Refusal::Recovering, Refusal::NotOpen, || {
                at_client(service, client, file).record.writers == 0
            })
        }
    }
    reads_refused_throughout_recovery {
        fn may_read(service: &Service, client: u64, file: u64, block: u64) -> Admission {
            service.may_read(client, file, block)?;
            if service.server.recovering { Err(Refusal::Recovering) } else { Ok(()) }
        }
    }
    writes_refused_throughout_recovery {
        fn may_write(service: &Service, client: u64, file: u64, block: u64) -> Admission {
            service.may_write(client, file, block)?;
            if service.server.recovering { Err(Refusal::Recovering) } else { Ok(()) }
        }
    }
    reported_client_goes_on_reading {
        fn may_read(service: &Service, client: u64, file: u64, block: u64) -> Admission {
            sparing(service.may_read(client, file, block), Refusal::Recovering, || {
                in_reach(at_client(service, client, file), block)
            })
        }
    }
    reported_client_goes_on_writing {
        fn may_write(service: &Service, client: u64, file: u64, block: u64) -> Admission {
            sparing(service.may_write(client, file, block), Refusal::Recovering, || {
                let record = &at_client(service, client, file).record;
                record.writers > 0 && record.may_cache
            })
        }
    }
    read_fetches_in_recovery {
        fn may_read(service: &Service, client: u64, file: u64, block: u64) -> Admission {
            sparing(service.may_read(client, file, block), Refusal::Recovering, || {
                let reported = service.server.reported.contains(client as usize);
                !reported && at_client(service, client, file).record.is_open()
            })
        }
    }
    closed_holder_reads_in_recovery {
        fn may_read(service: &Service, client: u64, file: u64, block: u64) -> Admission {
            sparing(service.may_read(client, file, block), Refusal::Recovering, || {
                at_client(service, client, file).copies.held[block as usize]
            })
        }
    }
    write_reaches_server_in_recovery {
        fn may_write(service: &Service, client: u64, file: u64, block: u64) -> Admission {
            sparing(service.may_write(client, file, block), Refusal::Recovering, || {
                let reported = service.server.reported.contains(client as usize);
                !reported && at_client(service, client, file).record.writers > 0
            })
        }
    }

    flush_allowed_in_recovery {
        fn may_flush(service: &Service, client: u64, file: u64, block: u64) -> Admission {
            sparing(service.may_flush(client, file, block), Refusal::Recovering, || {
                at_client(service, client, file).copies.dirty[block as usize]
            })
        }
    }
    flush_refused_while_an_open_waits {
        fn may_flush(service: &Service, client: u64, file: u64, block: u64) -> Admission {
            service.may_flush(client, file, block)?;
            if waiting(service, file).is_some() { Err(Refusal::OpenWaits) } else { Ok(()) }
        }
    }
    flush_needs_the_file_open {
        fn may_flush(service: &Service, client: u64, file: u64, block: u64) -> Admission {
            service.may_flush(client, file, block)?;
            if at_client(service, client, file).record.is_open() { Ok(()) } else { Err(Refusal::NotOpen) }
        }
    }
    recovering_told_before_block_at_flush {
        fn may_flush(service: &Service, client: u64, file: u64, block: u64) -> Admission {
            swapping(service.may_flush(client, file, block), Refusal::NoSuchBlock, Refusal::Recovering, || {
                service.server.recovering
            })
        }
    }
    called_client_may_not_read {
        fn may_read(service: &Service, client: u64, file: u64, block: u64) -> Admission {
            service.may_read(client, file, block)?;
            let called = service.server.entries[file as usize].callback(service.sizes(), client as usize).is_some();
            if called { Err(Refusal::OpenWaits) } else { Ok(()) }
        }
    }
    no_callback_told_before_recovering {
        fn may_reply(service: &Service, client: u64, file: u64) -> Result<Kind, Refusal> {
            match service.may_reply(client, file) {
                Err(Refusal::Recovering) => Err(Refusal::NoCallback),
                answer => answer,
            }
        }
    }
    file_told_before_client_at_reply {
        fn may_reply(service: &Service, client: u64, file: u64) -> Result<Kind, Refusal> {
            match service.may_reply(client, file) {
                Err(Refusal::NoSuchClient) if file >= service.sizes().files as u64 => Err(Refusal::NoSuchFile),
                answer => answer,
            }
        }
    }
    not_recovering_told_before_client_at_report {
        fn may_report(service: &Service, client: u64) -> Admission {
            swapping(service.may_report(client), Refusal::NoSuchClient, Refusal::NotRecovering, || {
                !service.server.recovering
            })
        }
    }
    reports_missing_told_before_not_recovering {
        fn may_end(service: &Service) -> Admission {
            swapping(service.may_end(), Refusal::NotRecovering, Refusal::ReportsMissing, || true)
        }
    }
    /// A reviewer's third try: 5 with no crash behind it.
    recovering_told_without_a_crash {
        fn may_write(service: &Service, client: u64, file: u64, block: u64) -> Admission {
            service.may_write(client, file, block)?;
            if service.server.entries[file as usize].version.read() > 2 { Err(Refusal::Recovering) } else { Ok(()) }
        }
    }
}
