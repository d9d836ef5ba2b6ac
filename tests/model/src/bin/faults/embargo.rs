//! Faults of the embargo and of its lift (document 02, Wish 9).

use model::{
    Admission, BLOCKS, ClientField, ClientFile, ClientSet, GrantedOpen, Kind, Mode, Outcome, Record, Refusal, Server,
    Service, Settings, Sizes, WaitingOpen,
};

use crate::door::sparing;
use crate::fault::rule_faults;

fn is_embargoed(service: &Service, client: u64) -> bool {
    client < 8 && service.server.embargoed.contains(client as usize)
}

/// The service as it is without the embargo of this client.
fn lifted(service: &Service, client: u64) -> Service {
    let mut lifted = service.clone();
    if client < 8 {
        lifted.server.end_embargo(client as usize);
    }
    lifted
}

/// The answer of a test that does not look at embargoes, where this one gives 20.
fn unless_20<T>(answer: Result<T, Refusal>, without: impl FnOnce() -> Result<T, Refusal>) -> Result<T, Refusal> {
    match answer {
        Err(Refusal::UnderEmbargo) => without(),
        answer => answer,
    }
}

/// 20 is told only where this later refusal would not be.
fn told_after<T>(
    refusal: Refusal,
    answer: Result<T, Refusal>,
    without: impl FnOnce() -> Result<T, Refusal>,
) -> Result<T, Refusal> {
    match answer {
        Err(Refusal::UnderEmbargo) => match without() {
            Err(told) if told == refusal => Err(told),
            _ => Err(Refusal::UnderEmbargo),
        },
        answer => answer,
    }
}

/// 20 is told before this earlier refusal.
fn told_before(service: &Service, client: u64, refusal: Refusal, answer: Admission) -> Admission {
    if answer == Err(refusal) && is_embargoed(service, client) { Err(Refusal::UnderEmbargo) } else { answer }
}

/// The embargo at the server as it is, but on some files alone.
fn embargo_on(fits: bool, sizes: Sizes, server: &mut Server, file: usize, client: usize) -> Option<WaitingOpen> {
    if fits { server.entries[file].restart(sizes, client) } else { None }
}

rule_faults! {
    // 20 not tested.
    open_under_embargo_accepted {
        fn may_open(service: &Service, mode: Mode, client: u64, file: u64) -> Admission {
            let answer = service.may_open(mode, client, file);
            unless_20(answer, || lifted(service, client).may_open(mode, client, file))
        }
    }
    close_under_embargo_accepted {
        fn may_close(service: &Service, mode: Mode, client: u64, file: u64) -> Admission {
            let answer = service.may_close(mode, client, file);
            unless_20(answer, || lifted(service, client).may_close(mode, client, file))
        }
    }
    fetch_under_embargo_accepted {
        fn may_read(service: &Service, client: u64, file: u64, block: u64) -> Admission {
            let answer = service.may_read(client, file, block);
            unless_20(answer, || lifted(service, client).may_read(client, file, block))
        }
    }
    write_at_the_server_under_embargo_accepted {
        fn may_write(service: &Service, client: u64, file: u64, block: u64) -> Admission {
            let answer = service.may_write(client, file, block);
            unless_20(answer, || lifted(service, client).may_write(client, file, block))
        }
    }
    flush_under_embargo_accepted {
        fn may_flush(service: &Service, client: u64, file: u64, block: u64) -> Admission {
            let answer = service.may_flush(client, file, block);
            unless_20(answer, || lifted(service, client).may_flush(client, file, block))
        }
    }
    embargo_not_tested_at_reply {
        fn may_reply(service: &Service, client: u64, file: u64) -> Result<Kind, Refusal> {
            let answer = service.may_reply(client, file);
            unless_20(answer, || lifted(service, client).may_reply(client, file))
        }
    }
    report_under_embargo_accepted {
        fn may_report(service: &Service, client: u64) -> Admission {
            unless_20(service.may_report(client), || lifted(service, client).may_report(client))
        }
    }
    not_open_told_before_embargo_at_read {
        fn may_read(service: &Service, client: u64, file: u64, block: u64) -> Admission {
            let answer = service.may_read(client, file, block);
            told_after(Refusal::NotOpen, answer, || lifted(service, client).may_read(client, file, block))
        }
    }
    not_open_told_before_embargo_at_write {
        fn may_write(service: &Service, client: u64, file: u64, block: u64) -> Admission {
            let answer = service.may_write(client, file, block);
            told_after(Refusal::NotOpen, answer, || lifted(service, client).may_write(client, file, block))
        }
    }

    // 20 tested after 5 or 6.
    recovering_told_before_embargo_at_open {
        fn may_open(service: &Service, mode: Mode, client: u64, file: u64) -> Admission {
            let answer = service.may_open(mode, client, file);
            told_after(Refusal::Recovering, answer, || lifted(service, client).may_open(mode, client, file))
        }
    }
    recovering_told_before_embargo_at_close {
        fn may_close(service: &Service, mode: Mode, client: u64, file: u64) -> Admission {
            let answer = service.may_close(mode, client, file);
            told_after(Refusal::Recovering, answer, || lifted(service, client).may_close(mode, client, file))
        }
    }
    recovering_told_before_embargo_at_read {
        fn may_read(service: &Service, client: u64, file: u64, block: u64) -> Admission {
            let answer = service.may_read(client, file, block);
            told_after(Refusal::Recovering, answer, || lifted(service, client).may_read(client, file, block))
        }
    }
    recovering_told_before_embargo_at_write {
        fn may_write(service: &Service, client: u64, file: u64, block: u64) -> Admission {
            let answer = service.may_write(client, file, block);
            told_after(Refusal::Recovering, answer, || lifted(service, client).may_write(client, file, block))
        }
    }
    recovering_told_before_embargo_at_flush {
        fn may_flush(service: &Service, client: u64, file: u64, block: u64) -> Admission {
            let answer = service.may_flush(client, file, block);
            told_after(Refusal::Recovering, answer, || lifted(service, client).may_flush(client, file, block))
        }
    }
    recovering_told_before_embargo_at_reply {
        fn may_reply(service: &Service, client: u64, file: u64) -> Result<Kind, Refusal> {
            let answer = service.may_reply(client, file);
            told_after(Refusal::Recovering, answer, || lifted(service, client).may_reply(client, file))
        }
    }
    not_recovering_told_before_embargo {
        fn may_report(service: &Service, client: u64) -> Admission {
            let answer = service.may_report(client);
            told_after(Refusal::NotRecovering, answer, || lifted(service, client).may_report(client))
        }
    }

    // 20 tested before 3 or 4.
    embargo_told_before_file_at_open {
        fn may_open(service: &Service, mode: Mode, client: u64, file: u64) -> Admission {
            told_before(service, client, Refusal::NoSuchFile, service.may_open(mode, client, file))
        }
    }
    embargo_told_before_block_at_read {
        fn may_read(service: &Service, client: u64, file: u64, block: u64) -> Admission {
            told_before(service, client, Refusal::NoSuchBlock, service.may_read(client, file, block))
        }
    }
    embargo_told_before_block_at_write {
        fn may_write(service: &Service, client: u64, file: u64, block: u64) -> Admission {
            told_before(service, client, Refusal::NoSuchBlock, service.may_write(client, file, block))
        }
    }
    embargo_told_before_block_at_flush {
        fn may_flush(service: &Service, client: u64, file: u64, block: u64) -> Admission {
            told_before(service, client, Refusal::NoSuchBlock, service.may_flush(client, file, block))
        }
    }

    // Reads and writes that need no server.
    read_refused_under_embargo {
        fn may_read(service: &Service, client: u64, file: u64, block: u64) -> Admission {
            service.may_read(client, file, block)?;
            if is_embargoed(service, client) { Err(Refusal::UnderEmbargo) } else { Ok(()) }
        }
    }
    write_refused_under_embargo {
        fn may_write(service: &Service, client: u64, file: u64, block: u64) -> Admission {
            service.may_write(client, file, block)?;
            if is_embargoed(service, client) { Err(Refusal::UnderEmbargo) } else { Ok(()) }
        }
    }
    dirty_block_not_read_under_embargo {
        fn may_read(service: &Service, client: u64, file: u64, block: u64) -> Admission {
            service.may_read(client, file, block)?;
            let dirty = service.clients[client as usize].files[file as usize].copies.dirty[block as usize];
            if is_embargoed(service, client) && dirty { Err(Refusal::UnderEmbargo) } else { Ok(()) }
        }
    }
    read_and_write_under_embargo_refused_in_recovery {
        fn may_read(service: &Service, client: u64, file: u64, block: u64) -> Admission {
            service.may_read(client, file, block)?;
            let stopped = service.server.recovering && is_embargoed(service, client);
            if stopped { Err(Refusal::Recovering) } else { Ok(()) }
        }
        fn may_write(service: &Service, client: u64, file: u64, block: u64) -> Admission {
            service.may_write(client, file, block)?;
            let stopped = service.server.recovering && is_embargoed(service, client);
            if stopped { Err(Refusal::Recovering) } else { Ok(()) }
        }
    }
    write_under_embargo_is_sent {
        fn wrote_under_embargo(server: &mut [u64; BLOCKS], block: usize, value: u64) {
            server[block] = value;
        }
    }

    // What the embargo does.
    embargo_on_the_named_file_alone {
        fn embargo_at_server(
            sizes: Sizes,
            server: &mut Server,
            file: usize,
            client: usize,
            of: usize,
        ) -> Option<WaitingOpen> {
            embargo_on(file == of, sizes, server, file, client)
        }
    }
    embargo_on_the_first_files_alone {
        fn embargo_at_server(
            sizes: Sizes,
            server: &mut Server,
            file: usize,
            client: usize,
            of: usize,
        ) -> Option<WaitingOpen> {
            embargo_on(file <= of, sizes, server, file, client)
        }
    }
    embargo_reaches_32_files_only {
        fn embargo_at_server(
            sizes: Sizes,
            server: &mut Server,
            file: usize,
            client: usize,
            _of: usize,
        ) -> Option<WaitingOpen> {
            embargo_on(file < Settings::NOT_GIVEN.files as usize, sizes, server, file, client)
        }
    }
    embargo_leaves_the_record {
        fn embargo_at_server(
            sizes: Sizes,
            server: &mut Server,
            file: usize,
            client: usize,
            _of: usize,
        ) -> Option<WaitingOpen> {
            let record = server.entries[file].records[client];
            let due = server.entries[file].restart(sizes, client);
            server.entries[file].records[client] = record;
            due
        }
    }
    embargo_leaves_the_last_writer {
        fn embargo_at_server(
            sizes: Sizes,
            server: &mut Server,
            file: usize,
            client: usize,
            of: usize,
        ) -> Option<WaitingOpen> {
            let before = server.entries[file].last_writer;
            let due = server.entries[file].restart(sizes, client);
            if file != of && before == ClientField::of(client) {
                server.entries[file].last_writer = before;
            }
            due
        }
    }
    embargo_leaves_its_own_wait {
        fn embargo_at_server(
            sizes: Sizes,
            server: &mut Server,
            file: usize,
            client: usize,
            _of: usize,
        ) -> Option<WaitingOpen> {
            let before = server.entries[file].waiting;
            let due = server.entries[file].restart(sizes, client);
            if before.opener == ClientField::of(client) {
                server.entries[file].waiting = before;
            }
            due
        }
    }
    embargo_leaves_its_other_calls {
        fn embargo_at_server(
            sizes: Sizes,
            server: &mut Server,
            file: usize,
            client: usize,
            of: usize,
        ) -> Option<WaitingOpen> {
            if file == of {
                return server.entries[file].restart(sizes, client);
            }
            server.entries[file].forget(sizes, client);
            None
        }
    }
    embargo_grants_nothing {
        fn embargo_at_server(
            sizes: Sizes,
            server: &mut Server,
            file: usize,
            client: usize,
            _of: usize,
        ) -> Option<WaitingOpen> {
            server.entries[file].restart(sizes, client);
            None
        }
    }
    embargo_grants_on_the_named_file_alone {
        fn embargo_at_server(
            sizes: Sizes,
            server: &mut Server,
            file: usize,
            client: usize,
            of: usize,
        ) -> Option<WaitingOpen> {
            server.entries[file].restart(sizes, client).filter(|_| file == of)
        }
    }
    embargo_grants_with_calls_still_out {
        fn embargo_at_server(
            sizes: Sizes,
            server: &mut Server,
            file: usize,
            client: usize,
            _of: usize,
        ) -> Option<WaitingOpen> {
            let entry = &mut server.entries[file];
            entry.forget(sizes, client);
            if entry.count_as_answered(sizes, client) { entry.waiting.read(sizes) } else { None }
        }
    }
    embargo_drops_what_the_client_holds {
        fn embargo_at_client(sizes: Sizes, file: &mut ClientFile, _server: &mut [u64; BLOCKS]) {
            file.restart(sizes);
        }
    }
    embargo_takes_permission_away {
        fn embargo_at_client(_sizes: Sizes, file: &mut ClientFile, _server: &mut [u64; BLOCKS]) {
            file.record.may_cache = false;
        }
    }
    embargo_drops_dirty_blocks {
        fn embargo_at_client(sizes: Sizes, file: &mut ClientFile, _server: &mut [u64; BLOCKS]) {
            for block in 0..sizes.blocks {
                file.copies.held[block] &= !file.copies.dirty[block];
                file.copies.dirty[block] = false;
            }
        }
    }
    embargo_sends_the_dirty_blocks {
        fn embargo_at_client(sizes: Sizes, file: &mut ClientFile, server: &mut [u64; BLOCKS]) {
            file.answer(sizes, Kind::WriteBack, server);
        }
    }
    embargo_is_a_forgetting_only {
        fn put_under_embargo(_server: &mut Server, _client: usize) {}
    }
    embargo_of_one_client_at_a_time {
        fn put_under_embargo(server: &mut Server, client: usize) {
            server.embargoed = ClientSet::only(client);
        }
    }

    // What is told of it.
    embargo_answered_as_a_restart_is {
        fn embargo_answer(granted: Vec<GrantedOpen>) -> Outcome {
            Outcome::Restarted { granted }
        }
    }
    embargo_answered_without_its_grants {
        fn embargo_answer(_granted: Vec<GrantedOpen>) -> Outcome {
            Outcome::Embargoed { granted: vec![] }
        }
    }
    first_grant_of_an_embargo_told_alone {
        fn embargo_answer(mut granted: Vec<GrantedOpen>) -> Outcome {
            granted.truncate(1);
            Outcome::Embargoed { granted }
        }
    }
    grants_of_an_embargo_told_by_descending_file {
        fn embargo_answer(mut granted: Vec<GrantedOpen>) -> Outcome {
            granted.reverse();
            Outcome::Embargoed { granted }
        }
    }

    // Its tests.
    embargo_tested_by_20 {
        fn may_embargo(service: &Service, client: u64, file: u64) -> Admission {
            told_before(service, client, Refusal::NoCallback, service.may_embargo(client, file))
        }
    }
    embargo_without_a_call_accepted {
        fn may_embargo(service: &Service, client: u64, file: u64) -> Admission {
            sparing(service.may_embargo(client, file), Refusal::NoCallback, || true)
        }
    }
    embargo_accepted_for_a_call_on_any_file {
        fn may_embargo(service: &Service, client: u64, file: u64) -> Admission {
            sparing(service.may_embargo(client, file), Refusal::NoCallback, || {
                let sizes = service.sizes();
                service.server.entries[..sizes.files].iter().any(|e| e.callback(sizes, client as usize).is_some())
            })
        }
    }
    embargo_while_an_open_waits_accepted {
        fn may_embargo(service: &Service, client: u64, file: u64) -> Admission {
            sparing(service.may_embargo(client, file), Refusal::NoCallback, || {
                service.server.entries[file as usize].waiting.read(service.sizes()).is_some()
            })
        }
    }
    no_callback_told_before_recovering_at_embargo {
        fn may_embargo(service: &Service, client: u64, file: u64) -> Admission {
            match service.may_embargo(client, file) {
                Err(Refusal::Recovering) => Err(Refusal::NoCallback),
                answer => answer,
            }
        }
    }
    embargo_of_a_client_that_is_not_there {
        fn may_embargo(service: &Service, client: u64, file: u64) -> Admission {
            sparing(service.may_embargo(client, file), Refusal::NoSuchClient, || {
                client < 8 && file < service.sizes().files as u64
            })
        }
    }

    // The lift.
    lift_keeps_the_counts {
        fn lift_at_client(sizes: Sizes, file: &mut ClientFile, _server: &mut [u64; BLOCKS]) {
            let Record { readers, writers, .. } = file.record;
            file.restart(sizes);
            file.record = Record { readers, writers, may_cache: false };
        }
    }
    lift_keeps_the_whole_record {
        fn lift_at_client(sizes: Sizes, file: &mut ClientFile, _server: &mut [u64; BLOCKS]) {
            let record = file.record;
            file.restart(sizes);
            file.record = record;
        }
    }
    lift_keeps_the_copy {
        fn lift_at_client(sizes: Sizes, file: &mut ClientFile, _server: &mut [u64; BLOCKS]) {
            let (copies, label) = (file.copies.clone(), file.cached_version);
            file.restart(sizes);
            (file.copies, file.cached_version) = (copies, label);
        }
    }
    lift_keeps_clean_blocks {
        fn lift_at_client(sizes: Sizes, file: &mut ClientFile, _server: &mut [u64; BLOCKS]) {
            let (mut copies, label) = (file.copies.clone(), file.cached_version);
            file.restart(sizes);
            copies.held.iter_mut().zip(&copies.dirty).for_each(|(held, &dirty)| *held &= !dirty);
            copies.dirty = [false; BLOCKS];
            (file.copies, file.cached_version) = (copies, label);
        }
    }
    lift_keeps_dirty_blocks_without_a_label {
        fn lift_at_client(sizes: Sizes, file: &mut ClientFile, _server: &mut [u64; BLOCKS]) {
            let copies = file.copies.clone();
            file.restart(sizes);
            if copies.any_dirty(sizes) {
                file.copies = copies;
            }
        }
    }
    lift_keeps_the_flag {
        fn lift_at_client(sizes: Sizes, file: &mut ClientFile, _server: &mut [u64; BLOCKS]) {
            let flag = file.last_writer_flag;
            file.restart(sizes);
            file.last_writer_flag = flag;
        }
    }
    lift_sends_the_dirty_blocks {
        fn lift_at_client(sizes: Sizes, file: &mut ClientFile, server: &mut [u64; BLOCKS]) {
            file.answer(sizes, Kind::WriteBack, server);
            file.restart(sizes);
        }
    }
    lift_drops_nothing {
        fn lift_at_client(_sizes: Sizes, _file: &mut ClientFile, _server: &mut [u64; BLOCKS]) {}
    }
    lift_is_no_report {
        fn lift_reports(_server: &mut Server, _client: usize) {}
    }
    lift_leaves_the_embargo {
        fn end_embargo(_server: &mut Server, _client: usize) {}
    }
    lift_ends_every_embargo {
        fn end_embargo(server: &mut Server, _client: usize) {
            server.embargoed = ClientSet::NONE;
        }
    }
    lift_without_embargo_accepted {
        fn may_lift(service: &Service, client: u64) -> Admission {
            sparing(service.may_lift(client), Refusal::NotUnderEmbargo, || true)
        }
    }
    lift_refused_in_recovery {
        fn may_lift(service: &Service, client: u64) -> Admission {
            service.may_lift(client)?;
            if service.server.recovering { Err(Refusal::Recovering) } else { Ok(()) }
        }
    }
    recovering_told_before_no_embargo_at_lift {
        fn may_lift(service: &Service, client: u64) -> Admission {
            match service.may_lift(client) {
                Err(Refusal::NotUnderEmbargo) if service.server.recovering => Err(Refusal::Recovering),
                answer => answer,
            }
        }
    }
    no_embargo_told_before_client_at_lift {
        fn may_lift(service: &Service, client: u64) -> Admission {
            match service.may_lift(client) {
                Err(Refusal::NoSuchClient) => Err(Refusal::NotUnderEmbargo),
                answer => answer,
            }
        }
    }

    // Restart, crash and end.
    restart_does_not_lift {
        fn restart_lifts(_server: &mut Server, _client: usize) {}
    }
    restart_in_recovery_does_not_lift {
        fn restart_lifts(server: &mut Server, client: usize) {
            if !server.recovering {
                server.end_embargo(client);
            }
        }
    }
    restart_refused_under_embargo {
        fn may_restart(service: &Service, client: u64) -> Admission {
            service.may_restart(client)?;
            if is_embargoed(service, client) { Err(Refusal::UnderEmbargo) } else { Ok(()) }
        }
    }
    crash_ends_every_embargo {
        fn crash(service: &mut Service) {
            service.server.crash(service.sizes());
            service.server.embargoed = ClientSet::NONE;
        }
    }
    end_waits_for_clients_under_embargo {
        fn may_end(service: &Service) -> Admission {
            service.may_end()?;
            let missing = service.sizes().client_set().minus(service.server.reported);
            if missing.is_empty() { Ok(()) } else { Err(Refusal::ReportsMissing) }
        }
    }
    end_ends_every_embargo {
        fn end(sizes: Sizes, server: &mut Server) {
            server.end(sizes);
            server.embargoed = ClientSet::NONE;
        }
    }
    end_waits_for_nobody_while_one_is_under_embargo {
        fn may_end(service: &Service) -> Admission {
            sparing(service.may_end(), Refusal::ReportsMissing, || !service.server.embargoed.is_empty())
        }
    }
    /// A report shows it: it gets 22.
    lift_keeps_permission {
        fn lift_at_client(sizes: Sizes, file: &mut ClientFile, _server: &mut [u64; BLOCKS]) {
            let may_cache = file.record.may_cache;
            file.restart(sizes);
            file.record.may_cache = may_cache;
        }
    }
}
