//! Faults of the places of the store (document 02, Wish 13): places counted wrongly, blocks used wrongly, and 23 told
//! wrongly.

use model::{Admission, BLOCKS, ClientSet, Entry, Refusal, Server, Service, Sizes, Step};

use crate::door::sparing;
use crate::fault::rule_faults;

fn none_free(service: &Service) -> bool {
    service.server.free_places(service.sizes()) == 0
}

fn takes_place(service: &Service, client: u64, file: u64, block: u64) -> bool {
    service.takes_place(client as usize, file as usize, block as usize)
}

/// The numbers of a write are there.
fn is_there(service: &Service, client: u64, file: u64, block: u64) -> bool {
    let Sizes { clients, files, blocks, .. } = service.sizes();
    client < clients as u64 && file < files as u64 && block < blocks as u64
}

/// 23 in place of this refusal, where it would hold too.
fn told_before(service: &Service, [client, file, block]: [u64; 3], later: Refusal) -> Admission {
    let answer = service.may_write(client, file, block);
    let holds = || is_there(service, client, file, block) && takes_place(service, client, file, block);
    if answer == Err(later) && none_free(service) && holds() { Err(Refusal::NoPlace) } else { answer }
}

/// 23 for a write that takes no place and finds nothing free, where this is so of the block.
fn refused_too(
    service: &Service,
    [client, file, block]: [u64; 3],
    is_so: fn(&Service, [usize; 3]) -> bool,
) -> Admission {
    service.may_write(client, file, block)?;
    let at = [client, file, block].map(|number| number as usize);
    if none_free(service) && is_so(service, at) { Err(Refusal::NoPlace) } else { Ok(()) }
}

/// A write that takes a place is tested as one that takes none.
fn taken_for_known(service: &Service, [client, file, block]: [u64; 3], spared: Refusal) -> Admission {
    let answer = service.may_write(client, file, block);
    if answer != Err(spared) || !takes_place(service, client, file, block) {
        return answer;
    }
    let mut known = service.clone();
    known.server.entries[file as usize].used[block as usize] = true;
    known.may_write(client, file, block)
}

/// More places free, or fewer: within 0 and the size.
fn more_free(sizes: Sizes, server: &mut Server, more: usize) {
    server.free = (server.free_places(sizes) + more).min(sizes.store);
}

fn settle_unless(skipped: bool, service: &mut Service, before: usize, after: usize) {
    if !skipped {
        service.server.settle(service.sizes(), before, after);
    }
}

fn count_dirty(service: &Service, client: usize) -> usize {
    let sizes = service.sizes();
    service.clients[client].files[..sizes.files].iter().map(|file| file.copies.count_dirty(sizes)).sum()
}

fn forget_used(server: &mut Server, is_forgotten: impl Fn(&Entry, usize) -> bool) {
    for entry in &mut server.entries {
        for block in 0..BLOCKS {
            entry.used[block] &= !is_forgotten(entry, block);
        }
    }
}

rule_faults! {
    // Places taken wrongly.
    place_taken_twice {
        fn take_place(sizes: Sizes, server: &mut Server) {
            server.take_place(sizes);
            server.take_place(sizes);
        }
    }
    place_not_taken {
        fn take_place(_sizes: Sizes, _server: &mut Server) {}
    }
    place_taken_by_every_write {
        fn takes_place(_service: &Service, _client: usize, _file: usize, _block: usize) -> bool {
            true
        }
    }
    place_taken_by_a_write_of_a_used_block {
        fn takes_place(service: &Service, client: usize, file: usize, block: usize) -> bool {
            !service.is_dirty(client, file, block)
        }
    }
    place_taken_by_a_write_of_a_dirty_block {
        fn takes_place(service: &Service, _client: usize, file: usize, block: usize) -> bool {
            !service.server.entries[file].used[block]
        }
    }
    place_taken_by_cached_writes_alone {
        fn takes_place(service: &Service, client: usize, file: usize, block: usize) -> bool {
            service.clients[client].files[file].record.may_cache && service.takes_place(client, file, block)
        }
    }
    place_taken_by_uncached_writes_alone {
        fn takes_place(service: &Service, client: usize, file: usize, block: usize) -> bool {
            !service.clients[client].files[file].record.may_cache && service.takes_place(client, file, block)
        }
    }
    place_taken_for_the_file_once {
        fn takes_place(service: &Service, client: usize, file: usize, block: usize) -> bool {
            !service.any_dirty(client, file) && service.takes_place(client, file, block)
        }
    }
    zero_write_takes_no_place {
        fn used_by_write(entry: &mut Entry, block: usize) {
            entry.used[block] = entry.blocks[block] != 0;
        }
        fn used_by_flush(_sizes: Sizes, server: &mut Server, file: usize, block: usize) {
            let entry = &mut server.entries[file];
            entry.used[block] = entry.blocks[block] != 0;
        }
    }

    // Places freed wrongly.
    place_not_freed_by_a_restart {
        fn settle(service: &mut Service, step: &Step, before: usize, after: usize) {
            settle_unless(matches!(step, Step::Restart { .. }), service, before, after);
        }
    }
    place_not_freed_by_a_restart_in_recovery {
        fn settle(service: &mut Service, step: &Step, before: usize, after: usize) {
            let skipped = matches!(step, Step::Restart { .. }) && service.server.recovering;
            settle_unless(skipped, service, before, after);
        }
    }
    restart_before_the_report_frees {
        fn places_held(service: &Service) -> usize {
            let mut heard = service.clone();
            heard.server.reported = ClientSet::ALL;
            heard.places_held()
        }
    }
    place_freed_twice_by_a_restart {
        fn settle(service: &mut Service, step: &Step, before: usize, after: usize) {
            let twice = if matches!(step, Step::Restart { .. }) { before - after } else { 0 };
            service.server.settle(service.sizes(), before + twice, after);
        }
    }
    restart_frees_one_place_only {
        fn settle(service: &mut Service, step: &Step, before: usize, after: usize) {
            let before = if matches!(step, Step::Restart { .. }) { before.min(after + 1) } else { before };
            service.server.settle(service.sizes(), before, after);
        }
    }
    restart_frees_used_blocks_too {
        fn settle(service: &mut Service, step: &Step, before: usize, after: usize) {
            let sizes = service.sizes();
            service.server.settle(sizes, before, after);
            if matches!(step, Step::Restart { .. }) && before > after {
                more_free(sizes, &mut service.server, sizes.store);
            }
        }
    }
    embargo_frees_nothing {
        fn settle(service: &mut Service, step: &Step, before: usize, after: usize) {
            settle_unless(matches!(step, Step::Embargo { .. }), service, before, after);
        }
    }
    /// The places are freed at the lift, or at the restart.
    places_kept_until_the_embargo_ends {
        fn places_held(service: &Service) -> usize {
            let mut told = service.clone();
            told.server.embargoed = ClientSet::NONE;
            told.places_held()
        }
        fn freed_by_lift(service: &mut Service, client: usize) {
            let freed = count_dirty(service, client);
            more_free(service.sizes(), &mut service.server, freed);
        }
    }
    place_freed_twice_by_a_lift {
        fn freed_by_lift(service: &mut Service, client: usize) {
            let freed = count_dirty(service, client);
            more_free(service.sizes(), &mut service.server, freed);
        }
    }
    place_freed_twice_by_a_restart_under_embargo {
        fn restart_lifts(server: &mut Server, client: usize) {
            if server.embargoed.contains(client) {
                server.free += 1;
            }
            server.end_embargo(client);
        }
    }
    flush_frees_a_place {
        fn used_by_flush(sizes: Sizes, server: &mut Server, file: usize, block: usize) {
            if !server.entries[file].used[block] {
                more_free(sizes, server, 1);
            }
            server.entries[file].used[block] = true;
        }
    }
    flush_takes_a_place {
        fn used_by_flush(sizes: Sizes, server: &mut Server, file: usize, block: usize) {
            if !server.entries[file].used[block] {
                server.take_place(sizes);
            }
            server.entries[file].used[block] = true;
        }
    }
    answer_frees_its_places {
        fn settle(service: &mut Service, step: &Step, before: usize, after: usize) {
            let (sizes, is_reply) = (service.sizes(), matches!(step, Step::Reply { .. }));
            service.server.settle(sizes, before, after);
            if is_reply {
                more_free(sizes, &mut service.server, after);
            }
        }
    }
    free_passes_the_store {
        fn settle(service: &mut Service, _step: &Step, before: usize, after: usize) {
            service.server.free = (service.server.free + before).saturating_sub(after);
        }
        fn take_place(_sizes: Sizes, server: &mut Server) {
            server.free -= 1;
        }
    }

    // Blocks used wrongly.
    flush_leaves_its_block_unused {
        fn used_by_flush(_sizes: Sizes, _server: &mut Server, _file: usize, _block: usize) {}
    }
    answer_leaves_its_blocks_unused {
        fn used_by_reply(_entry: &mut Entry, _block: usize) {}
    }
    answer_uses_one_block_only {
        fn used_by_reply(entry: &mut Entry, block: usize) {
            entry.used[block] |= !entry.used[..block].contains(&true);
        }
    }
    uncached_write_leaves_its_block_unused {
        fn used_by_write(_entry: &mut Entry, _block: usize) {}
    }
    used_lost_by_a_crash {
        fn crash(service: &mut Service) {
            forget_used(&mut service.server, |_, _| true);
            service.server.crash(service.sizes());
        }
    }
    zero_blocks_not_used_after_a_crash {
        fn crash(service: &mut Service) {
            forget_used(&mut service.server, |entry, block| entry.blocks[block] == 0);
            service.server.crash(service.sizes());
        }
    }
    used_lost_by_a_restart {
        fn settle(service: &mut Service, step: &Step, before: usize, after: usize) {
            let sizes = service.sizes();
            service.server.settle(sizes, before, after);
            if matches!(step, Step::Restart { .. }) {
                forget_used(&mut service.server, |entry, block| entry.blocks[block] == 0);
            }
        }
    }

    // Crash, reports and the end.
    free_not_reset_by_a_crash {
        fn crash(service: &mut Service) {
            let free = service.server.free;
            service.server.crash(service.sizes());
            service.server.free = free;
        }
    }
    all_places_free_after_a_crash {
        fn crash(service: &mut Service) {
            service.server.crash(service.sizes());
            service.server.free = service.sizes().store;
        }
    }
    no_place_free_after_a_crash {
        fn crash(service: &mut Service) {
            service.server.crash(service.sizes());
            service.server.free = 0;
        }
    }
    report_takes_nothing {
        fn settle(service: &mut Service, step: &Step, before: usize, after: usize) {
            settle_unless(matches!(step, Step::Report { .. }), service, before, after);
        }
    }
    report_takes_one_place_only {
        fn settle(service: &mut Service, step: &Step, before: usize, after: usize) {
            let after = if matches!(step, Step::Report { .. }) { after.min(before + 1) } else { after };
            service.server.settle(service.sizes(), before, after);
        }
    }
    report_takes_a_place_for_used_blocks_too {
        fn settle(service: &mut Service, step: &Step, before: usize, after: usize) {
            let after = match *step {
                Step::Report { client } => before + count_dirty(service, client as usize),
                _ => after,
            };
            service.server.settle(service.sizes(), before, after);
        }
    }
    end_resets_free {
        fn end(sizes: Sizes, server: &mut Server) {
            server.end(sizes);
            server.free_but_used(sizes);
        }
    }

    // 23.
    no_place_never_told {
        fn may_write(service: &Service, client: u64, file: u64, block: u64) -> Admission {
            sparing(service.may_write(client, file, block), Refusal::NoPlace, || true)
        }
    }
    no_place_told_with_one_free {
        fn may_write(service: &Service, client: u64, file: u64, block: u64) -> Admission {
            service.may_write(client, file, block)?;
            let one = service.server.free_places(service.sizes()) == 1;
            if one && takes_place(service, client, file, block) { Err(Refusal::NoPlace) } else { Ok(()) }
        }
    }
    no_place_told_before_not_open {
        fn may_write(service: &Service, client: u64, file: u64, block: u64) -> Admission {
            told_before(service, [client, file, block], Refusal::NotOpen)
        }
    }
    no_place_told_before_recovering {
        fn may_write(service: &Service, client: u64, file: u64, block: u64) -> Admission {
            told_before(service, [client, file, block], Refusal::Recovering)
        }
    }
    no_place_told_before_embargo {
        fn may_write(service: &Service, client: u64, file: u64, block: u64) -> Admission {
            told_before(service, [client, file, block], Refusal::UnderEmbargo)
        }
    }
    no_place_told_of_a_used_block {
        fn may_write(service: &Service, client: u64, file: u64, block: u64) -> Admission {
            refused_too(service, [client, file, block], |service, [_, file, block]| {
                service.server.entries[file].used[block]
            })
        }
    }
    no_place_told_of_a_reserved_block {
        fn may_write(service: &Service, client: u64, file: u64, block: u64) -> Admission {
            refused_too(service, [client, file, block], |service, [_, file, block]| service.is_reserved(file, block))
        }
    }
    no_place_told_of_a_dirty_block {
        fn may_write(service: &Service, client: u64, file: u64, block: u64) -> Admission {
            refused_too(service, [client, file, block], |service, [client, file, block]| {
                service.is_dirty(client, file, block)
            })
        }
    }
    no_place_told_of_a_dirty_block_under_embargo {
        fn may_write(service: &Service, client: u64, file: u64, block: u64) -> Admission {
            refused_too(service, [client, file, block], |service, [client, ..]| {
                service.server.embargoed.contains(client)
            })
        }
    }
    no_place_told_of_cached_writes_alone {
        fn may_write(service: &Service, client: u64, file: u64, block: u64) -> Admission {
            sparing(service.may_write(client, file, block), Refusal::NoPlace, || {
                !service.clients[client as usize].files[file as usize].record.may_cache
            })
        }
    }
    no_place_told_of_uncached_writes_alone {
        fn may_write(service: &Service, client: u64, file: u64, block: u64) -> Admission {
            sparing(service.may_write(client, file, block), Refusal::NoPlace, || {
                service.clients[client as usize].files[file as usize].record.may_cache
            })
        }
    }
    no_place_told_of_a_read {
        fn may_read(service: &Service, client: u64, file: u64, block: u64) -> Admission {
            service.may_read(client, file, block)?;
            let full = none_free(service) && takes_place(service, client, file, block);
            if full { Err(Refusal::NoPlace) } else { Ok(()) }
        }
    }

    // A first write needs the server.
    first_write_accepted_in_recovery {
        fn may_write(service: &Service, client: u64, file: u64, block: u64) -> Admission {
            taken_for_known(service, [client, file, block], Refusal::Recovering)
        }
    }
    first_write_accepted_under_embargo {
        fn may_write(service: &Service, client: u64, file: u64, block: u64) -> Admission {
            taken_for_known(service, [client, file, block], Refusal::UnderEmbargo)
        }
    }
    first_write_accepted_while_a_place_is_free {
        fn may_write(service: &Service, client: u64, file: u64, block: u64) -> Admission {
            match none_free(service) {
                true => service.may_write(client, file, block),
                false => taken_for_known(service, [client, file, block], Refusal::Recovering),
            }
        }
    }
    write_of_a_used_block_refused_in_recovery {
        fn may_write(service: &Service, client: u64, file: u64, block: u64) -> Admission {
            service.may_write(client, file, block)?;
            let clean = !service.is_dirty(client as usize, file as usize, block as usize);
            if service.server.recovering && clean { Err(Refusal::Recovering) } else { Ok(()) }
        }
    }
    write_of_a_used_block_refused_under_embargo {
        fn may_write(service: &Service, client: u64, file: u64, block: u64) -> Admission {
            service.may_write(client, file, block)?;
            let clean = !service.is_dirty(client as usize, file as usize, block as usize);
            let embargoed = service.server.embargoed.contains(client as usize);
            if embargoed && clean { Err(Refusal::UnderEmbargo) } else { Ok(()) }
        }
    }
    /// What others have lost by an embargo stays reserved for the one under it.
    dirty_block_under_embargo_is_reserved {
        fn takes_place(service: &Service, client: usize, file: usize, block: usize) -> bool {
            let mut told = service.clone();
            told.server.embargoed = ClientSet::NONE;
            told.takes_place(client, file, block)
        }
    }
}
