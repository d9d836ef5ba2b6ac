//! Faults of reads: hits, fetches and accepted reads.

use model::traffic::Column::{self, AcceptedReads, Fetches, Hits, Refusals};
use model::traffic::{Counted, Found};
use model::{Outcome, Step};

use crate::fault::{Taken, add, count_as, faults, leave_out};

faults! {
    // Hits and fetches.
    hit_counted_as_a_fetch: Line(|_, counted| count_as(counted, Hits, Fetches));
    fetch_counted_as_a_hit: Line(|_, counted| count_as(counted, Fetches, Hits));
    hit_counted_as_a_fetch_too: Line(|_, counted| count_too(counted, Hits, Fetches));
    fetch_counted_as_a_hit_too: Line(|_, counted| count_too(counted, Fetches, Hits));
    hit_not_counted: Line(|_, counted| leave_out(counted, Hits));
    fetch_not_counted: Line(|_, counted| leave_out(counted, Fetches));
    fetch_without_permission_not_counted: Line(|taken, counted| {
        if !taken.line.found.may_cache {
            leave_out(counted, Fetches);
        }
    });
    fetch_with_permission_not_counted: Line(|taken, counted| {
        if taken.line.found.may_cache {
            leave_out(counted, Fetches);
        }
    });
    read_without_permission_counted_as_a_hit: Line(|taken, counted| {
        if !taken.line.found.may_cache {
            count_as(counted, Fetches, Hits);
        }
    });
    hit_judged_after_the_read: Line(|taken, counted| {
        if let (Some(step), Outcome::Value(_)) = (&taken.line.step, taken.line.outcome)
            && Found::by(step, taken.service).is_hit()
        {
            count_as(counted, Fetches, Hits);
        }
    });
    hit_of_a_dirty_block_counted_as_a_fetch: Line(|taken, counted| {
        if is_dirty(taken) {
            count_as(counted, Hits, Fetches);
        }
    });
    hit_of_a_clean_block_counted_as_a_fetch: Line(|taken, counted| {
        if !is_dirty(taken) {
            count_as(counted, Hits, Fetches);
        }
    });
    hit_in_recovery_counted_as_a_fetch: Line(|taken, counted| {
        if taken.service.server.recovering {
            count_as(counted, Hits, Fetches);
        }
    });
    hit_under_embargo_counted_as_a_fetch: Line(|taken, counted| {
        if counted.iter().any(|one| taken.service.server.embargoed.contains(one.client)) {
            count_as(counted, Hits, Fetches);
        }
    });

    // Accepted reads.
    fetch_not_counted_as_an_accepted_read: Line(|_, counted| not_accepted_beside(counted, Fetches));
    hit_not_counted_as_an_accepted_read: Line(|_, counted| not_accepted_beside(counted, Hits));
    refused_read_counted_as_accepted: Line(|taken, counted| {
        if is_refused_read(taken) {
            count_too(counted, Refusals, AcceptedReads);
        }
    });
    refused_read_counted_as_a_fetch: Line(|taken, counted| {
        if is_refused_read(taken) {
            count_too(counted, Refusals, Fetches);
        }
    });
    refused_read_counted_as_a_hit: Line(|taken, counted| {
        if is_refused_read(taken) {
            count_too(counted, Refusals, Hits);
        }
    });
    write_counted_as_an_accepted_read: Line(|taken, counted| {
        if let (Some(Step::Write { .. }), Outcome::Done) = (taken.line.step, taken.line.outcome) {
            add(counted, taken.client(), AcceptedReads);
        }
    });
}

/// What stands in one column counts in another too.
fn count_too(counted: &mut Vec<Counted>, column: Column, other: Column) {
    let too: Vec<Counted> = counted.iter().filter(|one| one.column == column).copied().collect();
    counted.extend(too.iter().map(|one| Counted { column: other, ..*one }));
}

fn not_accepted_beside(counted: &mut Vec<Counted>, column: Column) {
    if counted.iter().any(|one| one.column == column) {
        leave_out(counted, AcceptedReads);
    }
}

/// Whether the block of the read is dirty at the client; the read leaves it so.
fn is_dirty(taken: &Taken) -> bool {
    let (Some(step @ Step::Read { block, .. }), Outcome::Value(_)) = (taken.line.step, taken.line.outcome) else {
        return false;
    };
    let place = step.existing_place(taken.sizes());
    place.is_some_and(|(client, file)| taken.service.clients[client].files[file].copies.dirty[block as usize])
}

fn is_refused_read(taken: &Taken) -> bool {
    matches!((taken.line.step, taken.line.outcome), (Some(Step::Read { .. }), Outcome::Refused(_)))
}
