//! Faults of the writes that are sent.

use model::traffic::Column::{Refusals, WritesSent};
use model::{Mode, Outcome, Step};

use crate::fault::{Taken, add, count_as, count_at, faults, keep_first, leave_out};

faults! {
    // Writes.
    write_without_permission_not_counted: Line(|taken, counted| {
        if let Some(Step::Write { .. }) = taken.line.step {
            leave_out(counted, WritesSent);
        }
    });
    delayed_write_counted: Line(|taken, counted| {
        if is_delayed_write(taken) {
            add(counted, taken.client(), WritesSent);
        }
    });
    delayed_write_of_a_block_not_held_counted: Line(|taken, counted| {
        if is_delayed_write(taken) && !taken.line.found.held {
            add(counted, taken.client(), WritesSent);
        }
    });
    write_under_embargo_counted: Line(|taken, counted| {
        if is_delayed_write(taken) && taken.service.server.embargoed.contains(taken.client()) {
            add(counted, taken.client(), WritesSent);
        }
    });
    write_in_recovery_counted: Line(|taken, counted| {
        if is_delayed_write(taken) && taken.service.server.recovering {
            add(counted, taken.client(), WritesSent);
        }
    });
    refused_write_counted: Line(|taken, counted| {
        if let (Some(Step::Write { .. }), Outcome::Refused(_)) = (taken.line.step, taken.line.outcome) {
            count_as(counted, Refusals, WritesSent);
        }
    });

    // Flushes.
    flush_not_counted: Line(|taken, counted| {
        if let Some(Step::Flush { .. }) = taken.line.step {
            leave_out(counted, WritesSent);
        }
    });
    flush_of_a_closed_file_not_counted: Line(|taken, counted| {
        if let Some(step @ Step::Flush { .. }) = taken.line.step
            && let Some((client, file)) = step.existing_place(taken.sizes())
            && !taken.service.clients[client].files[file].record.is_open()
        {
            leave_out(counted, WritesSent);
        }
    });
    refused_flush_counted: Line(|taken, counted| {
        if let (Some(Step::Flush { .. }), Outcome::Refused(_)) = (taken.line.step, taken.line.outcome) {
            count_as(counted, Refusals, WritesSent);
        }
    });

    // Answers.
    answer_counted_once_whatever_it_sends: Line(|taken, counted| {
        if let Outcome::Replied { .. } = taken.line.outcome {
            leave_out(counted, WritesSent);
            add(counted, taken.client(), WritesSent);
        }
    });
    several_blocks_of_an_answer_counted_once: Line(|taken, counted| {
        if let Outcome::Replied { .. } = taken.line.outcome {
            keep_first(counted, WritesSent);
        }
    });
    answer_with_no_block_counted: Line(|taken, counted| {
        if let Outcome::Replied { sent: 0, .. } = taken.line.outcome {
            add(counted, taken.client(), WritesSent);
        }
    });
    blocks_of_an_answer_not_counted: Line(|taken, counted| {
        if let Outcome::Replied { .. } = taken.line.outcome {
            leave_out(counted, WritesSent);
        }
    });
    blocks_of_an_answer_counted_at_the_opener: Line(|taken, counted| {
        if let Outcome::Replied { granted: Some((opener, _)), .. } = taken.line.outcome {
            count_at(counted, WritesSent, *opener);
        }
    });

    // Steps that send nothing.
    close_for_write_counted_as_sent: Line(|taken, counted| {
        if let (Some(Step::Close { mode: Mode::Write, .. }), Outcome::Done) = (taken.line.step, taken.line.outcome) {
            add(counted, taken.client(), WritesSent);
        }
    });
    restart_counted_as_sent: Line(|taken, counted| {
        if let Outcome::Restarted { .. } = taken.line.outcome {
            add(counted, taken.client(), WritesSent);
        }
    });
    embargo_counted_as_sent: Line(|taken, counted| {
        if let Outcome::Embargoed { .. } = taken.line.outcome {
            add(counted, taken.client(), WritesSent);
        }
    });
}

fn is_delayed_write(taken: &Taken) -> bool {
    let done = matches!((taken.line.step, taken.line.outcome), (Some(Step::Write { .. }), Outcome::Done));
    done && taken.line.found.may_cache
}
