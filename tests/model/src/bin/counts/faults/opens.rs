//! Faults of opens and closes.

use model::traffic::Column::{self, Closes, Opens, Refusals};
use model::traffic::Counted;
use model::{Grant, Mode, Outcome, Record, Step};

use crate::fault::{Taken, add, count_as, count_at, faults, keep_first, leave_out};

faults! {
    // An open that waits.
    waiting_open_counted: Line(|taken, counted| {
        if let Outcome::Waits(_) = taken.line.outcome {
            add(counted, taken.client(), Opens);
        }
    });
    open_counted_at_its_request: Line(|taken, counted| match taken.line.outcome {
        Outcome::Waits(_) => add(counted, taken.client(), Opens),
        Outcome::Granted(_) => {}
        _ => leave_out(counted, Opens),
    });

    // An open that is granted.
    open_granted_at_once_not_counted: Line(|taken, counted| {
        if let Outcome::Granted(_) = taken.line.outcome {
            leave_out(counted, Opens);
        }
    });
    read_open_not_counted: Line(|taken, counted| {
        if opens(taken, Mode::Read) {
            leave_out(counted, Opens);
        }
    });
    write_open_not_counted: Line(|taken, counted| {
        if opens(taken, Mode::Write) {
            leave_out(counted, Opens);
        }
    });
    open_without_permission_not_counted: Line(|taken, counted| {
        if let Outcome::Replied { granted: Some((_, Grant { may_cache: false, .. })), .. } = taken.line.outcome {
            leave_out(counted, Opens);
        }
    });
    open_of_an_open_file_not_counted: Line(|taken, counted| {
        if let Outcome::Granted(_) = taken.line.outcome
            && record(taken).is_some_and(|record| u16::from(record.readers) + u16::from(record.writers) > 1)
        {
            leave_out(counted, Opens);
        }
    });
    granted_open_not_counted: Line(|taken, counted| {
        if let Outcome::Replied { .. } = taken.line.outcome {
            leave_out(counted, Opens);
        }
    });
    granted_open_counted_at_the_answerer: Line(|taken, counted| {
        if let Outcome::Replied { .. } = taken.line.outcome {
            count_at(counted, Opens, taken.client());
        }
    });
    granted_open_counted_twice: Line(|taken, counted| {
        if let Outcome::Replied { granted: Some((opener, _)), .. } = taken.line.outcome {
            add(counted, *opener, Opens);
        }
    });
    every_answer_counted_as_a_grant: Line(|taken, counted| {
        if let Outcome::Replied { granted: None, .. } = taken.line.outcome {
            add(counted, taken.client(), Opens);
        }
    });
    refused_open_counted: Line(|taken, counted| {
        if let (Some(Step::Open { .. }), Outcome::Refused(_)) = (taken.line.step, taken.line.outcome) {
            count_as(counted, Refusals, Opens);
        }
    });

    // The grants of a restart and of an embargo.
    grants_of_a_restart_not_counted: Line(|taken, counted| on_restart(taken, counted, leave_out_opens));
    grants_of_an_embargo_not_counted: Line(|taken, counted| on_embargo(taken, counted, leave_out_opens));
    first_grant_of_a_restart_alone_counted: Line(|taken, counted| on_restart(taken, counted, keep_first_open));
    first_grant_of_an_embargo_alone_counted: Line(|taken, counted| on_embargo(taken, counted, keep_first_open));
    last_grant_of_a_restart_alone_counted: Line(|taken, counted| on_restart(taken, counted, keep_last));
    last_grant_of_an_embargo_alone_counted: Line(|taken, counted| on_embargo(taken, counted, keep_last));
    one_grant_of_a_restart_for_each_opener: Line(|taken, counted| on_restart(taken, counted, |_, counted| {
        counted.dedup();
    }));
    grants_of_a_restart_counted_at_the_one_that_restarts: Line(|taken, counted| {
        on_restart(taken, counted, |client, counted| count_at(counted, Opens, client));
    });
    grants_of_an_embargo_counted_at_the_one_put_aside: Line(|taken, counted| {
        on_embargo(taken, counted, |client, counted| count_at(counted, Opens, client));
    });

    // Closes.
    close_not_counted: Line(|_, counted| leave_out(counted, Closes));
    close_for_read_not_counted: Line(|taken, counted| {
        if let Some(Step::Close { mode: Mode::Read, .. }) = taken.line.step {
            leave_out(counted, Closes);
        }
    });
    close_for_write_not_counted: Line(|taken, counted| {
        if let Some(Step::Close { mode: Mode::Write, .. }) = taken.line.step {
            leave_out(counted, Closes);
        }
    });
    final_close_alone_counted: Line(|taken, counted| {
        if record(taken).is_some_and(|record| record.is_open()) {
            leave_out(counted, Closes);
        }
    });
    refused_close_counted: Line(|taken, counted| {
        if let (Some(Step::Close { .. }), Outcome::Refused(_)) = (taken.line.step, taken.line.outcome) {
            count_as(counted, Refusals, Closes);
        }
    });
    close_counted_at_the_request_too: Line(|taken, counted| {
        if let (Some(Step::Close { .. }), [Counted { client, column: Refusals }]) = (taken.line.step, &counted[..]) {
            add(counted, *client, Closes);
        }
    });

    // Steps that count nothing of their own.
    report_counted_as_an_open: Line(|taken, counted| on_done(taken, counted, |step| {
        matches!(step, Step::Report { .. }).then_some(Opens)
    }));
    lift_counted_as_a_close: Line(|taken, counted| on_done(taken, counted, |step| {
        matches!(step, Step::Lift { .. }).then_some(Closes)
    }));
    restart_counted_as_a_close: Line(|taken, counted| on_restart(taken, counted, |client, counted| {
        add(counted, client, Closes);
    }));
    embargo_counted_as_a_close: Line(|taken, counted| on_embargo(taken, counted, |client, counted| {
        add(counted, client, Closes);
    }));
}

fn opens(taken: &Taken, in_mode: Mode) -> bool {
    matches!(taken.line.step, Some(Step::Open { mode, .. }) if mode == in_mode)
}

/// The client's own record of the file that the step names, after the step.
fn record(taken: &Taken) -> Option<Record> {
    let (client, file) = taken.line.step?.existing_place(taken.sizes())?;
    Some(taken.service.clients[client].files[file].record)
}

fn on_restart(taken: &Taken, counted: &mut Vec<Counted>, change: fn(usize, &mut Vec<Counted>)) {
    if let Outcome::Restarted { .. } = taken.line.outcome {
        change(taken.client(), counted);
    }
}

fn on_embargo(taken: &Taken, counted: &mut Vec<Counted>, change: fn(usize, &mut Vec<Counted>)) {
    if let Outcome::Embargoed { .. } = taken.line.outcome {
        change(taken.client(), counted);
    }
}

/// One more in the column that this gives, if the step is done.
fn on_done(taken: &Taken, counted: &mut Vec<Counted>, column: fn(&Step) -> Option<Column>) {
    if let (Some(step), Outcome::Done) = (&taken.line.step, taken.line.outcome)
        && let Some(column) = column(step)
    {
        add(counted, taken.client(), column);
    }
}

fn leave_out_opens(_client: usize, counted: &mut Vec<Counted>) {
    leave_out(counted, Opens);
}

fn keep_first_open(_client: usize, counted: &mut Vec<Counted>) {
    keep_first(counted, Opens);
}

fn keep_last(_client: usize, counted: &mut Vec<Counted>) {
    counted.drain(..counted.len().saturating_sub(1));
}
