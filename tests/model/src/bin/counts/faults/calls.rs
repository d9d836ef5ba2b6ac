//! Faults of calls.

use model::traffic::Column::Calls;
use model::traffic::Counted;
use model::{Callbacks, Kind, Outcome};

use crate::fault::{Taken, add, count_at, faults, keep_first, leave_out};

faults! {
    call_not_counted: Line(|_, counted| leave_out(counted, Calls));
    call_counted_at_the_caller: Line(|taken, counted| {
        if let Outcome::Waits(_) = taken.line.outcome {
            count_at(counted, Calls, taken.client());
        }
    });
    call_counted_at_the_caller_too: Line(|taken, counted| {
        if let Outcome::Waits(_) = taken.line.outcome {
            add(counted, taken.client(), Calls);
        }
    });
    call_counted_once_for_all_called: Line(|_, counted| keep_first(counted, Calls));
    last_called_not_counted: Line(|_, counted| {
        if counted.iter().filter(|one| one.column == Calls).count() > 1 {
            counted.pop();
        }
    });
    all_calls_counted_at_the_first_called: Line(|taken, counted| {
        if let (Outcome::Waits(_), Some(first)) = (taken.line.outcome, counted.first()) {
            let first = first.client;
            count_at(counted, Calls, first);
        }
    });
    call_counted_at_the_answer: Line(|taken, counted| {
        leave_out(counted, Calls);
        if let Outcome::Replied { .. } = taken.line.outcome {
            add(counted, taken.client(), Calls);
        }
    });
    call_counted_at_the_answer_too: Line(|taken, counted| {
        if let Outcome::Replied { .. } = taken.line.outcome {
            add(counted, taken.client(), Calls);
        }
    });
    call_to_write_back_not_counted: Line(|taken, counted| of_kind(taken, counted, Kind::WriteBack, 0));
    call_to_invalidate_not_counted: Line(|taken, counted| of_kind(taken, counted, Kind::Invalidate, 0));
    call_for_both_not_counted: Line(|taken, counted| of_kind(taken, counted, Kind::Both, 0));
    call_for_both_counted_twice: Line(|taken, counted| of_kind(taken, counted, Kind::Both, 2));
}

/// The calls of this kind count so many times.
fn of_kind(taken: &Taken, counted: &mut Vec<Counted>, kind: Kind, times: usize) {
    let Outcome::Waits(callbacks) = taken.line.outcome else { return };
    let of_kind = |callbacks: &Callbacks, client| callbacks.kind(client) == Some(kind);
    counted.retain(|one| !of_kind(callbacks, one.client));
    for client in callbacks.clients().members().filter(|&client| of_kind(callbacks, client)) {
        (0..times).for_each(|_| add(counted, client, Calls));
    }
}
