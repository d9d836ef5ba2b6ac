//! Faults of refusals, and lines that count although they name no client that is there.

use model::traffic::Column::{Opens, Refusals};
use model::traffic::{Counted, Totals};
use model::{CLIENTS, Outcome, Refusal, Step};

use crate::fault::{Taken, add, faults, leave_out};

faults! {
    // One number that does not count.
    refusal_3_not_counted: Line(|taken, counted| not_counted(taken, counted, Refusal::NoSuchFile));
    refusal_4_not_counted: Line(|taken, counted| not_counted(taken, counted, Refusal::NoSuchBlock));
    refusal_5_not_counted: Line(|taken, counted| not_counted(taken, counted, Refusal::Recovering));
    refusal_6_not_counted: Line(|taken, counted| not_counted(taken, counted, Refusal::NotRecovering));
    refusal_7_not_counted: Line(|taken, counted| not_counted(taken, counted, Refusal::AlreadyReported));
    refusal_9_not_counted: Line(|taken, counted| not_counted(taken, counted, Refusal::OpenWaits));
    refusal_10_not_counted: Line(|taken, counted| not_counted(taken, counted, Refusal::NoCallback));
    refusal_11_not_counted: Line(|taken, counted| not_counted(taken, counted, Refusal::NotOpen));
    refusal_12_not_counted: Line(|taken, counted| not_counted(taken, counted, Refusal::CountAtLimit));
    refusal_13_not_counted: Line(|taken, counted| not_counted(taken, counted, Refusal::NotDirty));
    refusal_20_not_counted: Line(|taken, counted| not_counted(taken, counted, Refusal::UnderEmbargo));
    refusal_21_not_counted: Line(|taken, counted| not_counted(taken, counted, Refusal::NotUnderEmbargo));

    // One kind of step.
    refused_report_not_counted: Line(|taken, counted| {
        if let Some(Step::Report { .. }) = taken.line.step {
            leave_out(counted, Refusals);
        }
    });
    refused_embargo_not_counted: Line(|taken, counted| {
        if let Some(Step::Embargo { .. }) = taken.line.step {
            leave_out(counted, Refusals);
        }
    });
    full_store_not_counted: Line(|taken, counted| {
        if is_refused_with(taken, Refusal::NoPlace) {
            leave_out(counted, Refusals);
        }
    });
    open_that_waits_counted_as_a_refusal: Line(|taken, counted| {
        if let Outcome::Waits(_) = taken.line.outcome {
            add(counted, taken.client(), Refusals);
        }
    });

    // Lines that name no client that is there.
    no_step_counted_at_client_0: Line(|taken, counted| {
        if is_refused_with(taken, Refusal::NotAStep) {
            add(counted, 0, Refusals);
        }
    });
    refused_settings_counted_at_client_0: Line(|taken, counted| {
        if is_refused_with(taken, Refusal::SettingOutOfRange) {
            add(counted, 0, Refusals);
        }
    });
    client_that_is_not_there_counted_at_client_0: Line(|taken, counted| {
        if is_refused_with(taken, Refusal::NoSuchClient) {
            add(counted, 0, Refusals);
        }
    });
    client_that_is_not_there_counted_at_the_last: Line(|taken, counted| {
        if is_refused_with(taken, Refusal::NoSuchClient) {
            add(counted, taken.sizes().clients - 1, Refusals);
        }
    });
    client_that_is_not_there_cut_to_three_bits: Line(|taken, counted| {
        if let Some(client) = client_not_there(taken) {
            add(counted, (client % CLIENTS as u64) as usize, Refusals);
        }
    });
    client_past_the_settings_counted_in_all: LineAndTable(
        |taken, counted| {
            if let Some(client) = client_not_there(taken).filter(|&client| client < CLIENTS as u64) {
                add(counted, client as usize, Refusals);
            }
        },
        |table| {
            table.all = Totals::default();
            table.clients.iter().for_each(|totals| table.all.add(totals));
        }
    );
    refused_end_counted_at_client_0: Line(|taken, counted| {
        if let (Some(Step::End), Outcome::Refused(_)) = (taken.line.step, taken.line.outcome) {
            add(counted, 0, Refusals);
        }
    });
    end_without_a_recovery_alone_counted_at_client_0: Line(|taken, counted| {
        if let (Some(Step::End), true) = (taken.line.step, is_refused_with(taken, Refusal::NotRecovering)) {
            add(counted, 0, Refusals);
        }
    });
    crash_counted_as_an_open_of_client_0: Line(|taken, counted| {
        if let Some(Step::Crash) = taken.line.step {
            add(counted, 0, Opens);
        }
    });
    end_counted_as_an_open_of_client_0: Line(|taken, counted| {
        if let (Some(Step::End), Outcome::Done) = (taken.line.step, taken.line.outcome) {
            add(counted, 0, Opens);
        }
    });
    settings_counted_as_an_open_of_client_0: Line(|taken, counted| {
        if let (None, Outcome::Done) = (taken.line.step, taken.line.outcome) {
            add(counted, 0, Opens);
        }
    });
}

fn is_refused_with(taken: &Taken, refusal: Refusal) -> bool {
    *taken.line.outcome == Outcome::Refused(refusal)
}

fn not_counted(taken: &Taken, counted: &mut Vec<Counted>, refusal: Refusal) {
    if is_refused_with(taken, refusal) {
        leave_out(counted, Refusals);
    }
}

/// The client that the step names, if it is not there.
fn client_not_there(taken: &Taken) -> Option<u64> {
    taken.line.step?.client().filter(|&client| client >= taken.sizes().clients as u64)
}
