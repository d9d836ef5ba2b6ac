//! Demand 3 over a whole run: reads by the reference memory, and the table that a recovery brings back, without the
//! clients that restarted since the crash. One under embargo has nothing in it. "Reports of stations that follow the
//! rules always pass" (document 02, Wish 10) stands beside it: no report gets 22.

use super::{ReferenceMemory, StateTable, Witness};
use crate::{Outcome, Refusal, Service, Step};

#[derive(Clone, PartialEq, Eq, Debug)]
pub enum Breach {
    Read { line: usize, expected: u64, got: u64 },
    TableNotRestored { line: usize },
    OpenWaitsAfterRecovery { line: usize },
    ReportsClash { line: usize },
}

#[derive(Default)]
pub struct Demand3 {
    memory: ReferenceMemory,
    before_recovery: Option<StateTable>,
    /// Whether the next step is a write that stays in its client's copy.
    delayed: bool,
    line: usize,
    breach: Option<Breach>,
}

impl Demand3 {
    pub fn memory(&self) -> &ReferenceMemory {
        &self.memory
    }

    /// In a recovery: the table just before the crash that began it, without the clients that restarted since.
    pub fn before_recovery(&self) -> Option<&StateTable> {
        self.before_recovery.as_ref()
    }

    /// The first breach of the run.
    pub fn breach(&self) -> Option<&Breach> {
        self.breach.as_ref()
    }

    fn judge(&self, service: &Service, step: &Step, outcome: &Outcome) -> Option<Breach> {
        let line = self.line + 1;
        if let Outcome::Value(got) = *outcome
            && let Some(expected) = self.memory.expected(step)
            && got != expected
        {
            return Some(Breach::Read { line, expected, got });
        }
        if *outcome == Outcome::Refused(Refusal::ReportsClash) {
            return Some(Breach::ReportsClash { line });
        }
        if *step != Step::End || *outcome != Outcome::Done {
            return None;
        }
        if self.before_recovery != Some(StateTable::of(service)) {
            return Some(Breach::TableNotRestored { line });
        }
        let sizes = service.sizes();
        let waits = service.server.entries[..sizes.files].iter().any(|entry| entry.waiting.read(sizes).is_some());
        waits.then_some(Breach::OpenWaitsAfterRecovery { line })
    }
}

/// Of a write: whether the client may cache, by its own record.
fn is_delayed(service: &Service, step: &Step) -> bool {
    let place = step.existing_place(service.sizes());
    let may_cache = |(client, file): (usize, usize)| service.clients[client].files[file].record.may_cache;
    matches!(step, Step::Write { .. }) && place.is_some_and(may_cache)
}

impl Witness for Demand3 {
    /// The table is noted by the steps alone: a recovery begins with a crash and ends with an accepted end.
    fn before(&mut self, service: &Service, step: &Step) {
        if *step == Step::Crash && self.before_recovery.is_none() {
            self.before_recovery = Some(StateTable::of(service));
        }
        self.delayed = is_delayed(service, step);
    }

    fn after(&mut self, service: &Service, step: &Step, outcome: &Outcome) {
        let breach = self.judge(service, step, outcome);
        self.breach = self.breach.take().or(breach);
        self.memory.feed(step, matches!(outcome, Outcome::Refused(_)), self.delayed);
        if let (Step::Restart { client }, Outcome::Restarted { .. }, Some(table)) =
            (*step, outcome, &mut self.before_recovery)
        {
            table.forget(client as usize);
        }
        if *step == Step::End && *outcome == Outcome::Done {
            self.before_recovery = None;
        }
    }

    fn answered(&mut self, _outcome: &Outcome) {
        self.line += 1;
    }
}
