//! What is checked beside a run: Demand 3, the invariant that carries it, the places of the store, the counts of the
//! summary, and what an explainer says of reads.

mod behind;
mod cuts;
mod demand3;
mod difference;
mod embargoes;
mod invariant;
mod memory;
mod places;
mod provenance;
mod restarts;
mod table;
mod tally;

use crate::{Outcome, Service, Step};

pub use behind::Behind;
pub use cuts::Cuts;
pub use demand3::{Breach, Demand3};
pub use difference::{Difference, shown};
pub use embargoes::Embargoes;
pub use invariant::{BrokenClause, CLAUSES, Invariant, broken_clauses};
pub use memory::{BlockWrites, KeptWrite, ReferenceMemory};
pub use places::{PlacesBreach, PlacesCheck, PlacesMet};
pub use provenance::{Provenance, Unfounded};
pub use restarts::Restarts;
pub use table::{StateTable, TableEntry};
pub use tally::Tally;

/// Sees every step of a run, before and after, and every answer.
pub trait Witness {
    fn before(&mut self, _service: &Service, _step: &Step) {}
    fn after(&mut self, _service: &Service, _step: &Step, _outcome: &Outcome) {}
    /// Called for every line, the ones that give no step included.
    fn answered(&mut self, _outcome: &Outcome) {}
}

/// Nobody watches.
impl Witness for () {}

impl<A: Witness> Witness for &mut A {
    fn before(&mut self, service: &Service, step: &Step) {
        (**self).before(service, step);
    }

    fn after(&mut self, service: &Service, step: &Step, outcome: &Outcome) {
        (**self).after(service, step, outcome);
    }

    fn answered(&mut self, outcome: &Outcome) {
        (**self).answered(outcome);
    }
}

impl<A: Witness, B: Witness> Witness for (A, B) {
    fn before(&mut self, service: &Service, step: &Step) {
        self.0.before(service, step);
        self.1.before(service, step);
    }

    fn after(&mut self, service: &Service, step: &Step, outcome: &Outcome) {
        self.0.after(service, step, outcome);
        self.1.after(service, step, outcome);
    }

    fn answered(&mut self, outcome: &Outcome) {
        self.0.answered(outcome);
        self.1.answered(outcome);
    }
}
