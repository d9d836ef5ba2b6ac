//! What counts of a line, and at which client.

use super::Column;
use crate::{Outcome, Service, Sizes, Step};

/// One more in this column, at this client.
#[derive(Clone, Copy, PartialEq, Eq, Debug)]
pub struct Counted {
    pub client: usize,
    pub column: Column,
}

/// What a read or a write finds at its client, just before it.
#[derive(Clone, Copy, PartialEq, Eq, Debug, Default)]
pub struct Found {
    pub open: bool,
    pub may_cache: bool,
    /// Whether the client holds the block.
    pub held: bool,
}

impl Found {
    /// Nothing where the step is neither, or names a client, file or block that is not there.
    pub fn by(step: &Step, service: &Service) -> Self {
        let (Step::Read { block, .. } | Step::Write { block, .. }) = *step else { return Found::default() };
        let sizes = service.sizes();
        let Some((client, file)) = step.existing_place(sizes) else { return Found::default() };
        let file = &service.clients[client].files[file];
        let held = block < sizes.blocks as u64 && file.copies.held[block as usize];
        Found { open: file.record.is_open(), may_cache: file.record.may_cache, held }
    }

    /// The block of a read comes from the copy.
    pub fn is_hit(self) -> bool {
        self.open && self.may_cache && self.held
    }
}

/// A line of the step file, and its answer.
pub struct Line<'a> {
    /// None for a line that gives no step, and for a line SET.
    pub step: Option<Step>,
    pub found: Found,
    pub outcome: &'a Outcome,
}

impl Line<'_> {
    /// "A step that names no valid station makes none."
    pub fn client(&self, sizes: Sizes) -> Option<usize> {
        let client = self.step?.client()?;
        (client < sizes.clients as u64).then_some(client as usize)
    }

    /// Lists what counts of this line.
    pub fn list(&self, sizes: Sizes, counted: &mut Vec<Counted>) {
        let Some(client) = self.client(sizes) else { return };
        let mut at = |client, column| counted.push(Counted { client, column });
        match self.outcome {
            // "Each N as a refusal."
            Outcome::Refused(_) => at(client, Column::Refusals),
            // "Opens .. count when granted": the answer, restart or embargo that grants the waiting open of another
            // counts it, at the opener.
            Outcome::Granted(_) => at(client, Column::Opens),
            // "A call at the station called."
            Outcome::Waits(callbacks) => callbacks.clients().members().for_each(|called| at(called, Column::Calls)),
            Outcome::Replied { sent, granted } => {
                (0..*sent).for_each(|_| at(client, Column::WritesSent));
                granted.iter().for_each(|(opener, _)| at(*opener, Column::Opens));
            }
            Outcome::Restarted { granted } | Outcome::Embargoed { granted } => {
                granted.iter().for_each(|open| at(open.opener, Column::Opens));
            }
            // "An accepted read not a hit as a fetch."
            Outcome::Value(_) => {
                at(client, Column::AcceptedReads);
                at(client, if self.found.is_hit() { Column::Hits } else { Column::Fetches });
            }
            Outcome::Done => match self.step {
                Some(Step::Close { .. }) => at(client, Column::Closes),
                // "Each block sent, uncached too, is a record."
                Some(Step::Flush { .. }) => at(client, Column::WritesSent),
                Some(Step::Write { .. }) if !self.found.may_cache => at(client, Column::WritesSent),
                _ => {}
            },
        }
    }
}
