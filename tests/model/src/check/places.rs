//! The places of the store (document 02, Wish 13) over a whole run, by sets of blocks: what is used is kept by the
//! steps, what is reserved is looked up at the clients, and nothing is counted up or down. "From a fresh service free,
//! used and reserved make the size after every step outside recovery"; in a recovery they do with what the clients that
//! have reported reserve.

use std::collections::BTreeSet;
use std::fmt;

use super::Witness;
use crate::{Outcome, Refusal, Service, Step};

/// File and block.
pub type Block = (usize, usize);

#[derive(Clone, PartialEq, Eq, Debug)]
pub enum PlacesBreach {
    /// Free, used and reserved do not make the size.
    Sum { line: usize, free: usize, used: usize, reserved: usize, store: usize },
    /// The server has other blocks used than those that a write has reached.
    Used { line: usize },
    /// A block that is not used is not zero.
    NotZero { line: usize, file: usize, block: usize },
    /// A write that takes no place got 23, or one while some was free, or another step did.
    Refused { line: usize },
    /// A write took a place while none was free, or in a recovery, or under embargo.
    Accepted { line: usize },
}

#[derive(Default)]
pub struct PlacesCheck {
    /// The blocks that a write has reached at the server.
    used: BTreeSet<Block>,
    /// What the step that is taken next would find.
    before: Before,
    line: usize,
    breach: Option<PlacesBreach>,
    met: PlacesMet,
}

/// What a run of a small store has met.
#[derive(Clone, Copy, Default)]
pub struct PlacesMet {
    /// Writes that took a place.
    taken: u64,
    /// Restarts and embargoes that freed some, in a recovery too.
    freed_by_restarts: u64,
    freed_by_embargoes: u64,
    freed_in_recovery: u64,
    /// Reports that took some.
    taken_by_reports: u64,
    refused: u64,
}

impl PlacesMet {
    pub fn add(&mut self, other: &PlacesMet) {
        let PlacesMet { taken, freed_by_restarts, freed_by_embargoes, freed_in_recovery, .. } = other;
        self.taken += taken;
        self.freed_by_restarts += freed_by_restarts;
        self.freed_by_embargoes += freed_by_embargoes;
        self.freed_in_recovery += freed_in_recovery;
        self.taken_by_reports += other.taken_by_reports;
        self.refused += other.refused;
    }

    /// The least of all counts.
    pub fn least(&self) -> u64 {
        self.counts().into_iter().map(|(count, _)| count).fold(u64::MAX, u64::min)
    }

    fn counts(&self) -> [(u64, &'static str); 6] {
        [
            (self.taken, "taken by writes"),
            (self.freed_by_restarts, "freed by restarts"),
            (self.freed_by_embargoes, "by embargoes"),
            (self.freed_in_recovery, "by restarts in recovery"),
            (self.taken_by_reports, "taken by reports"),
            (self.refused, "none free"),
        ]
    }
}

impl fmt::Display for PlacesMet {
    fn fmt(&self, out: &mut fmt::Formatter) -> fmt::Result {
        let told: Vec<String> = self.counts().into_iter().map(|(count, what)| format!("{what} {count}")).collect();
        write!(out, "places: {}", told.join(", "))
    }
}

#[derive(Clone, Default)]
struct Before {
    /// The blocks that the step sends to the server if it is accepted.
    sent: BTreeSet<Block>,
    /// Whether the step is a write of a block that is neither used, reserved nor dirty at its client.
    takes: bool,
    none_free: bool,
    /// Whether the server recovers, or has the client of the step under embargo.
    shut: bool,
    held: usize,
}

/// The dirty blocks of a client, in all files.
fn dirty_at(service: &Service, client: usize) -> impl Iterator<Item = Block> {
    let sizes = service.sizes();
    let places = (0..sizes.files).flat_map(move |file| (0..sizes.blocks).map(move |block| (file, block)));
    places.filter(move |&(file, block)| service.clients[client].files[file].copies.dirty[block])
}

impl PlacesCheck {
    /// The first breach of the run.
    pub fn breach(&self) -> Option<&PlacesBreach> {
        self.breach.as_ref()
    }

    pub fn met(&self) -> &PlacesMet {
        &self.met
    }

    /// Dirty and not used, at clients without embargo; in a recovery, at those alone that have reported.
    fn reserved(&self, service: &Service, heard_alone: bool) -> BTreeSet<Block> {
        let server = &service.server;
        let reserves =
            |client: &usize| !server.embargoed.contains(*client) && (!heard_alone || server.reported.contains(*client));
        let clients = (0..service.sizes().clients).filter(reserves);
        let dirty: BTreeSet<Block> = clients.flat_map(|client| dirty_at(service, client)).collect();
        dirty.difference(&self.used).copied().collect()
    }

    fn look(&self, service: &Service, step: &Step) -> Before {
        let sizes = service.sizes();
        let free = service.server.free.min(sizes.store);
        let mut before = Before { none_free: free == 0, held: sizes.store - free, ..Before::default() };
        let Some((client, file)) = step.existing_place(sizes) else { return before };
        let own = &service.clients[client].files[file];
        before.shut = service.server.recovering || service.server.embargoed.contains(client);
        match *step {
            Step::Write { block, .. } if block < sizes.blocks as u64 => {
                let at = (file, block as usize);
                let reserved = self.reserved(service, false).contains(&at);
                before.takes = !self.used.contains(&at) && !reserved && !own.copies.dirty[at.1];
                before.sent = if own.record.may_cache { BTreeSet::new() } else { BTreeSet::from([at]) };
            }
            Step::Flush { block, .. } if block < sizes.blocks as u64 => {
                before.sent = BTreeSet::from([(file, block as usize)]);
            }
            Step::Reply { .. } => {
                let kind = service.server.entries[file].callback(sizes, client);
                if kind.is_some_and(|kind| kind.writes_back()) {
                    before.sent = dirty_at(service, client).filter(|&(of, _)| of == file).collect();
                }
            }
            _ => {}
        }
        before
    }

    fn judge(&self, service: &Service, outcome: &Outcome) -> Option<PlacesBreach> {
        let (line, sizes, server) = (self.line + 1, service.sizes(), &service.server);
        let Before { takes, none_free, shut, .. } = self.before;
        let refused = *outcome == Outcome::Refused(Refusal::NoPlace);
        if refused && !(takes && none_free) {
            return Some(PlacesBreach::Refused { line });
        }
        if takes && *outcome == Outcome::Done && (none_free || shut) {
            return Some(PlacesBreach::Accepted { line });
        }
        let all = (0..sizes.files).flat_map(|file| (0..sizes.blocks).map(move |block| (file, block)));
        let told: BTreeSet<Block> = all.clone().filter(|&(file, block)| server.entries[file].used[block]).collect();
        if told != self.used {
            return Some(PlacesBreach::Used { line });
        }
        let not_zero = |&(file, block): &Block| server.entries[file].blocks[block] != 0;
        if let Some((file, block)) = all.filter(not_zero).find(|at| !self.used.contains(at)) {
            return Some(PlacesBreach::NotZero { line, file, block });
        }
        let (free, store, used) = (server.free, sizes.store, self.used.len());
        let reserved = self.reserved(service, server.recovering).len();
        (free.min(store) + used + reserved != store).then_some(PlacesBreach::Sum { line, free, used, reserved, store })
    }

    fn count(&mut self, service: &Service, step: &Step, outcome: &Outcome) {
        let held = service.sizes().store - service.server.free.min(service.sizes().store);
        let (taken, freed) = (held > self.before.held, held < self.before.held);
        let met = &mut self.met;
        met.refused += u64::from(*outcome == Outcome::Refused(Refusal::NoPlace));
        match step {
            Step::Write { .. } => met.taken += u64::from(taken),
            Step::Report { .. } => met.taken_by_reports += u64::from(taken),
            Step::Restart { .. } if service.server.recovering => met.freed_in_recovery += u64::from(freed),
            Step::Restart { .. } => met.freed_by_restarts += u64::from(freed),
            Step::Embargo { .. } => met.freed_by_embargoes += u64::from(freed),
            _ => {}
        }
    }
}

impl Witness for PlacesCheck {
    fn before(&mut self, service: &Service, step: &Step) {
        self.before = self.look(service, step);
    }

    fn after(&mut self, service: &Service, step: &Step, outcome: &Outcome) {
        if !matches!(outcome, Outcome::Refused(_)) {
            self.used.append(&mut self.before.sent);
        }
        let breach = self.judge(service, outcome);
        self.breach = self.breach.take().or(breach);
        self.count(service, step, outcome);
    }

    fn answered(&mut self, _outcome: &Outcome) {
        self.line += 1;
    }
}
