//! Counts of what embargoes meet and bring about (document 02, Wish 9).

use std::fmt;

use super::Witness;
use crate::{ClientSet, Outcome, Refusal, Service, Step};

#[derive(Default)]
pub struct Embargoes {
    /// What the step that is taken next finds.
    before: Before,
    embargoes: u64,
    /// Opens of others that they granted.
    grants: u64,
    on_several_files: u64,
    /// Blocks whose latest writes were lost.
    writes_lost: u64,
    /// Of a client that has another file open too.
    of_other_files: u64,
    /// While another client is under embargo.
    beside_another: u64,
    lifts: u64,
    lifts_in_recovery: u64,
    restarts: u64,
    restarts_in_recovery: u64,
    reads: u64,
    writes: u64,
    accesses_in_recovery: u64,
    crashes: u64,
    /// Ends that did not wait for a client under embargo.
    ends: u64,
    /// Steps refused with 20 that would get 5, or 6, without the embargo.
    before_recovering: u64,
    before_not_recovering: u64,
}

#[derive(Clone, Copy, Default)]
struct Before {
    embargoed: ClientSet,
    recovering: bool,
    /// Of an embargo: the dirty blocks of its client, and whether it has another file open.
    dirty: u64,
    has_others_open: bool,
}

impl Before {
    fn of(service: &Service, step: &Step) -> Self {
        let sizes = service.sizes();
        let (embargoed, recovering) = (service.server.embargoed.and(sizes.client_set()), service.server.recovering);
        let (mut dirty, mut has_others_open) = (0, false);
        if let (Step::Embargo { .. }, Some((client, named))) = (step, step.existing_place(sizes)) {
            for (file, own) in service.clients[client].files[..sizes.files].iter().enumerate() {
                dirty += own.copies.count_dirty(sizes) as u64;
                has_others_open |= file != named && own.record.is_open();
            }
        }
        Before { embargoed, recovering, dirty, has_others_open }
    }
}

impl Embargoes {
    pub fn embargoes(&self) -> u64 {
        self.embargoes
    }

    /// The least of all counts.
    pub fn least(&self) -> u64 {
        self.counts().into_iter().map(|(count, _)| count).fold(self.embargoes, u64::min)
    }

    fn counts(&self) -> [(u64, &'static str); 16] {
        [
            (self.grants, "opens granted"),
            (self.on_several_files, "granted on several files"),
            (self.writes_lost, "blocks whose writes were lost"),
            (self.of_other_files, "with another file open"),
            (self.beside_another, "beside another"),
            (self.lifts, "lifts"),
            (self.lifts_in_recovery, "lifts in recovery"),
            (self.restarts, "restarts under it"),
            (self.restarts_in_recovery, "restarts under it in recovery"),
            (self.reads, "reads under it"),
            (self.writes, "writes under it"),
            (self.accesses_in_recovery, "reads and writes under it in recovery"),
            (self.crashes, "crashes"),
            (self.ends, "ends that did not wait"),
            (self.before_recovering, "20 in recovery"),
            (self.before_not_recovering, "20 of a report while running"),
        ]
    }

    fn count_access(&mut self, client: u64, is_read: bool) {
        if self.before.embargoed.contains(client as usize) {
            self.reads += u64::from(is_read);
            self.writes += u64::from(!is_read);
            self.accesses_in_recovery += u64::from(self.before.recovering);
        }
    }
}

impl Witness for Embargoes {
    fn before(&mut self, service: &Service, step: &Step) {
        self.before = Before::of(service, step);
    }

    fn after(&mut self, _service: &Service, step: &Step, outcome: &Outcome) {
        let Before { embargoed, recovering, dirty, has_others_open } = self.before;
        match (*step, outcome) {
            (Step::Report { .. }, Outcome::Refused(Refusal::UnderEmbargo)) if !recovering => {
                self.before_not_recovering += 1;
            }
            (_, Outcome::Refused(Refusal::UnderEmbargo)) => self.before_recovering += u64::from(recovering),
            (_, Outcome::Refused(_)) => {}
            (Step::Embargo { client, .. }, Outcome::Embargoed { granted }) => {
                self.embargoes += 1;
                self.grants += granted.len() as u64;
                self.on_several_files += u64::from(granted.len() > 1);
                self.writes_lost += dirty;
                self.of_other_files += u64::from(has_others_open);
                self.beside_another += u64::from(embargoed.without(client as usize) != ClientSet::NONE);
            }
            (Step::Lift { .. }, _) => {
                self.lifts += 1;
                self.lifts_in_recovery += u64::from(recovering);
            }
            (Step::Restart { client }, _) if embargoed.contains(client as usize) => {
                self.restarts += 1;
                self.restarts_in_recovery += u64::from(recovering);
            }
            (Step::Read { client, .. }, _) => self.count_access(client, true),
            (Step::Write { client, .. }, _) => self.count_access(client, false),
            (Step::Crash, _) => self.crashes += u64::from(!embargoed.is_empty()),
            (Step::End, _) => self.ends += u64::from(!embargoed.is_empty()),
            _ => {}
        }
    }
}

impl fmt::Display for Embargoes {
    fn fmt(&self, out: &mut fmt::Formatter) -> fmt::Result {
        let told: Vec<String> = self.counts().into_iter().map(|(count, what)| format!("{what} {count}")).collect();
        write!(out, "embargoes {}: {}", self.embargoes, told.join(", "))
    }
}
