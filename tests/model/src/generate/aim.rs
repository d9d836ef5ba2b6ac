//! Aims: what the next step shall bring about, how often each is taken up, and the search for a step that meets it.

use super::stage::{Stage, StepKind};
use crate::{Entry, Refusal, Sizes, State, Step};

#[derive(Clone, Copy)]
pub enum Aim {
    Anything,
    Accepted,
    Open,
    /// An open that waits.
    Wait,
    Close,
    /// A callback reply that is due.
    Answer,
    /// A read or a write.
    Access,
    Flush,
    Crash,
    Report,
    End,
    Restart,
    Embargo,
    Lift,
    /// A read or a write of a client under embargo.
    AccessUnderEmbargo,
    /// A write that takes a place.
    TakePlace,
    /// A restart of a client that has a place reserved.
    FreePlaces,
    Refused(Refusal),
}

/// Aims with their weights.
pub type Aims = [(usize, Aim)];

const RUNNING: [(usize, Aim); 16] = [
    (14, Aim::Open),
    (22, Aim::Wait),
    (14, Aim::Close),
    (26, Aim::Access),
    (6, Aim::Flush),
    (1, Aim::Crash),
    (2, Aim::Anything),
    (1, Aim::Refused(Refusal::NoSuchClient)),
    (1, Aim::Refused(Refusal::NoSuchFile)),
    (1, Aim::Refused(Refusal::NoSuchBlock)),
    (1, Aim::Report),
    (1, Aim::End),
    (2, Aim::Refused(Refusal::NoCallback)),
    (3, Aim::Refused(Refusal::NotOpen)),
    (1, Aim::Refused(Refusal::CountAtLimit)),
    (4, Aim::Refused(Refusal::NotDirty)),
];

/// Nobody has a file open.
const IDLE: [(usize, Aim); 7] = [
    (50, Aim::Open),
    (20, Aim::Wait),
    (4, Aim::Flush),
    (1, Aim::Crash),
    (2, Aim::Anything),
    (2, Aim::Refused(Refusal::NotOpen)),
    (2, Aim::Refused(Refusal::NotDirty)),
];

/// Clients take turns: mostly one has the file open, and the next finds what the one before left behind.
const TURNS: [(usize, Aim); 6] =
    [(14, Aim::Open), (6, Aim::Wait), (30, Aim::Close), (40, Aim::Access), (6, Aim::Flush), (1, Aim::Crash)];

const WAITING: [(usize, Aim); 9] = [
    (34, Aim::Answer),
    (20, Aim::Access),
    (6, Aim::Flush),
    (8, Aim::Accepted),
    (3, Aim::Crash),
    (4, Aim::Anything),
    (12, Aim::Refused(Refusal::OpenWaits)),
    (6, Aim::Refused(Refusal::NoCallback)),
    (3, Aim::Refused(Refusal::NotOpen)),
];

/// Some called clients have replied and some have not: a crash now breaks the invalidation off.
const PARTLY_ANSWERED: [(usize, Aim); 6] = [
    (20, Aim::Answer),
    (12, Aim::Crash),
    (16, Aim::Access),
    (10, Aim::Refused(Refusal::OpenWaits)),
    (8, Aim::Refused(Refusal::NoCallback)),
    (4, Aim::Anything),
];

/// WRITE_SHARED lasts until the final close: without a push to close, a file would soon stay in it.
const SHARED: [(usize, Aim); 7] = [
    (60, Aim::Close),
    (14, Aim::Access),
    (6, Aim::Open),
    (6, Aim::Wait),
    (1, Aim::Crash),
    (3, Aim::Refused(Refusal::NotDirty)),
    (3, Aim::Refused(Refusal::NotOpen)),
];

/// An invalidation was broken off: some open clients may cache, others may not.
const BROKEN_OFF: [(usize, Aim); 6] = [
    (20, Aim::Open),
    (10, Aim::Wait),
    (36, Aim::Close),
    (20, Aim::Access),
    (4, Aim::Crash),
    (4, Aim::Refused(Refusal::NotOpen)),
];

const RECOVERING: [(usize, Aim); 8] = [
    (54, Aim::Report),
    (18, Aim::Access),
    (1, Aim::Crash),
    (2, Aim::Anything),
    (14, Aim::Refused(Refusal::Recovering)),
    (3, Aim::Refused(Refusal::AlreadyReported)),
    (3, Aim::Refused(Refusal::ReportsMissing)),
    (2, Aim::Refused(Refusal::NoSuchBlock)),
];

const ALL_REPORTED: [(usize, Aim); 4] =
    [(60, Aim::End), (4, Aim::Crash), (20, Aim::Refused(Refusal::Recovering)), (6, Aim::Anything)];

/// While a callback is out, where clients are put under embargo.
const CALLED: [(usize, Aim); 2] = [(20, Aim::Embargo), (2, Aim::Refused(Refusal::NoCallback))];

/// With a client under embargo.
const UNDER_EMBARGO: [(usize, Aim); 9] = [
    (40, Aim::AccessUnderEmbargo),
    (24, Aim::Refused(Refusal::UnderEmbargo)),
    (8, Aim::Lift),
    (4, Aim::Restart),
    (5, Aim::Crash),
    (4, Aim::Refused(Refusal::NotUnderEmbargo)),
    (4, Aim::Embargo),
    (4, Aim::Access),
    (2, Aim::Refused(Refusal::NoSuchBlock)),
];

/// With half of the clients under embargo, or more.
const MANY_UNDER_EMBARGO: [(usize, Aim); 4] =
    [(30, Aim::Lift), (8, Aim::Restart), (10, Aim::AccessUnderEmbargo), (6, Aim::Refused(Refusal::UnderEmbargo))];

/// With nobody under embargo and no callback out.
const NO_EMBARGO: [(usize, Aim); 3] = [(3, Aim::Refused(Refusal::NotUnderEmbargo)), (2, Aim::Embargo), (20, Aim::Wait)];

/// What is aimed at now and then where clients are put under embargo.
pub fn embargo_aims_for(stage: &Stage) -> &'static Aims {
    let embargoed = stage.clients_in_scope().and(stage.service.server.embargoed);
    if 2 * embargoed.members().count() >= stage.clients_in_scope().members().count() {
        &MANY_UNDER_EMBARGO
    } else if stage.any_open_waits() {
        &CALLED
    } else if !embargoed.is_empty() {
        &UNDER_EMBARGO
    } else {
        &NO_EMBARGO
    }
}

/// With no place free.
const FULL: [(usize, Aim); 5] =
    [(30, Aim::Refused(Refusal::NoPlace)), (12, Aim::FreePlaces), (8, Aim::Access), (2, Aim::Crash), (8, Aim::Embargo)];

/// With some.
const ROOM: [(usize, Aim); 5] =
    [(40, Aim::TakePlace), (4, Aim::FreePlaces), (8, Aim::Flush), (8, Aim::Access), (4, Aim::Embargo)];

/// In a recovery, where a write that takes a place gets 5.
const ROOM_LATER: [(usize, Aim); 5] = [
    (20, Aim::Access),
    (10, Aim::Refused(Refusal::Recovering)),
    (20, Aim::Report),
    (12, Aim::FreePlaces),
    (4, Aim::Lift),
];

/// What is aimed at now and then where the store is small.
pub fn space_aims_for(stage: &Stage) -> &'static Aims {
    let server = &stage.service.server;
    match server.free_places(stage.sizes()) {
        _ if server.recovering => &ROOM_LATER,
        0 => &FULL,
        _ => &ROOM,
    }
}

/// What is aimed at, by what goes on at the server.
pub fn aims_for(stage: &Stage, turns: bool) -> &'static Aims {
    let (server, sizes) = (&stage.service.server, stage.sizes());
    if server.recovering {
        if server.reports_missing(sizes).is_empty() { &ALL_REPORTED } else { &RECOVERING }
    } else if stage.any_open_waits() {
        if stage.any(|entry| entry.waiting.read(sizes).is_some() && is_broken_off(sizes, entry)) {
            &PARTLY_ANSWERED
        } else {
            &WAITING
        }
    } else if stage.any(|entry| is_broken_off(sizes, entry)) {
        &BROKEN_OFF
    } else if stage.any(|entry| State::of(sizes, entry) == State::WriteShared) {
        &SHARED
    } else if !stage.any(|entry| !entry.open_clients(sizes).is_empty()) {
        &IDLE
    } else if turns {
        &TURNS
    } else {
        &RUNNING
    }
}

fn is_broken_off(sizes: Sizes, entry: &Entry) -> bool {
    State::of(sizes, entry) == State::WriteShared && !entry.caching_clients(sizes).is_empty()
}

const TRIES: usize = 60;

impl Stage {
    /// A step that meets the aim, or after some tries any step.
    pub fn aimed(&mut self, aim: Aim) -> Step {
        let mut step = self.candidate(aim);
        for _ in 0..TRIES {
            if self.meets(&step, aim) {
                break;
            }
            step = self.candidate(aim);
        }
        step
    }

    fn candidate(&mut self, aim: Aim) -> Step {
        match aim {
            Aim::Anything | Aim::Accepted => self.any_step(),
            Aim::Open | Aim::Wait | Aim::Refused(Refusal::CountAtLimit) => self.step(StepKind::Open),
            Aim::Close => self.step(StepKind::Close),
            Aim::Answer => self.step(StepKind::Reply),
            Aim::Access => {
                let kind = *self.rng.pick(&[StepKind::Read, StepKind::Write]);
                self.step(kind)
            }
            Aim::Flush | Aim::Refused(Refusal::NotDirty) => self.step(StepKind::Flush),
            Aim::Crash => Step::Crash,
            Aim::Report => self.step(StepKind::Report),
            Aim::End => Step::End,
            Aim::Restart => self.restart(),
            Aim::FreePlaces => self.freeing_restart(),
            Aim::TakePlace | Aim::Refused(Refusal::NoPlace) => self.write_where_open(),
            Aim::Embargo => self.embargo(),
            Aim::Lift | Aim::Refused(Refusal::NotUnderEmbargo) => self.lift(),
            Aim::AccessUnderEmbargo => self.access_under_embargo(),
            Aim::Refused(Refusal::UnderEmbargo) => self.step_under_embargo(),
            Aim::Refused(Refusal::NoSuchClient | Refusal::NoSuchFile | Refusal::NoSuchBlock) => self.stray_step(),
            Aim::Refused(_) => self.any_step(),
        }
    }

    fn meets(&self, step: &Step, aim: Aim) -> bool {
        let refusal = self.service.refusal(step);
        match aim {
            Aim::Anything => true,
            Aim::Refused(wanted) => refusal == Some(wanted),
            Aim::Wait => refusal.is_none() && self.calls_somebody(step),
            Aim::TakePlace => refusal.is_none() && self.takes_place(step),
            _ => refusal.is_none(),
        }
    }

    fn takes_place(&self, step: &Step) -> bool {
        let Step::Write { client, file, block, .. } = *step else { return false };
        self.service.takes_place(client as usize, file as usize, block as usize)
    }

    fn calls_somebody(&self, step: &Step) -> bool {
        let Step::Open { mode, client, file } = *step else { return false };
        let entry = &self.service.server.entries[file as usize];
        !entry.callbacks_due(self.sizes(), client as usize, mode).is_empty()
    }
}
