//! Counts of what restarts meet and bring about (document 02, Wish 8).

use std::fmt;

use super::Witness;
use crate::{ClientField, Entry, Outcome, Service, Step};

#[derive(Default)]
pub struct Restarts {
    /// What the restart that is taken next finds.
    next: Option<Found>,
    /// The client whose restart was the step before.
    previous: Option<u64>,
    restarts: u64,
    /// Opens of others that they granted.
    grants: u64,
    /// Restarts that granted opens of several files.
    on_several_files: u64,
    /// Blocks whose latest writes were lost.
    writes_lost: u64,
    of_a_waiting_opener: u64,
    of_a_called_client: u64,
    of_a_last_writer: u64,
    before_its_report: u64,
    after_its_report: u64,
    twice_in_a_row: u64,
}

#[derive(Clone, Copy)]
struct Found {
    writes_lost: u64,
    waits: bool,
    is_called: bool,
    is_last_writer: bool,
    recovering: bool,
    has_reported: bool,
}

impl Found {
    fn by(service: &Service, client: usize) -> Self {
        let sizes = service.sizes();
        let on = |has: &dyn Fn(&Entry) -> bool| service.server.entries[..sizes.files].iter().any(has);
        let files = &service.clients[client].files[..sizes.files];
        Found {
            // Those of a client under embargo were lost before.
            writes_lost: match service.server.embargoed.contains(client) {
                true => 0,
                false => files.iter().map(|file| file.copies.count_dirty(sizes) as u64).sum(),
            },
            waits: on(&|entry| entry.waiting.opener == ClientField::of(client)),
            is_called: on(&|entry| entry.callback(sizes, client).is_some()),
            is_last_writer: on(&|entry| entry.last_writer == ClientField::of(client)),
            recovering: service.server.recovering,
            has_reported: service.server.reported.contains(client),
        }
    }
}

impl Restarts {
    pub fn restarts(&self) -> u64 {
        self.restarts
    }

    /// The least of all counts.
    pub fn least(&self) -> u64 {
        let (_, counts) = self.counts();
        counts.into_iter().map(|(count, _)| count).fold(u64::MAX, u64::min)
    }

    /// All restarts, and what some of them met.
    fn counts(&self) -> (u64, [(u64, &'static str); 9]) {
        let counts = [
            (self.grants, "opens granted"),
            (self.on_several_files, "granted on several files"),
            (self.writes_lost, "blocks whose writes were lost"),
            (self.of_a_waiting_opener, "of a waiting opener"),
            (self.of_a_called_client, "of a called client"),
            (self.of_a_last_writer, "of a last writer"),
            (self.before_its_report, "in recovery before the report"),
            (self.after_its_report, "in recovery after it"),
            (self.twice_in_a_row, "twice in a row"),
        ];
        (self.restarts, counts)
    }
}

impl Witness for Restarts {
    fn before(&mut self, service: &Service, step: &Step) {
        self.next = match *step {
            Step::Restart { client } if service.refusal(step).is_none() => Some(Found::by(service, client as usize)),
            _ => None,
        };
    }

    fn after(&mut self, _service: &Service, step: &Step, outcome: &Outcome) {
        let (Step::Restart { client }, Outcome::Restarted { granted }) = (*step, outcome) else {
            self.previous = None;
            return;
        };
        self.restarts += 1;
        self.grants += granted.len() as u64;
        self.on_several_files += u64::from(granted.len() > 1);
        self.twice_in_a_row += u64::from(self.previous.replace(client) == Some(client));
        let Some(found) = self.next.take() else { return };
        self.writes_lost += found.writes_lost;
        self.of_a_waiting_opener += u64::from(found.waits);
        self.of_a_called_client += u64::from(found.is_called);
        self.of_a_last_writer += u64::from(found.is_last_writer);
        self.before_its_report += u64::from(found.recovering && !found.has_reported);
        self.after_its_report += u64::from(found.recovering && found.has_reported);
    }
}

impl fmt::Display for Restarts {
    fn fmt(&self, out: &mut fmt::Formatter) -> fmt::Result {
        let (restarts, counts) = self.counts();
        let told: Vec<String> = counts.into_iter().map(|(count, what)| format!("{what} {count}")).collect();
        write!(out, "restarts {restarts}: {}", told.join(", "))
    }
}
