//! Counts of what a run met.

use std::fmt;

use super::{Behind, Embargoes, Restarts, Witness};
use crate::{BLOCKS, Outcome, Refusal, Service, Step};

#[derive(Default)]
pub struct Tally {
    lines: u64,
    reads: u64,
    waits: u64,
    grants_after_waits: u64,
    recoveries: u64,
    /// Callback replies, by the number of blocks sent.
    replies: [u64; BLOCKS + 1],
    behind: Behind,
    restarts: Restarts,
    embargoes: Embargoes,
    refusals: [u64; Refusal::LAST_NUMBER + 1],
}

impl Tally {
    pub fn refused(&self, refusal: Refusal) -> u64 {
        self.refusals[refusal.number()]
    }

    pub fn waits(&self) -> u64 {
        self.waits
    }

    pub fn grants_after_waits(&self) -> u64 {
        self.grants_after_waits
    }

    pub fn recoveries(&self) -> u64 {
        self.recoveries
    }

    /// Callback replies that sent so many blocks.
    pub fn replies(&self, sent: usize) -> u64 {
        self.replies[sent]
    }

    pub fn behind(&self) -> &Behind {
        &self.behind
    }

    pub fn restarts(&self) -> &Restarts {
        &self.restarts
    }

    pub fn embargoes(&self) -> &Embargoes {
        &self.embargoes
    }
}

impl Witness for Tally {
    fn before(&mut self, service: &Service, step: &Step) {
        self.behind.before(service, step);
        self.restarts.before(service, step);
        self.embargoes.before(service, step);
    }

    fn after(&mut self, service: &Service, step: &Step, outcome: &Outcome) {
        self.behind.after(service, step, outcome);
        self.restarts.after(service, step, outcome);
        self.embargoes.after(service, step, outcome);
        if *step == Step::End && *outcome == Outcome::Done {
            self.recoveries += 1;
        }
    }

    fn answered(&mut self, outcome: &Outcome) {
        self.lines += 1;
        match outcome {
            Outcome::Value(_) => self.reads += 1,
            Outcome::Waits(_) => self.waits += 1,
            Outcome::Replied { sent, granted } => {
                self.replies[*sent] += 1;
                self.grants_after_waits += u64::from(granted.is_some());
            }
            Outcome::Refused(refusal) => self.refusals[refusal.number()] += 1,
            Outcome::Granted(_) | Outcome::Restarted { .. } | Outcome::Embargoed { .. } | Outcome::Done => {}
        }
    }
}

impl fmt::Display for Tally {
    fn fmt(&self, out: &mut fmt::Formatter) -> fmt::Result {
        writeln!(out, "lines {}", self.lines)?;
        writeln!(out, "accepted reads {}", self.reads)?;
        writeln!(out, "waits {}", self.waits)?;
        writeln!(out, "grants after waits {}", self.grants_after_waits)?;
        writeln!(out, "recoveries completed {}", self.recoveries)?;
        let replies: Vec<String> = self.replies.iter().enumerate().map(|(n, count)| format!("{n}:{count}")).collect();
        writeln!(out, "answers by blocks sent {}", replies.join(" "))?;
        writeln!(out, "{}", self.behind)?;
        writeln!(out, "{}", self.restarts)?;
        writeln!(out, "{}", self.embargoes)?;
        write!(out, "refusals")?;
        for number in Refusal::NUMBERS {
            write!(out, " {number}:{}", self.refusals[number])?;
        }
        Ok(())
    }
}
