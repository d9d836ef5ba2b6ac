//! Lines after which a step file is worth cutting short. Only the summary shows the state table, so a file is played
//! once more up to a line where the table is halfway: an open partly answered, a client that has closed one of several
//! write opens, a callback whose reason a flush has taken away, a recovery half reported or just ended, a client just
//! restarted, put under embargo or lifted, a write under embargo.

use super::Witness;
use crate::{Mode, Outcome, Service, State, Step};

#[derive(Default)]
pub struct Cuts {
    line: usize,
    partly_answered: Option<usize>,
    partly_closed: Option<usize>,
    reason_gone: Option<usize>,
    half_reported: Option<usize>,
    recovered: Option<usize>,
    restarted: Option<usize>,
    restarted_in_recovery: Option<usize>,
    embargoed: Option<usize>,
    embargoed_in_recovery: Option<usize>,
    written_under_embargo: Option<usize>,
    lifted: Option<usize>,
}

impl Cuts {
    /// The beginnings of this input up to the last line of each sort.
    pub fn of<'a>(&self, input: &'a [u8]) -> Vec<&'a [u8]> {
        let lines = [
            self.partly_answered,
            self.partly_closed,
            self.reason_gone,
            self.half_reported,
            self.recovered,
            self.restarted,
            self.restarted_in_recovery,
            self.embargoed,
            self.embargoed_in_recovery,
            self.written_under_embargo,
            self.lifted,
        ];
        lines.into_iter().flatten().map(|line| first_lines(input, line)).collect()
    }
}

fn first_lines(input: &[u8], lines: usize) -> &[u8] {
    let length = input.split_inclusive(|&byte| byte == b'\n').take(lines).map(<[u8]>::len).sum();
    &input[..length]
}

fn is_partly_answered(service: &Service) -> bool {
    let sizes = service.sizes();
    let mut entries = service.server.entries[..sizes.files].iter();
    entries.any(|entry| entry.waiting.read(sizes).is_some() && State::of(sizes, entry) == State::WriteShared)
}

fn is_partly_closed(service: &Service, step: &Step) -> bool {
    let Step::Close { mode: Mode::Write, client, file } = *step else { return false };
    service.server.entries[file as usize].records[client as usize].writers > 0
}

/// A called client has flushed its last dirty block: the callback stays out.
fn is_reason_gone(service: &Service, step: &Step) -> bool {
    let Step::Flush { client, file, .. } = *step else { return false };
    let (client, file) = (client as usize, file as usize);
    let called = service.server.entries[file].callback(service.sizes(), client).is_some();
    called && !service.any_dirty(client, file)
}

fn is_half_reported(service: &Service) -> bool {
    let all = service.sizes().client_set().minus(service.server.embargoed);
    let missing = service.server.reports_missing(service.sizes());
    service.server.recovering && missing != all && !missing.is_empty()
}

impl Witness for Cuts {
    fn after(&mut self, service: &Service, step: &Step, outcome: &Outcome) {
        let line = Some(self.line + 1);
        if is_partly_answered(service) {
            self.partly_answered = line;
        }
        if is_half_reported(service) {
            self.half_reported = line;
        }
        if *outcome == Outcome::Done && is_partly_closed(service, step) {
            self.partly_closed = line;
        }
        if *outcome == Outcome::Done && is_reason_gone(service, step) {
            self.reason_gone = line;
        }
        if *outcome == Outcome::Done && *step == Step::End {
            self.recovered = line;
        }
        if matches!(outcome, Outcome::Restarted { .. }) {
            let moment = if service.server.recovering { &mut self.restarted_in_recovery } else { &mut self.restarted };
            *moment = line;
        }
        if matches!(outcome, Outcome::Embargoed { .. }) {
            self.embargoed = line;
        }
        if service.server.recovering && !service.server.embargoed.and(service.sizes().client_set()).is_empty() {
            self.embargoed_in_recovery = line;
        }
        if *outcome == Outcome::Done {
            match *step {
                Step::Lift { .. } => self.lifted = line,
                Step::Write { client, .. } if service.server.embargoed.contains(client as usize) => {
                    self.written_under_embargo = line;
                }
                _ => {}
            }
        }
    }

    fn answered(&mut self, _outcome: &Outcome) {
        self.line += 1;
    }
}
