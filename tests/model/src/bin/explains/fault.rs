//! What a fault of an explainer is: a part of what is told is changed before it is put into words, or the words are.

use model::explain::{Distortion, Granted, Picture, Place, Reading, Reason, Told, WrittenAt};
use model::sample::Sample;
use model::{Service, Step};

pub struct Fault {
    pub name: &'static str,
    pub wrong: Wrong,
}

/// What is told wrongly, given the lines so far.
pub enum Wrong {
    Read(fn(&Lines, &mut Reading)),
    /// A grant, at its open, after the last answer, by a restart or by an embargo.
    Grant(fn(&Lines, &mut Granted)),
    Refusal(fn(&Lines, &mut Reason)),
    /// A line of any kind.
    Line(fn(&Lines, &mut Told)),
    Picture(fn(&Service, &mut Picture)),
    /// The whole output.
    Text(fn(&[u8]) -> Vec<u8>),
}

/// Each fault is named for the wrong answer it gives.
macro_rules! faults {
    ($($name:ident: $wrong:ident($change:expr);)*) => {
        pub const FAULTS: &[$crate::fault::Fault] = &[$($crate::fault::Fault {
            name: stringify!($name),
            wrong: $crate::fault::Wrong::$wrong($change),
        }),*];
    };
}

pub(crate) use faults;

impl Fault {
    /// What an explainer with this fault says.
    pub fn explained(&self, sample: &Sample) -> Vec<u8> {
        if let Wrong::Text(change) = self.wrong {
            return change(&sample.explained());
        }
        sample.explained_with(&mut Faulty { fault: self, lines: Vec::new() })
    }
}

struct Faulty<'a> {
    fault: &'a Fault,
    /// As they are told rightly.
    lines: Vec<Line>,
}

impl Distortion for Faulty<'_> {
    fn line(&mut self, service: &Service, step: Option<&Step>, told: &mut Told) {
        self.lines.push(Line { step: step.copied(), told: told.clone() });
        let lines = Lines { service, lines: &self.lines };
        match (&self.fault.wrong, told) {
            (Wrong::Read(change), Told::Read(reading)) => change(&lines, reading),
            (Wrong::Grant(change), Told::Granted(granted) | Told::AnsweredLast { granted, .. }) => {
                change(&lines, granted);
            }
            (Wrong::Grant(change), Told::Restarted { granted, .. } | Told::Embargoed { granted, .. }) => {
                granted.iter_mut().for_each(|granted| change(&lines, granted));
            }
            (Wrong::Refusal(change), Told::Refused(reason)) => change(&lines, reason),
            (Wrong::Line(change), told) => change(&lines, told),
            _ => {}
        }
    }

    fn picture(&mut self, service: &Service, picture: &mut Picture) {
        if let Wrong::Picture(change) = self.fault.wrong {
            change(service, picture);
        }
    }
}

pub struct Line {
    pub step: Option<Step>,
    pub told: Told,
}

/// The lines so far. The last is the one that is told now, and the service is as it leaves it.
pub struct Lines<'a> {
    pub service: &'a Service,
    lines: &'a [Line],
}

impl Lines<'_> {
    /// The number of the line that is told now.
    pub fn now(&self) -> u64 {
        self.lines.len() as u64
    }

    pub fn this(&self) -> &Line {
        &self.lines[self.lines.len() - 1]
    }

    /// The lines before it, the latest first, with their numbers.
    pub fn before(&self) -> impl Iterator<Item = (u64, &Line)> {
        self.lines.iter().enumerate().rev().skip(1).map(|(at, line)| (at as u64 + 1, line))
    }

    /// The latest line before that is like this.
    pub fn latest(&self, fits: impl Fn(&Told) -> bool) -> Option<u64> {
        self.before().find(|(_, line)| fits(&line.told)).map(|(number, _)| number)
    }

    /// The accepted writes to a block, whoever wrote, the latest first.
    pub fn writes(&self, to: Place) -> impl Iterator<Item = WrittenAt> {
        self.before().filter_map(move |(line, before)| match before.told {
            Told::Written { place, value, .. } if place.file == to.file && place.block == to.block => {
                Some(WrittenAt { line, client: place.client, value })
            }
            _ => None,
        })
    }
}
