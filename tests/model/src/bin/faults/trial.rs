//! One fault tried on seeded step files.

use std::fmt;

use model::check::{Breach, Cuts, Demand3, Difference, PlacesBreach, PlacesCheck};
use model::generate::{FileKind, hand_made_recovery, step_file};
use model::{Document01, Service, replay, replay_from};

use crate::fault::Fault;

const SEEDS: u64 = 40;

/// Short files end in many states, which the summary shows; long ones have more history.
const LINES: [usize; 3] = [350, 1000, 3000];

/// Recoveries made by hand, and how many steps each has at the most.
const RECOVERIES: u64 = 400;
const STEPS: usize = 30;

/// A step file and its right output.
pub struct Sample {
    kind: &'static str,
    seed: u64,
    /// The service that it is played from, if it is not a fresh one.
    made: Option<Box<Service>>,
    input: Vec<u8>,
    output: Vec<u8>,
    /// Whether the sum of the places is looked at.
    counts_places: bool,
}

impl Sample {
    pub fn files() -> Vec<Sample> {
        (0..SEEDS).flat_map(|seed| FileKind::ALL.into_iter().flat_map(move |kind| Sample::of(kind, seed))).collect()
    }

    pub fn recoveries() -> Vec<Sample> {
        let recovery = |seed| {
            let (made, input) = hand_made_recovery(seed, STEPS);
            let output = replay_from::<Document01>(&mut made.clone(), &input, &mut ());
            Sample { kind: "recovery", seed, made: Some(Box::new(made)), input, output, counts_places: false }
        };
        (0..RECOVERIES).map(recovery).collect()
    }

    /// The file whole, and cut short as the differential run does it.
    fn of(kind: FileKind, seed: u64) -> Vec<Sample> {
        let whole = step_file(kind, seed, LINES[seed as usize % LINES.len()]);
        let kind = kind.name();
        let mut cuts = Cuts::default();
        let output = replay::<Document01>(&whole, &mut cuts);
        let beginnings = cuts.of(&whole).into_iter().map(|input| Sample {
            kind,
            seed,
            made: None,
            input: input.to_vec(),
            output: replay::<Document01>(input, &mut ()),
            counts_places: false,
        });
        let mut samples: Vec<Sample> = beginnings.collect();
        let counts_places = kind == FileKind::Space.name();
        samples.insert(0, Sample { kind, seed, made: None, input: whole, output, counts_places });
        samples
    }

    fn start(&self) -> Service {
        self.made.as_ref().map_or_else(Service::fresh, |made| (**made).clone())
    }
}

pub struct Trial<'a> {
    fault: &'a Fault,
    /// Plays up to the first difference, and that difference.
    difference: Option<(usize, &'a Sample, Difference)>,
    breach: Option<Breach>,
    places: Option<PlacesBreach>,
}

impl<'a> Trial<'a> {
    pub fn of(fault: &'a Fault, samples: &'a [Sample]) -> Self {
        let mut trial = Trial { fault, difference: None, breach: None, places: None };
        for (before, sample) in samples.iter().enumerate() {
            let (mut demand3, mut places) = (Demand3::default(), PlacesCheck::default());
            let mut start = sample.start();
            let output = if sample.counts_places && trial.places.is_none() {
                fault.play_from(&mut start, &sample.input, &mut (&mut demand3, &mut places))
            } else {
                fault.play_from(&mut start, &sample.input, &mut demand3)
            };
            if trial.difference.is_none() {
                trial.difference =
                    Difference::between(&sample.output, &output).map(|found| (before + 1, sample, found));
            }
            // Demand 3 and the sum of the places are for runs from a fresh service.
            let made = sample.made.is_some();
            trial.breach = trial.breach.or(demand3.breach().cloned().filter(|_| !made));
            trial.places = trial.places.or(places.breach().cloned().filter(|_| !made));
            if trial.difference.is_some() && (made || trial.breach.is_some()) {
                break;
            }
        }
        trial
    }

    pub fn found(&self) -> bool {
        self.difference.is_some()
    }

    pub fn as_expected(&self) -> bool {
        self.found() != self.fault.unseen.is_some()
    }

    fn demand3(&self) -> &'static str {
        match self.breach {
            None => "no",
            Some(Breach::Read { .. }) => "by a read",
            Some(Breach::TableNotRestored { .. }) => "by the table",
            Some(Breach::OpenWaitsAfterRecovery { .. }) => "by a wait",
            Some(Breach::ReportsClash { .. }) => "by a report",
        }
    }
}

impl Trial<'_> {
    fn places(&self) -> &'static str {
        match self.places {
            None => "no",
            Some(PlacesBreach::Sum { .. }) => "by the sum",
            Some(PlacesBreach::Used { .. }) => "by the used blocks",
            Some(PlacesBreach::NotZero { .. }) => "by a block that is not zero",
            Some(PlacesBreach::Refused { .. }) => "by a refusal",
            Some(PlacesBreach::Accepted { .. }) => "by a write",
        }
    }
}

impl fmt::Display for Trial<'_> {
    fn fmt(&self, out: &mut fmt::Formatter) -> fmt::Result {
        let Fault { name, unseen, .. } = self.fault;
        match (&self.difference, unseen) {
            (Some((plays, sample, difference)), _) => {
                let line = |side: &Option<String>| side.clone().unwrap_or("none".into());
                let (right, wrong) = (line(&difference.expected), line(&difference.actual));
                let (kind, seed) = (sample.kind, sample.seed);
                write!(out, "{name}: found in play {plays} ({kind} seed {seed} line {}), ", difference.line)?;
                write!(out, "right {right} wrong {wrong}; seen by Demand 3: {}", self.demand3())?;
                write!(out, "; by the places: {}", self.places())
            }
            (None, Some(reason)) => write!(out, "{name}: cannot be found: {reason}"),
            (None, None) => write!(out, "{name}: NOT FOUND"),
        }
    }
}
