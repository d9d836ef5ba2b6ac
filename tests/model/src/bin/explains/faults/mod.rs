//! Deliberate faults of an explainer, and whether the comparison finds each.

mod embargoes;
mod opens;
mod picture;
mod reads;
mod refusals;
mod restarts;
mod text;

use model::check::{Difference, Provenance};
use model::sample::{Kind, Sample};

use crate::compare::judge;
use crate::fault::Fault;

const SEEDS: u64 = 40;

/// Short files end in many states, which the picture shows; long ones have more history.
const LINES: [usize; 3] = [350, 1000, 3000];

fn all() -> impl Iterator<Item = &'static Fault> {
    let groups = [
        reads::FAULTS,
        opens::FAULTS,
        restarts::FAULTS,
        embargoes::FAULTS,
        refusals::FAULTS,
        picture::FAULTS,
        text::FAULTS,
    ];
    groups.into_iter().flatten()
}

pub fn named(name: &str) -> Option<&'static Fault> {
    all().find(|fault| fault.name == name)
}

/// Every fault with the file that finds it; an error if one is not found.
pub fn try_all() -> Result<String, String> {
    let samples = samples();
    let mut told = Vec::new();
    let (mut found, mut by_the_text) = (0, 0);
    for fault in all() {
        let finding = find(fault, &samples);
        found += usize::from(finding.is_some());
        by_the_text += usize::from(finding.as_ref().is_some_and(|finding| finding.by_the_text));
        told.push(format!("{}: {}", fault.name, finding.map_or("NOT FOUND".into(), |finding| finding.told)));
    }
    let faults = told.len();
    told.push(format!("{found} of {faults} faults found, {by_the_text} of them by the text alone too"));
    if found == faults { Ok(told.join("\n")) } else { Err(told.join("\n")) }
}

struct Finding {
    told: String,
    /// Whether the replies and the text before show it too, without the model's explainer.
    by_the_text: bool,
}

/// A sample and what the right explainer says of it.
fn samples() -> Vec<(Sample, Vec<u8>)> {
    let lines = |seed: u64| LINES[seed as usize % LINES.len()];
    let all = (0..SEEDS).flat_map(|seed| Kind::ALL.map(|kind| Sample::of(kind, seed, lines(seed))));
    let with_cuts = all.flat_map(|sample| {
        let mut samples = sample.cut_short();
        samples.insert(0, sample);
        samples
    });
    let with_right = |sample: Sample| {
        let right = sample.explained();
        (sample, right)
    };
    with_cuts.map(with_right).collect()
}

fn find(fault: &Fault, samples: &[(Sample, Vec<u8>)]) -> Option<Finding> {
    samples.iter().zip(1..).find_map(|((sample, right), count)| {
        let wrong = fault.explained(sample);
        let Difference { line, expected, actual } = Difference::between(right, &wrong)?;
        let side = |side: Option<String>| side.unwrap_or("none".into());
        let (right, wrong_line) = (side(expected), side(actual));
        let told =
            format!("found in file {count} ({}, line {line})\n  right {right}\n  wrong {wrong_line}", sample.name);
        let by_the_text = judge(sample, &wrong, &mut Provenance::default()).is_err();
        Some(Finding { told, by_the_text })
    })
}
