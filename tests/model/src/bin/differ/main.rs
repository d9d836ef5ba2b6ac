//! Plays seeded step files of every kind on the model and on a given player, and compares the outputs byte for byte.

mod options;

use std::process::{Command, ExitCode};

use model::check::{Breach, Cuts, Demand3, Difference, PlacesCheck, PlacesMet, Tally, shown};
use model::generate::{FileKind, step_file};
use model::{Document01, process, replay, verdict};
use options::Options;

fn main() -> ExitCode {
    let options = match Options::from_args() {
        Ok(options) => options,
        Err(problem) => {
            eprintln!("differ: {problem}\n{}", options::USAGE);
            return ExitCode::from(2);
        }
    };
    verdict(compare_all(&options))
}

/// What has been compared so far.
#[derive(Default)]
struct Compared {
    tally: Tally,
    places: PlacesMet,
    files: usize,
    cut_short: usize,
}

/// The summary of a run without a difference, or the first finding.
fn compare_all(options: &Options) -> Result<String, String> {
    let mut compared = Compared::default();
    for seed in options.seeds.clone() {
        for &kind in &options.kinds {
            compare(options, kind, seed, &mut compared)?;
        }
    }
    let Compared { tally, places, files, cut_short } = compared;
    Ok(format!("{tally}\n{places}\nfiles compared {files}, and {cut_short} times one of them cut short\nno difference"))
}

fn compare(options: &Options, kind: FileKind, seed: u64, compared: &mut Compared) -> Result<(), String> {
    let name = format!("{} seed {seed} lines {}", kind.name(), options.lines);
    let input = step_file(kind, seed, options.lines);
    let mut demand3 = Demand3::default();
    let mut cuts = Cuts::default();
    let mut places = PlacesCheck::default();
    let mut beside = (&mut compared.tally, (&mut demand3, (&mut places, &mut cuts)));
    let expected = replay::<Document01>(&input, &mut beside);
    if let Some(breach) = demand3.breach() {
        return Err(format!("the model breaks Demand 3: {name}: {}", told(breach)));
    }
    if let Some(breach) = places.breach() {
        return Err(format!("the model's places do not add up: {name}: {breach:?}"));
    }
    compared.places.add(places.met());
    compare_with_player(options, &name, seed, &input, &expected)?;
    compared.files += 1;
    for beginning in cuts.of(&input) {
        let expected = replay::<Document01>(beginning, &mut ());
        compare_with_player(options, &format!("{name} cut short"), seed, beginning, &expected)?;
        compared.cut_short += 1;
    }
    Ok(())
}

fn compare_with_player(options: &Options, name: &str, seed: u64, input: &[u8], expected: &[u8]) -> Result<(), String> {
    let mut player = Command::new(&options.player);
    let actual = process::run(&mut player, input, seed).map_err(|problem| format!("{name}: {problem}"))?;
    match Difference::between(expected, &actual) {
        None => Ok(()),
        Some(difference) => Err(format!("difference: {name}, {}", located(&difference, input))),
    }
}

fn told(breach: &Breach) -> String {
    match breach {
        Breach::Read { line, expected, got } => format!("line {line} reads {got}, the last write was {expected}"),
        Breach::TableNotRestored { line } => format!("line {line} ends a recovery with another table"),
        Breach::OpenWaitsAfterRecovery { line } => format!("line {line} ends a recovery with an open that waits"),
        Breach::ReportsClash { line } => format!("line {line} refuses a report that must pass"),
    }
}

fn located(difference: &Difference, input: &[u8]) -> String {
    let step = input.split(|&byte| byte == b'\n').nth(difference.line - 1).map_or("none".into(), shown);
    let line = |side: &Option<String>| side.clone().unwrap_or("none".into());
    format!(
        "line {}\n  input:  {step}\n  model:  {}\n  player: {}",
        difference.line,
        line(&difference.expected),
        line(&difference.actual)
    )
}
