//! Deliberate faults, each named for the wrong answer it gives, and the proof that the differential run would find it:
//! seeded step files are played by the right rules and by the faulty ones until the outputs differ. Those of 22 are tried
//! on recoveries made by hand, since no step file gets it.
//!
//! `faults` tries them all; `faults play NAME` is a player with that fault.

mod behind;
mod callbacks;
mod clash;
mod closing;
mod copies;
mod door;
mod embargo;
mod fault;
mod lines;
mod opening;
mod places;
mod recovery;
mod restart;
mod said;
mod sent;
mod settings;
mod trial;
mod unseen;

use std::env::args;
use std::io::{Read, Write, stdin, stdout};
use std::process::ExitCode;

use fault::Fault;
use model::Service;
use trial::{Sample, Trial};

/// Those that are tried on step files.
fn all_faults() -> impl Iterator<Item = &'static Fault> {
    let groups = [
        opening::FAULTS,
        closing::FAULTS,
        behind::FAULTS,
        copies::FAULTS,
        callbacks::FAULTS,
        sent::FAULTS,
        said::FAULTS,
        recovery::FAULTS,
        restart::FAULTS,
        embargo::FAULTS,
        places::FAULTS,
        door::FAULTS,
        lines::FAULTS,
        settings::FAULTS,
        unseen::FAULTS,
    ];
    groups.into_iter().flatten()
}

fn main() -> ExitCode {
    let words: Vec<String> = args().skip(1).collect();
    let words: Vec<&str> = words.iter().map(String::as_str).collect();
    match words[..] {
        [] => try_all(),
        ["play", name] => play(name),
        _ => {
            eprintln!("usage: faults [play NAME]");
            ExitCode::from(2)
        }
    }
}

fn try_all() -> ExitCode {
    let (files, recoveries) = (Sample::files(), Sample::recoveries());
    let on_files = all_faults().map(|fault| Trial::of(fault, &files));
    let on_recoveries = clash::FAULTS.iter().map(|fault| Trial::of(fault, &recoveries));
    let trials: Vec<Trial> = on_files.chain(on_recoveries).collect();
    for trial in &trials {
        println!("{trial}");
    }
    let found = trials.iter().filter(|trial| trial.found()).count();
    let surprises = trials.iter().filter(|trial| !trial.as_expected()).count();
    println!("{found} of {} faults found, {} cannot be; {surprises} surprises", trials.len(), unseen::FAULTS.len());
    if surprises == 0 { ExitCode::SUCCESS } else { ExitCode::FAILURE }
}

fn play(name: &str) -> ExitCode {
    let Some(fault) = all_faults().chain(clash::FAULTS).find(|fault| fault.name == name) else {
        eprintln!("faults: there is no {name}");
        return ExitCode::from(2);
    };
    let mut input = Vec::new();
    let read = stdin().read_to_end(&mut input);
    let output = fault.play_from(&mut Service::fresh(), &input, &mut ());
    match read.and_then(|_| stdout().write_all(&output)) {
        Ok(()) => ExitCode::SUCCESS,
        Err(error) => {
            eprintln!("faults: {error}");
            ExitCode::FAILURE
        }
    }
}
