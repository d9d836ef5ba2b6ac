//! The programs themselves: the generator is reproducible, the differential run passes the model and catches a fault.

use std::fs::{self, Permissions};
use std::os::unix::fs::PermissionsExt;
use std::path::{Path, PathBuf};
use std::process::{Command, Output};

const DIFFER: &str = env!("CARGO_BIN_EXE_differ");
const FAULTS: &str = env!("CARGO_BIN_EXE_faults");
const GEN: &str = env!("CARGO_BIN_EXE_gen");
const MODEL: &str = env!("CARGO_BIN_EXE_model");

fn run(program: &str, words: &[&str]) -> Output {
    Command::new(program).args(words).output().expect("the program runs")
}

/// A player with one fault.
fn faulty_player(fault: &str) -> PathBuf {
    let path = Path::new(env!("CARGO_TARGET_TMPDIR")).join(fault);
    fs::write(&path, format!("#!/bin/sh\nexec '{FAULTS}' play {fault}\n")).expect("the script is written");
    fs::set_permissions(&path, Permissions::from_mode(0o755)).expect("the script is executable");
    path
}

#[test]
fn a_seed_gives_the_same_file_again() {
    for kind in ["hot", "wide", "malformed", "session", "restart", "embargo", "space"] {
        let first = run(GEN, &[kind, "5", "500"]);
        assert!(first.status.success() && first.stdout.len() > 2000);
        assert_eq!(first.stdout, run(GEN, &[kind, "5", "500"]).stdout);
        assert_ne!(first.stdout, run(GEN, &[kind, "6", "500"]).stdout);
    }
}

/// Of eleven seeds four have files about settings; most of these begin with a line SET, right or wrong.
#[test]
fn a_third_of_the_files_begin_with_settings() {
    let begins = |kind: &str, seed: u64| run(GEN, &[kind, &seed.to_string(), "3"]).stdout.starts_with(b"SET ");
    let count = (0..110).filter(|&seed| begins("wide", seed)).count();
    assert!((25..45).contains(&count), "{count}");
    assert!(!begins("hot", 1) && !begins("session", 1), "these are the files of the benchmark");
}

#[test]
fn the_model_does_not_differ_from_itself() {
    let output = run(DIFFER, &["--player", MODEL, "--seeds", "0..8", "--lines", "500"]);
    let said = String::from_utf8_lossy(&output.stdout);
    assert!(output.status.success(), "{said}");
    assert!(said.contains("files compared 56,") && said.ends_with("no difference\n"), "{said}");
}

#[test]
fn a_fault_is_reported_with_both_lines() {
    let player = faulty_player("previous_copy_kept_at_read_open");
    let player = player.to_str().expect("the path is text");
    let output = run(DIFFER, &["--player", player, "--seeds", "0..40", "--lines", "1000", "--kinds", "hot"]);
    let said = String::from_utf8_lossy(&output.stdout);
    assert_eq!(output.status.code(), Some(1), "{said}");
    assert!(said.starts_with("difference: hot seed "), "{said}");
    assert!(["input:", "model:", "player:"].iter().all(|part| said.contains(part)), "{said}");
}

#[test]
fn a_player_that_is_not_there_is_reported() {
    let output = run(DIFFER, &["--player", "no such player", "--seeds", "0..1"]);
    assert_eq!(output.status.code(), Some(1));
    assert!(String::from_utf8_lossy(&output.stdout).contains("cannot run no such player"));
}

#[test]
fn every_fault_is_found() {
    let output = run(FAULTS, &[]);
    let said = String::from_utf8_lossy(&output.stdout);
    assert!(output.status.success(), "{said}");
    assert!(said.ends_with("0 surprises\n"), "{said}");
}
