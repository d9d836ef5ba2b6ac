//! The program that compares counters: it passes the model, and finds every fault.

use std::process::{Command, Output};

const COUNTS: &str = env!("CARGO_BIN_EXE_counts");
const MODEL: &str = env!("CARGO_BIN_EXE_model");

fn run(words: &[&str]) -> Output {
    Command::new(COUNTS).args(words).output().expect("the program runs")
}

fn said(output: &Output) -> String {
    String::from_utf8_lossy(&output.stdout).into_owned()
}

/// And every column is met.
#[test]
fn the_model_does_not_differ_from_itself() {
    let output = run(&["--counter", MODEL, "--seeds", "0..8", "--lines", "500", "--", "--traffic"]);
    assert!(output.status.success(), "{}", said(&output));
    assert!(said(&output).ends_with("files compared 80\nno difference\n"), "{}", said(&output));
    assert!(said(&output).lines().all(|line| !line.ends_with(" 0")), "{}", said(&output));
}

/// One fault of each sort, in the program's own run, with the line that shows it.
#[test]
fn a_fault_is_reported_with_both_lines() {
    let faults = [
        ("waiting_open_counted", "  input:   O"),
        ("hit_counted_as_a_fetch", "  input:   RD "),
        ("last_line_without_lf_not_read", "  input:   "),
        ("last_lf_missing", "line 0\n  input:   none\n"),
        ("all_without_the_last_client", "  model:   all "),
        ("image_not_read", "resumed"),
    ];
    for (fault, part) in faults {
        let output = run(&["--counter", COUNTS, "--seeds", "0..8", "--", "count", fault]);
        assert_eq!(output.status.code(), Some(1), "{fault}");
        let parts = ["difference: ", "line ", "  input:   ", "  model:   ", "  counter: ", part];
        assert!(parts.iter().all(|part| said(&output).contains(part)), "{}", said(&output));
    }
}

#[test]
fn a_counter_that_is_no_counter_is_reported() {
    let output = run(&["--counter", MODEL, "--seeds", "0..1"]);
    assert_eq!(output.status.code(), Some(1), "{}", said(&output));
    let output = run(&["--counter", "no such counter"]);
    assert!(said(&output).contains("cannot run no such counter"), "{}", said(&output));
    assert_eq!(run(&["--seeds", "0..1"]).status.code(), Some(2));
}

#[test]
fn every_fault_of_a_counter_is_found() {
    let vectors = concat!(env!("CARGO_MANIFEST_DIR"), "/../traffic");
    let output = run(&["faults", vectors]);
    assert!(output.status.success() && !said(&output).contains("NOT FOUND"), "{}", said(&output));
}
