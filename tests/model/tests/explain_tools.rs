//! The program that compares explainers: it passes the model, and finds every fault.

use std::process::{Command, Output};

const EXPLAINS: &str = env!("CARGO_BIN_EXE_explains");
const MODEL: &str = env!("CARGO_BIN_EXE_model");

fn run(words: &[&str]) -> Output {
    Command::new(EXPLAINS).args(words).output().expect("the program runs")
}

fn said(output: &Output) -> String {
    String::from_utf8_lossy(&output.stdout).into_owned()
}

#[test]
fn the_model_does_not_differ_from_itself() {
    let output = run(&["--explainer", MODEL, "--seeds", "0..8", "--lines", "500", "--", "--explain"]);
    assert!(output.status.success(), "{}", said(&output));
    assert!(said(&output).contains("files compared 80,") && said(&output).ends_with("no difference\n"));
}

/// One fault of each sort, in the program's own run.
#[test]
fn a_fault_is_reported_with_both_lines() {
    for fault in ["previous_write_named", "kept_told_for_dropped", "last_file_missing", "last_lf_missing"] {
        let output = run(&["--explainer", EXPLAINS, "--seeds", "0..8", "--", "explain", fault]);
        assert_eq!(output.status.code(), Some(1), "{fault}");
        let parts = ["difference: ", "line ", "  input:     ", "  model:     ", "  explainer: "];
        assert!(parts.iter().all(|part| said(&output).contains(part)), "{}", said(&output));
    }
}

/// Runs that begin with an image are compared too.
#[test]
fn a_fault_of_resumed_runs_is_reported() {
    let fault = "never_written_told_of_an_image";
    let compare = |kinds| run(&["--explainer", EXPLAINS, "--seeds", "0..4", "--kinds", kinds, "--", "explain", fault]);
    assert!(compare("hot,wide,malformed,session,restart,embargo,space").status.success());
    let output = compare("resumed");
    assert_eq!(output.status.code(), Some(1));
    assert!(said(&output).contains("as the image has it"), "{}", said(&output));
}

#[test]
fn an_explainer_that_is_no_explainer_is_reported() {
    let output = run(&["--explainer", MODEL, "--seeds", "0..1"]);
    assert_eq!(output.status.code(), Some(1), "{}", said(&output));
    let output = run(&["--explainer", "no such explainer"]);
    assert!(said(&output).contains("cannot run no such explainer"), "{}", said(&output));
    assert_eq!(run(&["--seeds", "0..1"]).status.code(), Some(2));
}

#[test]
fn every_fault_of_an_explainer_is_found() {
    let output = run(&["faults"]);
    assert!(output.status.success() && !said(&output).contains("NOT FOUND"), "{}", said(&output));
}
