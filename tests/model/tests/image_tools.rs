//! The programs about images: the strings find a judge's fault, joined runs find a player's, and both pass the model.

use std::fs::{self, Permissions};
use std::io::Write;
use std::os::unix::fs::PermissionsExt;
use std::path::{Path, PathBuf};
use std::process::{Command, Output, Stdio};

const IMAGES: &str = env!("CARGO_BIN_EXE_images");
const JOINED: &str = env!("CARGO_BIN_EXE_joined");
const MODEL: &str = env!("CARGO_BIN_EXE_model");

fn run(program: &str, words: &[&str]) -> Output {
    run_on(program, words, b"")
}

fn run_on(program: &str, words: &[&str], input: &[u8]) -> Output {
    let piped = || Stdio::piped();
    let mut command = Command::new(program);
    let mut child =
        command.args(words).stdin(piped()).stdout(piped()).stderr(piped()).spawn().expect("the program starts");
    child.stdin.take().expect("the input is a pipe").write_all(input).expect("the program reads its input");
    child.wait_with_output().expect("the program ends")
}

fn said(output: &Output) -> String {
    String::from_utf8_lossy(&output.stdout).into_owned()
}

/// A place for a file of this test.
fn place(name: &str) -> PathBuf {
    Path::new(env!("CARGO_TARGET_TMPDIR")).join(name)
}

fn text(path: &Path) -> &str {
    path.to_str().expect("the path is text")
}

/// A player that is the model, but for this script; `$model` and the player's own words are given to it.
fn wrapped_player(name: &str, script: &str) -> PathBuf {
    let path = place(name);
    fs::write(&path, format!("#!/bin/sh\nmodel='{MODEL}'\n{script}\n")).expect("the script is written");
    fs::set_permissions(&path, Permissions::from_mode(0o755)).expect("the script is executable");
    path
}

const WHOLE_CASE: &[u8] = b"OW 0 3\nWR 0 3 0 77\nCW 0 3\nOR 1 3\nRD 1 3 0\nAN 0 3\n";

/// The image of document 01's whole case up to line 6.
const IMAGE: [u8; 34] =
    [8, 32, 4, 0, 2, 1, 0, 3, 2, 0, 0, 0, 255, 1, 0, 1, 3, 1, 0, 1, 1, 0, 3, 0, 77, 0, 0, 0, 0, 0, 0, 0, 0, 0];

/// The protocol by one string: client 0 has file 0 open, and file 31 closed and dirty, at whatever version.
#[test]
fn a_judge_answers_by_the_protocol() {
    let request = |before: u8, bytes: &[u8]| [&[8, 32, 4, 0, 2, before, bytes.len() as u8, 0][..], bytes].concat();
    let read = [
        &[b'1', 0, 253, 1, 40, 0, 8, 32, 4, 0, 2][..],
        &[2, 0, 3, 2, 0, 0, 0, 255, 31, 1, 0, 0, 0, 0],
        &[1, 0, 0, 0, 0, 1, 1],
        &[1, 0, 3, 0, 77, 0, 0, 0, 0, 0, 0, 0],
        &[0, 0],
    ]
    .concat();
    let stays = [b"0\x02", &read[2..]].concat();
    let fresh = [
        &[b'0', 2, 254, 1, 30, 0, 8, 32, 4, 0, 2][..],
        &[2, 0, 0, 2, 0, 0, 0, 255, 31, 2, 0, 0, 0, 0],
        &[1, 0, 0, 0, 0, 1, 1],
        &[0, 0, 0, 0],
    ]
    .concat();
    let waits = [b'0', 2, 254, 1, 0, 0, 15];
    for (requests, answers) in [
        (vec![], vec![]),
        (vec![request(0, &IMAGE)], vec![&read[..]]),
        (vec![request(0, &IMAGE[..33])], vec![&fresh]),
        (vec![request(0, &IMAGE), request(0, b""), request(1, &IMAGE)], vec![&read, &stays, &read]),
        (vec![request(2, b"x"), request(0, b"x"), request(0, &IMAGE)], vec![&waits, &waits, &read]),
    ] {
        let output = run_on(IMAGES, &["judge"], &requests.concat());
        assert_eq!(output.stdout, [&answers.concat()[..], b"\n"].concat());
    }
}

#[test]
fn the_model_passes_as_a_judge() {
    let output = run(IMAGES, &["--seeds", "0..40", "--judge", IMAGES, "judge"]);
    assert!(output.status.success() && said(&output).ends_with("no difference\n"), "{}", said(&output));
}

#[test]
fn a_judge_with_a_fault_is_found() {
    for fault in ["zero_block_refused", "free_kept_by_the_reading", "waits_kept", "version_high_byte_first"] {
        let output = run(IMAGES, &["--seeds", "0..40", "--judge", IMAGES, "judge", fault]);
        assert_eq!(output.status.code(), Some(1), "{fault}");
        let parts = ["difference: seed ", "string ", "  model: [", "  judge: ["];
        assert!(parts.iter().all(|part| said(&output).contains(part)), "{}", said(&output));
    }
}

/// A judge that stops early, or says too much, or is not there.
#[test]
fn a_judge_that_is_not_whole_is_found() {
    for script in ["'IMAGES' judge | head -c 5000", "'IMAGES' judge; echo", "exit 3"] {
        let script = script.replace("IMAGES", IMAGES);
        let output = run(IMAGES, &["--seeds", "0..1", "--judge", "/bin/sh", "-c", &script]);
        assert_eq!(output.status.code(), Some(1), "{script}");
    }
    let output = run(IMAGES, &["--judge", "no such judge"]);
    assert!(said(&output).contains("cannot run no such judge"), "{}", said(&output));
}

#[test]
fn every_fault_of_a_judge_is_found() {
    let output = run(IMAGES, &["faults"]);
    assert!(output.status.success() && !said(&output).contains("NOT FOUND"), "{}", said(&output));
}

/// The player's image, and a session that goes on from it: the sizes are the image's, and a line SET is no step.
#[test]
fn a_player_writes_and_reads_an_image() {
    let image = place("whole-case.image");
    let output = run_on(MODEL, &["--write-image", text(&image)], WHOLE_CASE);
    assert!(output.status.success() && said(&output).ends_with("files 1\n3 2 2 -\n"), "{}", said(&output));
    assert_eq!(fs::read(&image).expect("the image is there"), IMAGE);
    let second = b"SET 1 1 1\nOR 7 3\nRP 0\nRP 1\nRP 2\nRP 3\nRP 4\nRP 5\nRP 6\nRP 7\nEN\nOR 7 3\nRD 7 3 0\nOR 8 3\n";
    let output = run_on(MODEL, &["--read-image", text(&image)], second);
    let expected = "1 N 1\n2 N 5\n3 K\n4 K\n5 K\n6 K\n7 K\n8 K\n9 K\n10 K\n11 K\n12 G 2 1 1\n13 V 77\n14 N 2\nfiles \
                    1\n3 2 2 -\n";
    assert_eq!(said(&output), expected);
}

/// The image is refused with 5, 15 or 17; a refused one is not written, and nothing is played from one.
#[test]
fn a_refused_image_is_told() {
    let image = place("refused.image");
    for (input, refusal) in [(&b"XX\n"[..], "5"), (b"OW 0 0\nOW 1 0\n", "15"), (b"OW 0 0\nOW 1 0\nXX\n", "5")] {
        let output = run_on(MODEL, &["--write-image", text(&image)], input);
        assert!(String::from_utf8_lossy(&output.stderr).ends_with(&format!("refused with {refusal}\n")));
        assert!(!output.status.success() && !image.exists());
    }
    fs::write(&image, &IMAGE[..33]).expect("the file is written");
    let output = run(MODEL, &["--read-image", text(&image)]);
    assert!(String::from_utf8_lossy(&output.stderr).ends_with("refused with 17\n"));
    assert!(!output.status.success() && output.stdout.is_empty());
    fs::remove_file(&image).expect("the file is there");
}

#[test]
fn joined_runs_of_the_model_read_the_same() {
    let output = run(JOINED, &["--player", MODEL, "--seeds", "0..60"]);
    assert!(output.status.success() && said(&output).ends_with("no difference\n"), "{}", said(&output));
    assert!(said(&output).starts_with("sessions 60,"), "{}", said(&output));
}

/// Faults of images: the wrong bytes, nothing read, a crash in place of the reading, no image at all.
#[test]
fn joined_runs_find_a_player_that_spoils_the_image() {
    for (name, script) in [
        ("image_extended", r#""$model" "$@" || exit; [ "$1" != --write-image ] || printf x >>"$2""#),
        ("image_not_written", r#"exec "$model""#),
        ("image_not_read", r#"[ "$1" != --read-image ] || shift 2; exec "$model" "$@""#),
        (
            "empty_image_read",
            r#"[ "$1" != --read-image ] || { head -c 5 "$2"; printf '\0\0\0\0\0\0\0\0'; } >"$2.empty"
            [ "$1" != --read-image ] || { exec "$model" --read-image "$2.empty"; }; exec "$model" "$@""#,
        ),
    ] {
        let player = wrapped_player(name, script);
        let output = run(JOINED, &["--player", text(&player), "--seeds", "0..20"]);
        assert_eq!(output.status.code(), Some(1), "{name}: {}", said(&output));
    }
}
