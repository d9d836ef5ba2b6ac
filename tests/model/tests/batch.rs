//! A batch is single opens in list order (document 02, Wish 6): what crates/closing_run prints, which its check compares
//! with its file `stdout`, against the model on the single opens.

use model::{Document01, replay};

const CLOSING_RUN: &str = include_str!("../../../crates/closing_run/stdout");

/// The lines under a heading: the reply to the batch is line 0, that to opening n is line n.
fn told(heading: &str) -> Vec<&str> {
    let lines = CLOSING_RUN.lines().skip_while(|line| *line != heading).skip(1);
    lines.take_while(|line| line.starts_with(|first: char| first.is_ascii_digit())).collect()
}

/// A reply line without its number.
fn reply(line: &str) -> &str {
    line.split_once(' ').expect("a number, a space, and the reply").1
}

#[test]
fn each_opening_is_told_as_its_single_open() {
    let output = replay::<Document01>(b"OW 2 3\nOR 5 1\nOW 5 3\nOR 5 32\nOR 5 3\nOW 5 1\n", &mut ());
    let singles = String::from_utf8(output).expect("the output is ASCII");
    let expected: Vec<&str> = singles.lines().skip(1).take(5).map(reply).collect();
    let run = told("closing run");
    assert_eq!(run[0], "0 K");
    assert_eq!(run[1..].iter().map(|line| reply(line)).collect::<Vec<&str>>(), expected);
}

#[test]
fn a_list_of_seventeen_is_refused_before_any_opening_is_tried() {
    assert_eq!(told("list of 17"), ["0 N 18"]);
}

#[test]
fn an_empty_list_is_accepted() {
    assert_eq!(told("empty list"), ["0 K"]);
}
