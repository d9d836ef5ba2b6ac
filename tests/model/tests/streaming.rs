//! The streaming player, explainer and counter: however the input comes in, each says what the one in memory says.

use std::cell::RefCell;
use std::io::{ErrorKind, Read, Result, Write};

use model::explain::{explain, explained};
use model::generate::{FileKind, Rng, step_file};
use model::traffic::{count, counted};
use model::{Document01, play, replay};

/// Gives its bytes in pieces of random sizes, with interruptions.
struct Pieces<'a> {
    rest: &'a [u8],
    rng: Rng,
    limit: usize,
}

impl Read for Pieces<'_> {
    fn read(&mut self, buffer: &mut [u8]) -> Result<usize> {
        if self.rng.one_in(10) {
            return Err(ErrorKind::Interrupted.into());
        }
        let length = (1 + self.rng.below(self.limit)).min(buffer.len()).min(self.rest.len());
        let (piece, rest) = self.rest.split_at(length);
        buffer[..length].copy_from_slice(piece);
        self.rest = rest;
        Ok(length)
    }
}

fn pieces(input: &[u8], limit: usize) -> Pieces<'_> {
    Pieces { rest: input, rng: Rng::new(1), limit }
}

fn streamed(input: &[u8], limit: usize) -> Vec<u8> {
    let mut output = Vec::new();
    play::<Document01>(pieces(input, limit), &mut output).expect("memory takes every byte");
    output
}

fn explained_in_pieces(input: &[u8], limit: usize) -> Vec<u8> {
    let mut output = Vec::new();
    explain(pieces(input, limit), &mut output).expect("memory takes every byte");
    output
}

fn counted_in_pieces(input: &[u8], limit: usize) -> Vec<u8> {
    let mut output = Vec::new();
    count(pieces(input, limit), &mut output).expect("memory takes every byte");
    output
}

/// Whole files, each with what is expected of it, in pieces of every size.
fn check_pieces(expected: fn(&[u8]) -> Vec<u8>, streamed: fn(&[u8], usize) -> Vec<u8>) {
    for kind in FileKind::ALL {
        for seed in 0..9 {
            let input = step_file(kind, seed, 3000);
            let expected = expected(&input);
            for limit in [1, 7, 100, 5000, 65_535, 65_536, 1_000_000] {
                let said = streamed(&input, limit);
                assert!(said == expected, "{} seed {seed} pieces up to {limit}", kind.name());
            }
        }
    }
}

#[test]
fn pieces_of_any_size_are_played_alike() {
    check_pieces(|input| replay::<Document01>(input, &mut ()), streamed);
}

#[test]
fn pieces_of_any_size_are_explained_alike() {
    check_pieces(explained, explained_in_pieces);
}

#[test]
fn pieces_of_any_size_are_counted_alike() {
    check_pieces(counted, counted_in_pieces);
}

#[test]
fn lines_about_the_size_of_the_buffer_are_one_line_each() {
    for length in [65_535, 65_536, 65_537, 131_071, 131_072, 131_073, 400_000] {
        for line in [vec![b'7'; length], [b"OR 0 0".to_vec(), vec![b' '; length]].concat()] {
            let input = [&line[..], b"\nOR 0 0\n", &line].concat();
            let expected = "1 N 1\n2 G 1 0 1\n3 N 1\nfiles 1\n0 2 1 -\n";
            assert_eq!(streamed(&input, 1_000_000), expected.as_bytes(), "{length}");
            assert_eq!(explained_in_pieces(&input, 1_000_000), explained(b"\nOR 0 0\nno step"), "{length}");
            assert_eq!(counted_in_pieces(&input, 1_000_000), counted(b"OR 0 0\n"), "{length}");
        }
    }
}

#[test]
fn many_empty_lines_overflow_no_buffer() {
    let input = vec![b'\n'; 200_000];
    let said = streamed(&input, 1_000_000);
    assert!(said.ends_with(b"\n200000 N 1\nfiles 0\n"));
    assert_eq!(said.iter().filter(|&&byte| byte == b'\n').count(), 200_001);
}

/// Output that can be looked at while the player runs.
struct Shared<'a>(&'a RefCell<Vec<u8>>);

impl Write for Shared<'_> {
    fn write(&mut self, bytes: &[u8]) -> Result<usize> {
        self.0.borrow_mut().write(bytes)
    }

    fn flush(&mut self) -> Result<()> {
        Ok(())
    }
}

/// Gives a line at a time and looks whether the one before was answered.
struct Dialogue<'a> {
    lines: std::slice::Iter<'a, &'a str>,
    said: &'a RefCell<Vec<u8>>,
    asked: usize,
}

impl Read for Dialogue<'_> {
    fn read(&mut self, buffer: &mut [u8]) -> Result<usize> {
        assert_eq!(self.said.borrow().iter().filter(|&&byte| byte == b'\n').count(), self.asked);
        let Some(line) = self.lines.next() else { return Ok(0) };
        self.asked += 1;
        buffer[..line.len()].copy_from_slice(line.as_bytes());
        Ok(line.len())
    }
}

#[test]
fn a_first_line_set_comes_in_pieces() {
    let input = b"SET 2 64 8\nOW 1 63\nWR 1 63 7 5\nRD 1 63 7\nOR 2 0\nSET 8 32 4\n";
    let expected = "1 K\n2 G 2 1 1\n3 K\n4 V 5\n5 N 2\n6 N 1\nfiles 1\n63 5 2 -\n";
    for limit in [1, 3, 11, 100] {
        assert_eq!(String::from_utf8_lossy(&streamed(input, limit)), expected, "{limit}");
    }
    assert_eq!(streamed(b"SET 1 1 1", 2), b"1 K\nfiles 0\n");
    assert_eq!(streamed(b"\nSET 1 1 1", 1), b"1 N 1\n2 N 1\nfiles 0\n");
    let long = [b"SET 1 1 1".to_vec(), vec![b' '; 200_000], b"\nSET 1 1 1\n".to_vec()].concat();
    assert_eq!(streamed(&long, 1_000_000), b"1 N 1\n2 N 1\nfiles 0\n");
}

const LINES: [&str; 3] = ["OR 0 0\n", "RD 0 0 0\n", "CR 0 0\n"];

#[test]
fn every_line_is_answered_before_more_is_read() {
    let said = RefCell::new(Vec::new());
    play::<Document01>(Dialogue { lines: LINES.iter(), said: &said, asked: 0 }, Shared(&said))
        .expect("memory suffices");
    assert_eq!(said.into_inner(), b"1 G 1 0 1\n2 V 0\n3 K\nfiles 0\n");
}

#[test]
fn every_line_is_explained_before_more_is_read() {
    let said = RefCell::new(Vec::new());
    explain(Dialogue { lines: LINES.iter(), said: &said, asked: 0 }, Shared(&said)).expect("memory suffices");
    assert_eq!(said.into_inner(), explained(LINES.concat().as_bytes()));
}
