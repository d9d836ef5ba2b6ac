//! A program under test, run on one input.

use std::io::{ErrorKind, Read, Result, Write};
use std::process::{Child, ChildStdin, Command, ExitStatus, Stdio};
use std::thread;

use crate::generate::Rng;

/// The program's output. The input goes in by pieces of odd sizes, so that its reads end in the middle of lines.
pub fn run(command: &mut Command, input: &[u8], seed: u64) -> std::result::Result<Vec<u8>, String> {
    let (output, status) = run_to_status(command, input, seed)?;
    if status.success() { Ok(output) } else { Err(format!("{} ends with {status}", name(command))) }
}

/// The same of a program that may fail.
pub fn run_to_status(
    command: &mut Command,
    input: &[u8],
    seed: u64,
) -> std::result::Result<(Vec<u8>, ExitStatus), String> {
    let piped = command.stdin(Stdio::piped()).stdout(Stdio::piped());
    let started = piped.spawn();
    let mut child = started.map_err(|error| format!("cannot run {}: {error}", name(command)))?;
    let output = converse(&mut child, input, seed).map_err(|error| format!("talking to {}: {error}", name(command)))?;
    let status = child.wait().map_err(|error| format!("waiting for {}: {error}", name(command)))?;
    Ok((output, status))
}

fn name(command: &Command) -> String {
    command.get_program().to_string_lossy().into_owned()
}

fn converse(child: &mut Child, input: &[u8], seed: u64) -> Result<Vec<u8>> {
    let stdin = child.stdin.take().expect("the input is a pipe");
    let mut stdout = child.stdout.take().expect("the output is a pipe");
    thread::scope(|scope| {
        let feeder = scope.spawn(|| feed(stdin, input, seed));
        let mut output = Vec::new();
        stdout.read_to_end(&mut output)?;
        feeder.join().expect("the feeder does not panic")?;
        Ok(output)
    })
}

fn feed(mut stdin: ChildStdin, mut input: &[u8], seed: u64) -> Result<()> {
    let mut rng = Rng::new(seed);
    while !input.is_empty() {
        let limit = *rng.pick(&[100, 5_000, 200_000]);
        let (piece, rest) = input.split_at(input.len().min(1 + rng.below(limit)));
        match stdin.write_all(piece) {
            // A program that stops early is told by its output.
            Err(error) if error.kind() == ErrorKind::BrokenPipe => return Ok(()),
            result => result?,
        }
        input = rest;
    }
    Ok(())
}
