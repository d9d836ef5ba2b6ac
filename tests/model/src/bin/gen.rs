//! Writes a step file to standard output: `gen KIND SEED LINES`.

use std::env::args;
use std::io::{BufWriter, Write, stdout};
use std::process::ExitCode;

use model::generate::{FileKind, generate};

fn main() -> ExitCode {
    let words: Vec<String> = args().skip(1).collect();
    let Some((kind, seed, lines)) = parse(&words) else {
        eprintln!("usage: gen hot|wide|malformed|session|restart|embargo|space SEED LINES");
        return ExitCode::from(2);
    };
    let mut output = BufWriter::new(stdout().lock());
    match generate(kind, seed, lines, &mut output).and_then(|()| output.flush()) {
        Ok(()) => ExitCode::SUCCESS,
        Err(error) => {
            eprintln!("gen: {error}");
            ExitCode::FAILURE
        }
    }
}

fn parse(words: &[String]) -> Option<(FileKind, u64, usize)> {
    let [kind, seed, lines] = words else { return None };
    Some((FileKind::named(kind)?, seed.parse().ok()?, lines.parse().ok()?))
}
