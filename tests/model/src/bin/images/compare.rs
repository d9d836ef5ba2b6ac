//! A judge under test and the model on the same strings.

use std::fmt::Write;
use std::ops::Range;
use std::process::Command;

use model::images::{ByteString, Judge, LONGEST_INPUT, Request, Sort, is_written, strings};
use model::{Settings, process};

/// What has been compared so far.
#[derive(Default)]
struct Compared {
    runs: usize,
    /// For each sort, how many strings and how many of them accepted.
    strings: [(usize, usize); Sort::ALL.len()],
    /// Reports refused with 22.
    clashes: usize,
}

impl Compared {
    fn summary(&self) -> String {
        let mut summary = String::new();
        let mut line = |name: &str, (strings, accepted): (usize, usize)| {
            writeln!(summary, "{strings:>9} {accepted:>9}  {name}").expect("a string takes every character");
        };
        for (sort, &counts) in Sort::ALL.iter().zip(&self.strings) {
            line(sort.name(), counts);
        }
        let total = |counts: fn(&(usize, usize)) -> usize| self.strings.iter().map(counts).sum();
        line("in all: strings, accepted", (total(|counts| counts.0), total(|counts| counts.1)));
        let Compared { runs, clashes, .. } = self;
        format!("{summary}reports refused with 22 {clashes}\nruns of the judge {runs}\nno difference")
    }
}

/// The summary of a run without a difference, or the first finding.
pub fn with_program(program: &str, words: &[&str], seeds: Range<u64>) -> Result<String, String> {
    let mut compared = Compared::default();
    let mut judge = Command::new(program);
    judge.args(words);
    for seed in seeds {
        let group = strings(seed);
        for (run, part) in runs(&group).into_iter().enumerate() {
            let name = format!("seed {seed} run {}", run + 1);
            compare(&mut judge, &name, seed, part, &mut compared)?;
        }
    }
    Ok(compared.summary())
}

/// The group in parts that each fit into one run.
fn runs(mut group: &[ByteString]) -> Vec<&[ByteString]> {
    let mut parts = Vec::new();
    while !group.is_empty() {
        let mut length = 0;
        let fits = |string: &&ByteString| {
            length += string.request.length();
            length <= LONGEST_INPUT
        };
        let (part, rest) = group.split_at(group.iter().take_while(fits).count());
        parts.push(part);
        group = rest;
    }
    parts
}

fn compare(
    judge: &mut Command,
    name: &str,
    seed: u64,
    part: &[ByteString],
    compared: &mut Compared,
) -> Result<(), String> {
    let mut input = Vec::new();
    part.iter().for_each(|string| string.request.write(&mut input));
    let output = process::run(judge, &input, seed).map_err(|why| format!("{name}: {why}"))?;
    let mut rest = &output[..];
    let mut model = Judge::model();
    for (at, string) in part.iter().enumerate() {
        let request = &string.request;
        let expected = model.answer(request);
        let accepted = expected[0] == b'1';
        if accepted != is_written(request.settings().read(), &request.bytes) {
            return Err(format!("the model's two judges differ: {name}, {}", located(at, string)));
        }
        rest = rest.strip_prefix(&expected[..]).ok_or_else(|| {
            let got = &rest[..rest.len().min(expected.len())];
            let answers = format!("  model: {}\n  judge: {}", shown(&expected), shown(got));
            format!("difference: {name}, {}\n{answers}", located(at, string))
        })?;
        let place = Sort::ALL.iter().position(|&sort| sort == string.sort).expect("every sort is listed");
        compared.strings[place].0 += 1;
        compared.strings[place].1 += usize::from(accepted);
    }
    if rest != b"\n" {
        return Err(format!("difference: {name}, after the last string: {}", shown(rest)));
    }
    compared.clashes += model.clashes();
    compared.runs += 1;
    Ok(())
}

/// Whether the fault shows in a group, and where.
pub fn first_difference(group: &[ByteString], mut one: Judge, mut other: Judge) -> Option<usize> {
    group.iter().position(|string| one.answer(&string.request) != other.answer(&string.request))
}

pub fn located(at: usize, string: &ByteString) -> String {
    let Request { before, bytes, .. } = &string.request;
    let Settings { clients, files, blocks, store } = string.request.settings();
    let sort = string.sort.name();
    format!("string {} ({sort}), sizes {clients} {files} {blocks} {store}, before {before}: {}", at + 1, shown(bytes))
}

/// Bytes in decimal, cut to a readable length.
fn shown(bytes: &[u8]) -> String {
    const READABLE: usize = 120;
    let numbers: Vec<String> = bytes.iter().take(READABLE).map(u8::to_string).collect();
    let rest = if bytes.len() > READABLE { format!(" .. ({} bytes)", bytes.len()) } else { String::new() };
    format!("[{}{rest}]", numbers.join(" "))
}
