//! What a program under test counts in the files, compared with the model.

use std::fmt;

use model::check::{Difference, shown};
use model::sample::{Options, Program, Sample};
use model::traffic::{Column, Totals};

/// The summary of a run without a difference, or the first finding.
pub fn with_program(options: &Options) -> Result<String, String> {
    let counter = Program::new(options);
    let mut compared = Compared::default();
    for seed in options.seeds.clone() {
        for &kind in &options.kinds {
            let sample = Sample::of(kind, seed, options.lines);
            compare(&counter, &sample).map_err(|finding| format!("difference: {}, {finding}", sample.name))?;
            compared.add(&sample);
        }
    }
    Ok(format!("{compared}\nno difference"))
}

/// What has been compared so far.
#[derive(Default)]
struct Compared {
    files: u64,
    lines: u64,
    all: Totals,
}

impl Compared {
    fn add(&mut self, sample: &Sample) {
        self.files += 1;
        self.lines += lines(&sample.input).count() as u64;
        self.all.add(&sample.table().all);
    }
}

impl fmt::Display for Compared {
    fn fmt(&self, out: &mut fmt::Formatter) -> fmt::Result {
        for column in Column::ALL {
            writeln!(out, "{} {}", column.name(), self.all[column])?;
        }
        writeln!(out, "lines {}", self.lines)?;
        write!(out, "files compared {}", self.files)
    }
}

/// The lines of an input, each with its LF if it has one.
fn lines(input: &[u8]) -> impl Iterator<Item = &[u8]> {
    input.split_inclusive(|&byte| byte == b'\n')
}

fn compare(counter: &Program, sample: &Sample) -> Result<(), String> {
    let Some(whole) = difference(counter, sample)? else { return Ok(()) };
    let (line, difference) = first_difference(counter, sample, whole)?;
    let step = line.checked_sub(1).and_then(|before| lines(&sample.input).nth(before)).map_or("none".into(), shown);
    let side = |side: Option<String>| side.unwrap_or("none".into());
    let (model, counter) = (side(difference.expected), side(difference.actual));
    Err(format!("line {line}\n  input:   {step}\n  model:   {model}\n  counter: {counter}"))
}

fn difference(counter: &Program, sample: &Sample) -> Result<Option<Difference>, String> {
    Ok(Difference::between(&sample.counted(), &counter.said(sample)?))
}

/// How many lines the file must have to be counted otherwise, and the difference then. Totals never fall, so it is
/// looked for by halves.
fn first_difference(counter: &Program, sample: &Sample, whole: Difference) -> Result<(usize, Difference), String> {
    if let Some(empty) = difference(counter, &beginning(sample, 0))? {
        return Ok((0, empty));
    }
    let (mut same, mut other, mut found) = (0, lines(&sample.input).count(), whole);
    while other - same > 1 {
        let middle = same.midpoint(other);
        match difference(counter, &beginning(sample, middle))? {
            None => same = middle,
            Some(difference) => (other, found) = (middle, difference),
        }
    }
    Ok((other, found))
}

fn beginning(sample: &Sample, count: usize) -> Sample {
    let input = lines(&sample.input).take(count).flatten().copied().collect();
    Sample { name: sample.name.clone(), seed: sample.seed, input, image: sample.image.clone() }
}
