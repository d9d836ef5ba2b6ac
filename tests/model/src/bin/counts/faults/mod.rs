//! Deliberate faults of a counter, and whether the vectors and the comparison find each.

mod calls;
mod opens;
mod reads;
mod refusals;
mod sent;
mod table;
mod text;

use std::fs;
use std::io::{Error, ErrorKind};
use std::path::Path;

use model::check::Difference;
use model::sample::{Kind, Sample};

use crate::fault::Fault;

const SEEDS: u64 = 30;

/// Short files, so that few lines are enough.
const LINES: usize = 400;

fn all() -> impl Iterator<Item = &'static Fault> {
    let groups =
        [opens::FAULTS, reads::FAULTS, sent::FAULTS, calls::FAULTS, refusals::FAULTS, table::FAULTS, text::FAULTS];
    groups.into_iter().flatten()
}

pub fn named(name: &str) -> Option<&'static Fault> {
    all().find(|fault| fault.name == name)
}

/// Every fault with a vector and a file that find it; an error if one is not found by both.
pub fn try_all(vectors: &Path) -> Result<String, String> {
    let vectors = read_vectors(vectors).map_err(|error| format!("{}: {error}", vectors.display()))?;
    let files: Vec<Counted> = (0..SEEDS).flat_map(|seed| Kind::ALL.map(|kind| of_a_file(kind, seed))).collect();
    let mut told = Vec::new();
    let mut found = 0;
    for fault in all() {
        let (vector, file) = (find(fault, &vectors), find(fault, &files));
        found += usize::from(vector.is_some() && file.is_some());
        let by = |finding: Option<String>| finding.unwrap_or("NOT FOUND".into());
        told.push(format!("{}\n  vector {}\n  file {}", fault.name, by(vector), by(file)));
    }
    let faults = told.len();
    told.push(format!("{found} of {faults} faults found, by the vectors and by files"));
    if found == faults { Ok(told.join("\n")) } else { Err(told.join("\n")) }
}

/// A step file, and what a right counter prints.
struct Counted {
    sample: Sample,
    right: Vec<u8>,
}

fn of_a_file(kind: Kind, seed: u64) -> Counted {
    let sample = Sample::of(kind, seed, LINES);
    let right = sample.counted();
    Counted { sample, right }
}

/// The vectors by name. Their outputs are theirs, and not the model's.
fn read_vectors(directory: &Path) -> Result<Vec<Counted>, Error> {
    let paths = fs::read_dir(directory)?.map(|entry| entry.map(|entry| entry.path()));
    let mut inputs = paths.collect::<Result<Vec<_>, _>>()?;
    inputs.retain(|path| path.extension().is_some_and(|extension| extension == "in"));
    inputs.sort();
    inputs.iter().map(|path| read_vector(path)).collect()
}

fn read_vector(input: &Path) -> Result<Counted, Error> {
    let name = input.file_stem().unwrap_or_default().to_string_lossy().into_owned();
    let image = match fs::read(input.with_extension("image")) {
        Err(error) if error.kind() == ErrorKind::NotFound => None,
        image => Some(image?),
    };
    let sample = Sample { name, seed: 0, input: fs::read(input)?, image };
    Ok(Counted { sample, right: fs::read(input.with_extension("out"))? })
}

fn find(fault: &Fault, files: &[Counted]) -> Option<String> {
    files.iter().find_map(|Counted { sample, right }| {
        let Difference { expected, actual, .. } = Difference::between(right, &fault.counted(sample))?;
        let side = |side: Option<String>| side.unwrap_or("none".into());
        Some(format!("{}: right {}, wrong {}", sample.name, side(expected), side(actual)))
    })
}
