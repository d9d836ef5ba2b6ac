//! Plays a step file from standard input to standard output by the documents' rules: `model [--explain | --traffic]
//! [--read-image FILE] [--write-image FILE]`. With --explain it says of each line what docs/EXPLAIN.md fixes; with
//! --traffic it says nothing of the lines, and prints the traffic of the session at the end. With an image to read, the
//! session goes on from that reading; with one to write, the image of the server is written when the input has ended.

use std::env::args;
use std::fs;
use std::io::{Error, stdin, stdout};
use std::process::ExitCode;

use model::explain::explain_on;
use model::images::written;
use model::traffic::count_on;
use model::{Document01, Refusal, Service, play_on};

#[derive(Default)]
struct Options {
    explain: bool,
    traffic: bool,
    read_image: Option<String>,
    write_image: Option<String>,
}

fn main() -> ExitCode {
    let Some(options) = options(args().skip(1)) else {
        eprintln!("usage: model [--explain | --traffic] [--read-image FILE] [--write-image FILE]");
        return ExitCode::from(2);
    };
    match session(&options) {
        Ok(()) => ExitCode::SUCCESS,
        Err(problem) => {
            eprintln!("model: {problem}");
            ExitCode::FAILURE
        }
    }
}

/// Each option at most once, those for an image with its file.
fn options(mut words: impl Iterator<Item = String>) -> Option<Options> {
    let mut options = Options::default();
    while let Some(word) = words.next() {
        let place = match word.as_str() {
            "--explain" if !options.explain && !options.traffic => {
                options.explain = true;
                continue;
            }
            "--traffic" if !options.explain && !options.traffic => {
                options.traffic = true;
                continue;
            }
            "--read-image" => &mut options.read_image,
            "--write-image" => &mut options.write_image,
            _ => return None,
        };
        if place.replace(words.next()?).is_some() {
            return None;
        }
    }
    Some(options)
}

fn session(options: &Options) -> Result<(), String> {
    let service = match &options.read_image {
        Some(path) => resumed(path)?,
        None => Service::fresh(),
    };
    let resumed = options.read_image.is_some();
    let (input, output) = (stdin().lock(), stdout().lock());
    let played = match options {
        Options { explain: true, .. } => explain_on(service, resumed, input, output),
        Options { traffic: true, .. } => count_on(service, resumed, input, output),
        _ => play_on::<Document01>(service, resumed, input, output),
    };
    let service = played.map_err(|error| error.to_string())?;
    options.write_image.as_ref().map_or(Ok(()), |path| write_image(&service, path))
}

fn resumed(path: &str) -> Result<Service, String> {
    let image = fs::read(path).map_err(|error| failed(path, error))?;
    Service::resumed(&image).map_err(|refusal| refused(path, refusal))
}

/// A refused image leaves the file as it is.
fn write_image(service: &Service, path: &str) -> Result<(), String> {
    let image = written(service).map_err(|refusal| refused(path, refusal))?;
    fs::write(path, image).map_err(|error| failed(path, error))
}

fn failed(path: &str, error: Error) -> String {
    format!("{path}: {error}")
}

fn refused(path: &str, refusal: Refusal) -> String {
    format!("{path}: refused with {}", refusal.number())
}
