//! A program under test, run on samples.

use std::env::temp_dir;
use std::fs;
use std::path::PathBuf;
use std::process::{Command, id};

use super::{Options, Sample};
use crate::process::run;

pub struct Program<'a> {
    path: &'a str,
    words: &'a [String],
    /// Where an image lies for it.
    image: PathBuf,
}

impl<'a> Program<'a> {
    pub fn new(options: &'a Options) -> Self {
        let image = temp_dir().join(format!("sample-{}.image", id()));
        Program { path: &options.program, words: &options.words, image }
    }

    /// What it says of a file.
    pub fn said(&self, sample: &Sample) -> Result<Vec<u8>, String> {
        let mut command = Command::new(self.path);
        command.args(self.words);
        let Some(image) = &sample.image else { return run(&mut command, &sample.input, sample.seed) };
        let place = self.image.display();
        fs::write(&self.image, image).map_err(|error| format!("cannot write {place}: {error}"))?;
        let output = run(command.arg("--read-image").arg(&self.image), &sample.input, sample.seed);
        let _ = fs::remove_file(&self.image);
        output
    }
}
