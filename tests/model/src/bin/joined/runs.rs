//! Runs of the player, with an image to read or to write.

use std::fs;
use std::path::PathBuf;
use std::process::{Command, Stdio, id};

use model::process::{run, run_to_status};

pub struct Player {
    path: String,
    /// Where the image lies.
    image: PathBuf,
}

impl Player {
    pub fn new(path: &str) -> Self {
        Player { path: path.into(), image: std::env::temp_dir().join(format!("joined-{}.image", id())) }
    }

    pub fn plays(&self, input: &[u8], seed: u64) -> Result<Vec<u8>, String> {
        run(&mut Command::new(&self.path), input, seed)
    }

    /// The output, and the image unless it is refused; the file is then not there, or empty.
    pub fn plays_to_image(&self, input: &[u8], seed: u64) -> Result<(Vec<u8>, Option<Vec<u8>>), String> {
        let mut command = Command::new(&self.path);
        command.arg("--write-image").arg(&self.image).stderr(Stdio::null());
        // A refused image may be told by the status, and is seen by the file.
        let (output, _status) = run_to_status(&mut command, input, seed)?;
        let image = fs::read(&self.image).unwrap_or_default();
        let _ = fs::remove_file(&self.image);
        Ok((output, (!image.is_empty()).then_some(image)))
    }

    pub fn plays_from_image(&self, image: &[u8], input: &[u8], seed: u64) -> Result<Vec<u8>, String> {
        let place = self.image.display();
        fs::write(&self.image, image).map_err(|error| format!("cannot write {place}: {error}"))?;
        let mut command = Command::new(&self.path);
        let output = run(command.arg("--read-image").arg(&self.image), input, seed);
        let _ = fs::remove_file(&self.image);
        output
    }
}
