//! Step files of a directory, each beside what a program prints for it.

use std::fs;
use std::path::{Path, PathBuf};

use model::Service;

/// The step files of a directory.
pub fn inputs(name: &str) -> Vec<PathBuf> {
    let directory = Path::new(env!("CARGO_MANIFEST_DIR")).join("../..").join(name);
    let files = fs::read_dir(directory).expect("the directory is there");
    let paths = files.map(|file| file.expect("the directory is readable").path());
    paths.filter(|path| path.extension().is_some_and(|extension| extension == "in")).collect()
}

/// Of a file what the file of this extension has is printed: from its image if it has one, else from a fresh service.
pub fn check(path: &Path, expected: &str, fresh: fn(&[u8]) -> Vec<u8>, from: fn(Service, bool, &[u8]) -> Vec<u8>) {
    let input = fs::read(path).expect("the input is readable");
    let expected = fs::read_to_string(path.with_extension(expected)).expect("the output is there");
    let said = match fs::read(path.with_extension("image")) {
        Ok(image) => from(Service::resumed(&image).expect("it is an image"), true, &input),
        Err(_) => fresh(&input),
    };
    assert_eq!(String::from_utf8_lossy(&said), expected, "{}", path.display());
}
