//! The hand-written vectors, played by the model.

use std::fs;
use std::path::Path;

use model::{Document01, replay};

#[test]
fn every_vector_is_met() {
    let vectors = Path::new(env!("CARGO_MANIFEST_DIR")).join("../vectors");
    let mut count = 0;
    for file in fs::read_dir(vectors).expect("the vectors are there") {
        let path = file.expect("the directory is readable").path();
        if path.extension().is_some_and(|extension| extension == "in") {
            let input = fs::read(&path).expect("a vector has an input");
            let expected = fs::read(path.with_extension("out")).expect("a vector has an output");
            assert!(replay::<Document01>(&input, &mut ()) == expected, "{}", path.display());
            count += 1;
        }
    }
    assert!(count > 280);
}
