//! Plays seeded sessions on a player twice: in two runs joined by an image, and in one run with a crash in its place.
//! "Demand 3 holds with the reading as a crash": the reads must be the same. `joined --player PATH [--seeds A..B]
//! [--lines N]`
//!
//! The image keeps nothing of the clients, so each of them has closed and flushed before. Until then a session may be
//! anything; its image as far as it went is compared with the model's too. Some clients go through the image under
//! embargo.

mod runs;
mod session;

use std::env::args;
use std::ops::Range;
use std::process::ExitCode;

use model::generate::seeds;
use runs::Player;
use session::{Compared, Session};

const USAGE: &str = "usage: joined --player PATH [--seeds A..B] [--lines N]";

struct Options {
    player: String,
    seeds: Range<u64>,
    lines: usize,
}

fn options(words: &[&str]) -> Option<Options> {
    let mut options = Options { player: String::new(), seeds: 0..1000, lines: 300 };
    for pair in words.chunks(2) {
        match *pair {
            ["--player", path] => options.player = path.into(),
            ["--seeds", range] => options.seeds = seeds(range)?,
            ["--lines", lines] => options.lines = lines.parse().ok()?,
            _ => return None,
        }
    }
    (!options.player.is_empty()).then_some(options)
}

fn main() -> ExitCode {
    let words: Vec<String> = args().skip(1).collect();
    let words: Vec<&str> = words.iter().map(String::as_str).collect();
    let Some(options) = options(&words) else {
        eprintln!("{USAGE}");
        return ExitCode::from(2);
    };
    let player = Player::new(&options.player);
    let mut compared = Compared::default();
    for seed in options.seeds {
        if let Err(finding) = Session::of(seed, options.lines).compare(&player, &mut compared) {
            println!("{finding}");
            return ExitCode::FAILURE;
        }
    }
    println!("{compared}\nno difference");
    ExitCode::SUCCESS
}
