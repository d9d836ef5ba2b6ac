//! Listings as document 01 prints them: input left, output right, then the summary.

use model::{Document01, Service, replay_from};

pub type Listing<'a> = &'a [(&'a str, &'a str)];

/// Plays the left sides from this service; the output must be the right sides, each after its line number, and the
/// summary.
pub fn check_from(service: &mut Service, listing: Listing, summary: &[&str]) {
    let input: String = listing.iter().map(|(step, _)| format!("{step}\n")).collect();
    let said = listing.iter().enumerate().map(|(line, (_, said))| format!("{} {said}\n", line + 1));
    let expected: String = said.chain(summary.iter().map(|line| format!("{line}\n"))).collect();
    let output = replay_from::<Document01>(service, input.as_bytes(), &mut ());
    assert_eq!(String::from_utf8_lossy(&output), expected);
}

/// A crash, the reports of all eight and the end.
pub const RECOVERY: [(&str, &str); 10] = [
    ("XX", "K"),
    ("RP 0", "K"),
    ("RP 1", "K"),
    ("RP 2", "K"),
    ("RP 3", "K"),
    ("RP 4", "K"),
    ("RP 5", "K"),
    ("RP 6", "K"),
    ("RP 7", "K"),
    ("EN", "K"),
];
