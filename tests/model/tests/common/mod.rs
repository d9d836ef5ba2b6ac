//! Step files and listings played from a fresh service.

mod listing;

use model::{Document01, Service, replay};

use listing::{Listing, check_from};

pub use listing::RECOVERY;

pub fn check(listing: Listing, summary: &[&str]) {
    check_from(&mut Service::fresh(), listing, summary);
}

pub fn played(input: impl AsRef<[u8]>) -> String {
    String::from_utf8(replay::<Document01>(input.as_ref(), &mut ())).expect("the output is ASCII")
}
