//! A run that goes on from an image, of a service in which every client has closed and flushed. Some may be under
//! embargo.

use super::{closing_time, embargoes_from, restarts_from, session_from};
use crate::{Document01, Service, replay_from};

/// The reports and the end of the recovery, and after them a session up to its close; in one of three runs a line SET,
/// which is no step there, comes first. The service takes all this after a crash.
pub fn resumed_run(service: &mut Service, seed: u64, lines: usize) -> Vec<u8> {
    run(service, seed, |service| session_from(service, seed, lines))
}

/// The same with a wide file in which clients restart, in the place of the session.
pub fn restarted_run(service: &mut Service, seed: u64, lines: usize) -> Vec<u8> {
    run(service, seed, |service| restarts_from(service, seed, lines))
}

/// The same with embargoes too.
pub fn embargoed_run(service: &mut Service, seed: u64, lines: usize) -> Vec<u8> {
    run(service, seed, |service| embargoes_from(service, seed, lines))
}

fn run(service: &mut Service, seed: u64, lines_from: impl Fn(Service) -> Vec<u8>) -> Vec<u8> {
    let mut text = if seed.is_multiple_of(3) { "SET 8 32 4\n".to_string() } else { String::new() };
    // In half of the runs the first client under embargo is told of it before it reports.
    if let Some(client) = service.server.embargoed.members().next().filter(|_| seed.is_multiple_of(2)) {
        text.push_str(&format!("LF {client}\n"));
    }
    text.extend((0..service.sizes().clients).map(|client| format!("RP {client}\n")));
    text.push_str("EN\n");
    replay_from::<Document01>(service, &[b"XX\n", text.as_bytes()].concat(), &mut ());
    let lines = lines_from(service.clone());
    replay_from::<Document01>(service, &lines, &mut ());
    [text.into_bytes(), lines, closing_time(service)].concat()
}
