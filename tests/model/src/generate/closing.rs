//! The end of a session: every embargo and every recovery is over, every open is granted and closed, and every dirty
//! block is flushed.

use super::text::write_step;
use crate::{Document01, Mode, Service, Step};

/// The steps that bring the service there, as lines; it takes them.
pub fn closing_time(service: &mut Service) -> Vec<u8> {
    let mut lines = Vec::new();
    let mut take = |service: &mut Service, step: Step| {
        service.take::<Document01>(&step);
        write_step(&step, &mut lines);
        lines.push(b'\n');
    };
    let sizes = service.sizes();
    for client in service.server.embargoed.members() {
        take(service, Step::Lift { client: client as u64 });
    }
    if service.server.recovering {
        for client in service.server.reports_missing(sizes).members() {
            take(service, Step::Report { client: client as u64 });
        }
        take(service, Step::End);
    }
    for file in 0..sizes.files {
        if let Some(waiting) = service.server.entries[file].waiting.read(sizes) {
            for client in waiting.callbacks.clients().members() {
                take(service, Step::Reply { client: client as u64, file: file as u64 });
            }
        }
    }
    for (client, file) in (0..sizes.clients).flat_map(|client| (0..sizes.files).map(move |file| (client, file))) {
        let own = service.clients[client].files[file].clone();
        let (client, file) = (client as u64, file as u64);
        for mode in [Mode::Read, Mode::Write] {
            (0..own.record.count(mode)).for_each(|_| take(service, Step::Close { mode, client, file }));
        }
        for block in (0..sizes.blocks).filter(|&block| own.copies.dirty[block]) {
            take(service, Step::Flush { client, file, block: block as u64 });
        }
    }
    lines
}

/// After that: the steps that put a client under embargo, or two of them, as lines; the service takes them. Each has
/// closed and flushed before, while a call on it was out.
pub fn leaving_embargoes(service: &mut Service, seed: u64) -> Vec<u8> {
    let sizes = service.sizes();
    let (clients, file) = (sizes.clients as u64, seed % sizes.files as u64);
    let (opener, first) = (seed % clients, seed + 1);
    let count = if seed.is_multiple_of(2) { 1 } else { 2 };
    let mut lines = Vec::new();
    for client in (first..first + count).map(|client| client % clients).filter(|&client| client != opener) {
        let steps = [
            Step::Open { mode: Mode::Write, client, file },
            Step::Write { client, file, block: 0, value: seed },
            Step::Close { mode: Mode::Write, client, file },
            Step::Open { mode: Mode::Read, client: opener, file },
            Step::Flush { client, file, block: 0 },
            Step::Embargo { client, file },
            Step::Close { mode: Mode::Read, client: opener, file },
        ];
        for step in steps {
            service.take::<Document01>(&step);
            write_step(&step, &mut lines);
            lines.push(b'\n');
        }
    }
    lines
}
