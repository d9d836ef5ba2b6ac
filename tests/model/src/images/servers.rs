//! Servers made by hand, of any sizes: every field that an image looks at holds anything, what lies past the sizes
//! included. None of them recovers, and no open waits.

use crate::generate::Rng;
use crate::{
    BLOCKS, CLIENTS, Callbacks, ClientField, ClientSet, Entry, FILES, Mode, PLACES, Record, Service, Settings,
    VersionField, WaitField,
};

/// Small ones and large ones, in range.
pub fn any_sizes(rng: &mut Rng) -> Settings {
    let few = rng.one_in(3);
    let mut size = |largest: usize| {
        let any = 1 + rng.below(if few { largest.min(4) } else { largest });
        *rng.pick(&[any, any, any, largest]) as u64
    };
    let (clients, files, blocks) = (size(CLIENTS), size(FILES), size(BLOCKS));
    let settings = Settings { clients, files, blocks, store: any_store(rng, (files * blocks) as usize) };
    if rng.one_in(6) { Settings::NOT_GIVEN } else { settings }
}

/// None, few, about as many as there are blocks, or all places.
fn any_store(rng: &mut Rng, blocks: usize) -> u64 {
    let (few, any, about) = (rng.below(8), rng.below(PLACES + 1), blocks - 1 + rng.below(3));
    *rng.pick(&[0, few, few, any, about.min(PLACES), 255, 256, PLACES, PLACES]) as u64
}

/// Of so many files one is made; the others are fresh.
const SPREADS: [usize; 7] = [1, 2, 8, 16, 16, 32, 64];

pub fn hand_made(rng: &mut Rng, settings: Settings) -> Service {
    let mut service = Service::fresh_of(settings);
    let spread = *rng.pick(&SPREADS);
    for entry in &mut service.server.entries {
        if rng.one_in(spread) {
            make(rng, entry);
        }
    }
    // An image seldom lists nothing of a small server.
    let last = service.sizes().files - 1;
    make(rng, &mut service.server.entries[last]);
    service.server.embargoed = embargoes(rng);
    service.server.free = *rng.pick(&[0, 1, 2, PLACES, usize::MAX]);
    service
}

/// The server of the largest sizes that has all entries an image can list.
pub fn full(rng: &mut Rng) -> Service {
    let [clients, files, blocks] = [CLIENTS, FILES, BLOCKS].map(|size| size as u64);
    let mut service = Service::fresh_of(Settings { clients, files, blocks, store: *rng.pick(&[0, 511, 512]) });
    for entry in &mut service.server.entries {
        make(rng, entry);
        entry.version.0 = entry.version.0.max(2);
        entry.records.iter_mut().for_each(|record| record.readers = record.readers.max(1));
        entry.used = [true; BLOCKS];
    }
    service.server.embargoed = ClientSet::ALL;
    service
}

/// None, one, some or all.
fn embargoes(rng: &mut Rng) -> ClientSet {
    let (one, any) = (rng.below(CLIENTS), rng.draw());
    let some = ClientSet::of(|client| any >> client & 1 != 0);
    *rng.pick(&[ClientSet::NONE, ClientSet::NONE, ClientSet::only(one), some, some, ClientSet::ALL])
}

fn make(rng: &mut Rng, entry: &mut Entry) {
    let any = rng.draw() as u32;
    entry.version = VersionField(*rng.pick(&[0, 1, 1, 2, 3, 255, 256, 1 << 24, any, u32::MAX]));
    let client = (any % CLIENTS as u32) as u8;
    entry.last_writer = ClientField(*rng.pick(&[client, client, 8, 100, 254, 255, 255]));
    // A wait whose client reads as none is no wait.
    let callbacks = Callbacks(any.to_le_bytes().repeat(2).try_into().expect("twice four is eight"));
    entry.waiting = WaitField { opener: ClientField(*rng.pick(&[8, 255])), mode: Mode::Write, callbacks };
    let open = *rng.pick(&[1, 2, 4, 8]);
    entry.records = std::array::from_fn(|_| record(rng, open));
    let written = *rng.pick(&[1, 2, 4, 8]);
    entry.blocks = std::array::from_fn(|_| if rng.one_in(written) { value(rng) } else { 0 });
    // Mostly those that are not zero, and some that are.
    let (zero_used, unused) = (*rng.pick(&[1, 3, 30]), *rng.pick(&[2, 30]));
    entry.used = entry.blocks.map(|value| if value == 0 { rng.one_in(zero_used) } else { !rng.one_in(unused) });
}

/// One in so many is open; a closed one may have permission all the same.
fn record(rng: &mut Rng, open: usize) -> Record {
    let may_cache = rng.one_in(2);
    if !rng.one_in(open) {
        return Record { may_cache, ..Record::default() };
    }
    let mut count = || *rng.pick(&[0, 0, 1, 2, 255]);
    Record { readers: count(), writers: count(), may_cache }
}

fn value(rng: &mut Rng) -> u64 {
    let any = rng.draw();
    *rng.pick(&[0, 1, 255, 256, 1 << 32, 1 << 56, any, u64::MAX])
}
