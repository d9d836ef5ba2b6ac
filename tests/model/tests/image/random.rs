//! Random servers made by hand and strings made from their images: reading accepts exactly what writing gives, by two
//! judges that have nothing in common.

use model::generate::Rng;
use model::images::{Sections, Sort, any_sizes, full, hand_made, is_written, strings, written};
use model::{ClientSet, Document01, Entry, Service, Step};

/// A service of the same sizes that has nothing of the other but its clients.
fn fresh_as(service: &Service) -> Service {
    Service::fresh_of(service.settings)
}

/// Versions as they read, the used blocks and embargoes, of what is in force.
fn lasting(service: &Service) -> (Vec<(u32, Vec<Option<u64>>)>, ClientSet) {
    let sizes = service.sizes();
    let entries = service.server.entries[..sizes.files].iter();
    let used = |entry: &Entry| (0..sizes.blocks).map(|b| entry.used[b].then_some(entry.blocks[b])).collect();
    let entries = entries.map(|entry| (entry.version.read(), used(entry))).collect();
    (entries, service.server.embargoed.and(sizes.client_set()))
}

/// Writes, reads and writes again from a service that has these entries.
fn round_trip(service: &Service) {
    let image = written(service).expect("it neither recovers nor has a wait");
    let mut read = fresh_as(service);
    assert_eq!(read.read_image(&image), Ok(()));
    assert_eq!(lasting(&read), lasting(service));
    let again = Sections::of(&image).service(service.sizes());
    assert_eq!(written(&again).as_ref(), Ok(&image));
    assert_eq!(lasting(&again), lasting(service));
    let mut crashed = again.clone();
    crashed.take::<Document01>(&Step::Crash);
    assert_eq!(read, crashed, "the reading of a fresh service is the crash of the one that was written");
}

#[test]
fn hand_made_servers_go_through_an_image() {
    for seed in 0..3000 {
        let mut rng = Rng::new(seed);
        let settings = any_sizes(&mut rng);
        round_trip(&hand_made(&mut rng, settings));
    }
    round_trip(&full(&mut Rng::new(1)));
}

/// Of a string: both judges say the same, and what is accepted gives the same bytes again.
fn judged(service: &Service, bytes: &[u8]) -> bool {
    let accepted = fresh_as(service).read_image(bytes).is_ok();
    assert_eq!(accepted, is_written(service.sizes(), bytes), "{:?} {bytes:?}", service.settings);
    accepted
}

/// Every change of one byte to every other, every removal and every insertion.
#[test]
fn every_change_of_one_byte_is_judged_alike() {
    let (mut images, mut accepted, mut refused) = (0, 0, 0);
    for seed in 0..120 {
        let mut rng = Rng::new(seed);
        let settings = any_sizes(&mut rng);
        let service = hand_made(&mut rng, settings);
        let image = written(&service).expect("it neither recovers nor has a wait");
        if image.len() > 48 {
            continue;
        }
        let mut judge = |bytes: &[u8]| match judged(&service, bytes) {
            true => accepted += 1,
            false => refused += 1,
        };
        for place in 0..image.len() {
            let mut bytes = image.clone();
            bytes.remove(place);
            judge(&bytes);
            for byte in 0..=255 {
                let mut bytes = image.clone();
                bytes[place] = byte;
                judge(&bytes);
                bytes.insert(place, byte);
                judge(&bytes);
            }
        }
        images += 1;
    }
    assert!(images > 10 && accepted > 10_000 && refused > 50_000, "{images} {accepted} {refused}");
}

/// The strings that a judge under test is asked about.
#[test]
fn the_strings_of_every_sort_are_judged_alike() {
    let mut counts = [[0; 2]; Sort::ALL.len()];
    for string in (0..60).flat_map(strings) {
        let service = Service::fresh_of(string.request.settings());
        let sort = Sort::ALL.iter().position(|&sort| sort == string.sort).expect("every sort is listed");
        counts[sort][usize::from(judged(&service, &string.request.bytes))] += 1;
    }
    for (sort, [refused, accepted]) in Sort::ALL.iter().zip(counts) {
        match sort {
            Sort::Session | Sort::HandMade => assert!(refused == 0 && accepted > 500, "{sort:?} {refused} {accepted}"),
            Sort::Byte | Sort::Structure => assert!(refused > 1000 && accepted > 1000, "{sort:?} {refused} {accepted}"),
            Sort::Length | Sort::Random => assert!(refused > 1000, "{sort:?} {refused} {accepted}"),
            Sort::Sizes => assert!(refused > 500 && accepted > 100, "{sort:?} {refused} {accepted}"),
        }
    }
}
