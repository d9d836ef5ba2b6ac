//! Byte strings for a judge, in groups: an image and what is made from it, the same for the same seed.

use super::changes::{changed, miscounted};
use super::judge::{LONGEST_STRING, Request};
use super::sections::{Sections, written};
use super::servers::{any_sizes, full, hand_made};
use crate::check::Witness;
use crate::generate::{FileKind, Rng, step_file};
use crate::{COUNT_BYTES, Document01, Outcome, SIZES_BYTES, Service, Settings, Sizes, Step, replay};

#[derive(Clone, Copy, PartialEq, Eq, Debug)]
pub enum Sort {
    /// The image of a service that steps lead to.
    Session,
    /// The image of a server made by hand.
    HandMade,
    /// One byte changed, removed or added.
    Byte,
    /// Entries swapped, doubled, added, or with a field changed; a count changed.
    Structure,
    /// Cut short or extended.
    Length,
    /// Of other sizes than the service that reads it.
    Sizes,
    /// Any bytes.
    Random,
}

impl Sort {
    pub const ALL: [Sort; 7] =
        [Sort::Session, Sort::HandMade, Sort::Byte, Sort::Structure, Sort::Length, Sort::Sizes, Sort::Random];

    pub fn name(self) -> &'static str {
        match self {
            Sort::Session => "images of sessions",
            Sort::HandMade => "images of hand-made servers",
            Sort::Byte => "one byte changed, removed or added",
            Sort::Structure => "entries or counts changed",
            Sort::Length => "cut short or extended",
            Sort::Sizes => "other sizes",
            Sort::Random => "any bytes",
        }
    }
}

pub struct ByteString {
    pub sort: Sort,
    pub request: Request,
}

/// Places at which one byte is changed, of an image that has more.
const PLACES: usize = 50;
/// Of the images up to this length, one in so many has every byte changed to every other.
const SHORT: usize = 48;
const EVERY_CHANGE: usize = 12;
/// Of the servers made by hand, one in so many has all entries.
const FULL: usize = 25;
const STRUCTURE: usize = 60;
const MISCOUNTED: usize = 8;
const RANDOM: usize = 20;
/// One string in so many repeats the image itself, so that what was read before is read over.
const AGAIN: usize = 16;

/// The group of this seed.
pub fn strings(seed: u64) -> Vec<ByteString> {
    let mut rng = Rng::new(seed ^ 0x01a6_e5f0);
    let (sort, settings, image) = if seed.is_multiple_of(4) { of_session(&mut rng) } else { of_hand_made(&mut rng) };
    let mut group = Group { rng, settings, image: image.clone(), strings: Vec::new() };
    group.add(sort, image);
    group.bytes();
    group.structure();
    group.lengths();
    group.random();
    group.repeat(sort);
    group.sizes();
    group.strings
}

/// The latest image that could be written in a session.
#[derive(Default)]
struct LatestImage(Option<(Settings, Vec<u8>)>);

impl Witness for LatestImage {
    fn after(&mut self, service: &Service, _step: &Step, _outcome: &Outcome) {
        if let Ok(image) = written(service) {
            self.0 = Some((service.settings, image));
        }
    }
}

fn of_session(rng: &mut Rng) -> (Sort, Settings, Vec<u8>) {
    let kinds = [FileKind::Hot, FileKind::Space, FileKind::Wide, FileKind::Session, FileKind::Embargo];
    let kind = *rng.pick(&kinds);
    let lines = *rng.pick(&[10, 30, 100, 400]);
    let mut latest = LatestImage::default();
    replay::<Document01>(&step_file(kind, rng.draw(), lines), &mut latest);
    let (settings, image) = latest.0.unwrap_or_else(|| (Settings::NOT_GIVEN, fresh_image()));
    (Sort::Session, settings, image)
}

fn fresh_image() -> Vec<u8> {
    written(&Service::fresh()).expect("a fresh service is written")
}

fn of_hand_made(rng: &mut Rng) -> (Sort, Settings, Vec<u8>) {
    let settings = any_sizes(rng);
    let service = if rng.one_in(FULL) { full(rng) } else { hand_made(rng, settings) };
    (Sort::HandMade, service.settings, written(&service).expect("it neither recovers nor has a wait"))
}

/// As an image has them.
fn sizes_of(settings: Settings) -> [u8; SIZES_BYTES] {
    let Sizes { clients, files, blocks, store } = settings.read();
    let [low, high] = (store as u16).to_le_bytes();
    [clients as u8, files as u8, blocks as u8, low, high]
}

struct Group {
    rng: Rng,
    settings: Settings,
    image: Vec<u8>,
    strings: Vec<ByteString>,
}

impl Group {
    fn add(&mut self, sort: Sort, bytes: Vec<u8>) {
        self.add_for(sort, self.settings, bytes);
    }

    fn add_for(&mut self, sort: Sort, settings: Settings, mut bytes: Vec<u8>) {
        bytes.truncate(LONGEST_STRING);
        let before = *self.rng.pick(&[0, 0, 0, 0, 0, 0, 0, 0, 0, 0, 0, 1, 1, 2]);
        self.strings.push(ByteString { sort, request: Request { sizes: sizes_of(settings), before, bytes } });
    }

    /// Some places, or all if there are few.
    fn places(&mut self, limit: usize) -> Vec<usize> {
        if limit <= PLACES {
            return (0..limit).collect();
        }
        // A long image has few strings made from it.
        let count = (PLACES * 400 / limit).clamp(4, PLACES);
        (0..count).map(|_| self.rng.below(limit)).collect()
    }

    fn bytes(&mut self) {
        let length = self.image.len();
        if length <= SHORT && self.rng.one_in(EVERY_CHANGE) {
            for place in 0..length {
                (0..=255).for_each(|byte| self.with_byte(place, byte));
            }
        }
        for place in self.places(length) {
            let byte = self.image[place];
            let any = self.rng.below(256) as u8;
            for byte in [byte.wrapping_add(1), byte.wrapping_sub(1), byte ^ 128, 0, 255, any] {
                self.with_byte(place, byte);
            }
            let mut removed = self.image.clone();
            removed.remove(place);
            self.add(Sort::Byte, removed);
        }
        for place in self.places(length + 1) {
            let neighbour = self.image[place.min(length - 1)];
            for byte in [0, 1, 255, neighbour] {
                let mut longer = self.image.clone();
                longer.insert(place, byte);
                self.add(Sort::Byte, longer);
            }
        }
    }

    fn with_byte(&mut self, place: usize, byte: u8) {
        if self.image[place] != byte {
            let mut bytes = self.image.clone();
            bytes[place] = byte;
            self.add(Sort::Byte, bytes);
        }
    }

    fn structure(&mut self) {
        let sizes = self.settings.read();
        let count = (STRUCTURE * 2_000 / self.image.len()).clamp(10, STRUCTURE);
        for _ in 0..count {
            let bytes = changed(&mut self.rng, sizes, &self.image);
            self.add(Sort::Structure, bytes);
        }
        for _ in 0..MISCOUNTED {
            let bytes = miscounted(&mut self.rng, &self.image);
            self.add(Sort::Structure, bytes);
        }
    }

    fn lengths(&mut self) {
        for length in self.places(self.image.len()) {
            self.add(Sort::Length, self.image[..length].to_vec());
        }
        // Without the last section, and with its count alone.
        let [.., last] = Sections::of(&self.image).count_places();
        for length in [last, last + COUNT_BYTES] {
            self.add(Sort::Length, self.image[..length].to_vec());
        }
        let more = self.rng.draw().to_le_bytes();
        let end = self.image[self.image.len().saturating_sub(12)..].to_vec();
        for tail in [&[0][..], &[0, 0], &[255], &more, &end, &self.image.clone()] {
            let mut bytes = self.image.clone();
            bytes.extend(tail);
            self.add(Sort::Length, bytes);
        }
    }

    /// Half of them begin as an image of these sizes does, and most have few different bytes.
    fn random(&mut self) {
        for _ in 0..RANDOM {
            let mut bytes = if self.rng.one_in(2) { sizes_of(self.settings).to_vec() } else { Vec::new() };
            for _ in 0..self.rng.below(24) {
                let any = self.rng.below(256) as u8;
                bytes.push(*self.rng.pick(&[0, 0, 0, 0, 1, 1, 2, 255, any]));
            }
            self.add(Sort::Random, bytes);
        }
    }

    /// The image itself between the other strings.
    fn repeat(&mut self, sort: Sort) {
        let others = std::mem::take(&mut self.strings);
        for string in others {
            self.strings.push(string);
            if self.rng.one_in(AGAIN) {
                self.add(sort, self.image.clone());
            }
        }
    }

    /// Read by services of other sizes, as it is and with these sizes in front; and other sizes in front of it.
    fn sizes(&mut self) {
        let Settings { clients, files, blocks, store } = self.settings;
        let any = any_sizes(&mut self.rng);
        let as_is = self.settings;
        let others = [
            any,
            Settings { clients: clients + 1, ..as_is },
            Settings { clients: clients - 1, ..as_is },
            Settings { files: files + 1, ..as_is },
            Settings { files: files - 1, ..as_is },
            Settings { blocks: blocks + 1, ..as_is },
            Settings { blocks: blocks - 1, ..as_is },
            Settings { store: store + 1, ..as_is },
            Settings { store: store.saturating_sub(1), ..as_is },
            Settings { store: store ^ 256, ..as_is },
            Settings { store: store.swap_bytes() >> 48, ..as_is },
        ];
        // Sizes that no service has.
        for store in [513u16, 768, u16::MAX] {
            let mut other = self.image.clone();
            other[3..SIZES_BYTES].copy_from_slice(&store.to_le_bytes());
            self.add(Sort::Sizes, other);
        }
        for settings in others.into_iter().filter(|settings| settings.are_in_range()) {
            let mut other = self.image.clone();
            other[..SIZES_BYTES].copy_from_slice(&sizes_of(settings));
            self.add(Sort::Sizes, other.clone());
            self.add_for(Sort::Sizes, settings, self.image.clone());
            self.add_for(Sort::Sizes, settings, other.clone());
        }
    }
}
