//! Changes of an image that keep its structure: entries that are swapped, doubled, added or have one field changed,
//! each section after its right count; and counts that are wrong.

use super::sections::Sections;
use crate::generate::Rng;
use crate::{ENTRY_BYTES, Sizes};

type Change = fn(&mut Rng, Sizes, &mut Sections);

/// Changes of fields stand twice, so that they are as frequent as those of whole entries.
const CHANGES: [Change; 25] = [
    |rng, _, sections| on_two_entries(rng, sections, |entries, one, other| entries.swap(one, other)),
    |rng, _, sections| on_two_entries(rng, sections, |entries, one, other| entries[one] = entries[other].clone()),
    |rng, _, sections| on_two_entries(rng, sections, |entries, one, other| entries.insert(one, entries[other].clone())),
    |rng, _, sections| on_two_entries(rng, sections, |entries, one, _| entries.insert(one, entries[one].clone())),
    |rng, _, sections| on_two_entries(rng, sections, |entries, one, _| drop(entries.remove(one))),
    |rng, _, sections| on_two_entries(rng, sections, |entries, _, _| entries.reverse()),
    |_, _, sections| sections.entries[1].sort(),
    |rng, _, sections| sections.entries[rng.below(4)].clear(),
    |_, _, sections| sections.entries.swap(0, 1),
    |_, _, sections| sections.entries.swap(1, 2),
    |_, _, sections| sections.entries.swap(2, 3),
    |_, _, sections| sections.entries[3].reverse(),
    |rng, sizes, sections| add_file(rng, sizes, sections),
    |rng, sizes, sections| add_open(rng, sizes, sections),
    |rng, sizes, sections| add_block(rng, sizes, sections),
    |rng, sizes, sections| add_embargo(rng, sizes, sections),
    |rng, sizes, sections| add_embargo(rng, sizes, sections),
    |rng, sizes, sections| change_file(rng, sizes, sections),
    |rng, sizes, sections| change_file(rng, sizes, sections),
    |rng, sizes, sections| change_open(rng, sizes, sections),
    |rng, sizes, sections| change_open(rng, sizes, sections),
    |rng, sizes, sections| change_block(rng, sizes, sections),
    |rng, sizes, sections| change_block(rng, sizes, sections),
    |rng, sizes, sections| change_embargo(rng, sizes, sections),
    |rng, sizes, sections| change_embargo(rng, sizes, sections),
];

/// The bytes with one change, sometimes two.
pub fn changed(rng: &mut Rng, sizes: Sizes, image: &[u8]) -> Vec<u8> {
    let mut sections = Sections::of(image);
    for _ in 0..*rng.pick(&[1, 1, 1, 2]) {
        rng.pick(&CHANGES)(rng, sizes, &mut sections);
    }
    sections.join()
}

/// The bytes with one count wrong: by one, by 256, or with its bytes swapped.
pub fn miscounted(rng: &mut Rng, image: &[u8]) -> Vec<u8> {
    let place = *rng.pick(&Sections::of(image).count_places());
    let mut bytes = image.to_vec();
    match rng.below(5) {
        0 => bytes[place] = bytes[place].wrapping_add(1),
        1 => bytes[place] = bytes[place].wrapping_sub(1),
        2 => bytes[place + 1] = bytes[place + 1].wrapping_add(1),
        3 => bytes[place + 1] = rng.below(256) as u8,
        _ => bytes.swap(place, place + 1),
    }
    bytes
}

/// On two entries of a section that has any; the second is often the next.
fn on_two_entries(rng: &mut Rng, sections: &mut Sections, change: fn(&mut Vec<Vec<u8>>, usize, usize)) {
    let filled: Vec<&mut Vec<Vec<u8>>> = sections.entries.iter_mut().filter(|entries| !entries.is_empty()).collect();
    let count = filled.len();
    if let Some(entries) = filled.into_iter().nth(rng.below(count.max(1))) {
        let (one, any) = (rng.below(entries.len()), rng.below(entries.len()));
        let other = if rng.one_in(2) { (one + 1) % entries.len() } else { any };
        change(entries, one, other);
    }
}

/// Adds an entry, mostly at its place by this order.
fn add<K: Ord>(rng: &mut Rng, entries: &mut Vec<Vec<u8>>, entry: Vec<u8>, key: fn(&[u8]) -> K) {
    let place = entries.partition_point(|before| key(before) < key(&entry));
    let place = if rng.one_in(4) { rng.below(entries.len() + 1) } else { place };
    entries.insert(place, entry);
}

fn add_file(rng: &mut Rng, sizes: Sizes, sections: &mut Sections) {
    let version = version(rng);
    let entry = [&[number(rng, sizes.files)][..], &version.to_le_bytes(), &[last_writer(rng, sizes)]].concat();
    add(rng, &mut sections.entries[0], entry, |entry| entry[0]);
}

fn add_open(rng: &mut Rng, sizes: Sizes, sections: &mut Sections) {
    let (client, file) = (number(rng, sizes.clients), number(rng, sizes.files));
    let entry = vec![client, file, count(rng), count(rng), permission(rng)];
    add(rng, &mut sections.entries[1], entry, |entry| (entry.get(1).copied(), entry[0]));
}

fn add_block(rng: &mut Rng, sizes: Sizes, sections: &mut Sections) {
    let place = [number(rng, sizes.files), number(rng, sizes.blocks)];
    let entry = [&place[..], &value(rng).to_le_bytes()].concat();
    add(rng, &mut sections.entries[2], entry, |entry| (entry[0], entry.get(1).copied()));
}

fn add_embargo(rng: &mut Rng, sizes: Sizes, sections: &mut Sections) {
    let entry = vec![number(rng, sizes.clients)];
    add(rng, &mut sections.entries[3], entry, |entry| entry[0]);
}

fn some_entry<'a>(rng: &mut Rng, sections: &'a mut Sections, section: usize) -> Option<&'a mut Vec<u8>> {
    let entries = &mut sections.entries[section];
    let at = rng.below(entries.len().max(1));
    entries.get_mut(at).filter(|entry| entry.len() == ENTRY_BYTES[section])
}

fn change_file(rng: &mut Rng, sizes: Sizes, sections: &mut Sections) {
    let Some(entry) = some_entry(rng, sections, 0) else { return };
    match rng.below(3) {
        0 => entry[0] = number(rng, sizes.files),
        1 => entry[1..5].copy_from_slice(&version(rng).to_le_bytes()),
        _ => entry[5] = last_writer(rng, sizes),
    }
}

fn change_open(rng: &mut Rng, sizes: Sizes, sections: &mut Sections) {
    let Some(entry) = some_entry(rng, sections, 1) else { return };
    match rng.below(5) {
        0 => entry[0] = number(rng, sizes.clients),
        1 => entry[1] = number(rng, sizes.files),
        2 => entry[2..4].fill(0),
        3 => (entry[2], entry[3]) = (count(rng), count(rng)),
        _ => entry[4] = permission(rng),
    }
}

fn change_block(rng: &mut Rng, sizes: Sizes, sections: &mut Sections) {
    let Some(entry) = some_entry(rng, sections, 2) else { return };
    match rng.below(3) {
        0 => entry[0] = number(rng, sizes.files),
        1 => entry[1] = number(rng, sizes.blocks),
        _ => entry[2..].copy_from_slice(&value(rng).to_le_bytes()),
    }
}

fn change_embargo(rng: &mut Rng, sizes: Sizes, sections: &mut Sections) {
    if let Some(entry) = some_entry(rng, sections, 3) {
        entry[0] = number(rng, sizes.clients);
    }
}

/// A number below the size, mostly; else one at it or above.
fn number(rng: &mut Rng, size: usize) -> u8 {
    let below = rng.below(size);
    *rng.pick(&[below, below, below, size - 1, size, size + 1, 254, 255]) as u8
}

fn version(rng: &mut Rng) -> u32 {
    let any = rng.draw() as u32;
    *rng.pick(&[0, 1, 1, 2, 255, 256, 1 << 24, any, u32::MAX])
}

fn last_writer(rng: &mut Rng, sizes: Sizes) -> u8 {
    if rng.one_in(2) { 255 } else { number(rng, sizes.clients) }
}

fn count(rng: &mut Rng) -> u8 {
    *rng.pick(&[0, 1, 2, 255])
}

fn permission(rng: &mut Rng) -> u8 {
    *rng.pick(&[0, 1, 2, 3, 128, 255])
}

fn value(rng: &mut Rng) -> u64 {
    let any = rng.draw();
    *rng.pick(&[0, 1, 1 << 8, 1 << 32, 1 << 56, any, u64::MAX])
}
