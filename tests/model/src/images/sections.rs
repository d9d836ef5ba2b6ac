//! An image taken apart without judging it, and the judge that follows from that: what is put together again from the
//! service that has these entries must be the same bytes.

use crate::{
    CLIENTS, COUNT_BYTES, ClientField, ENTRY_BYTES, LONGEST_IMAGE, Record, Refusal, SIZES_BYTES, Service, Settings,
    Sizes, VersionField,
};

/// The bytes of each entry, in the four sections.
#[derive(Clone, Default)]
pub struct Sections {
    pub front: Vec<u8>,
    pub entries: [Vec<Vec<u8>>; 4],
    /// What follows the last section.
    pub rest: Vec<u8>,
    /// Whether the bytes end before the counts do.
    pub cut_short: bool,
}

fn low_first(bytes: &[u8]) -> u64 {
    bytes.iter().rev().fold(0, |number, &byte| number << 8 | u64::from(byte))
}

impl Sections {
    pub fn of(bytes: &[u8]) -> Self {
        Sections::counted(bytes, low_first)
    }

    /// The same, with counts that are read in another way.
    pub fn counted(mut bytes: &[u8], count: fn(&[u8]) -> u64) -> Self {
        let mut sections = Sections::default();
        let mut take = |length: usize| {
            let (taken, rest) = bytes.split_at_checked(length)?;
            bytes = rest;
            Some(taken.to_vec())
        };
        sections.cut_short = sections.fill(&mut take, count).is_none();
        sections.rest = bytes.to_vec();
        sections
    }

    fn fill(&mut self, take: &mut impl FnMut(usize) -> Option<Vec<u8>>, count: fn(&[u8]) -> u64) -> Option<()> {
        self.front = take(SIZES_BYTES)?;
        for (entries, length) in self.entries.iter_mut().zip(ENTRY_BYTES) {
            for _ in 0..count(&take(COUNT_BYTES)?) {
                entries.push(take(length)?);
            }
        }
        Some(())
    }

    pub fn join(&self) -> Vec<u8> {
        let mut bytes = self.front.clone();
        for entries in &self.entries {
            bytes.extend((entries.len() as u16).to_le_bytes());
            bytes.extend(entries.concat());
        }
        bytes.extend(&self.rest);
        bytes
    }

    /// Where the counts stand in the bytes that are put together.
    pub fn count_places(&self) -> [usize; 4] {
        let mut at = self.front.len();
        self.entries.each_ref().map(|entries| {
            let place = at;
            at += COUNT_BYTES + entries.concat().len();
            place
        })
    }

    /// File, version and last writer of each entry of the first section.
    pub fn files(&self) -> impl Iterator<Item = (u8, u32, u8)> + Clone {
        self.entries[0].iter().map(|entry| (entry[0], low_first(&entry[1..5]) as u32, entry[5]))
    }

    /// Client, file, readers, writers and permission of each entry of the second.
    pub fn opens(&self) -> impl Iterator<Item = [u8; 5]> + Clone {
        self.entries[1].iter().map(|entry| std::array::from_fn(|at| entry[at]))
    }

    /// File, block and value of each entry of the third.
    pub fn blocks(&self) -> impl Iterator<Item = (u8, u8, u64)> + Clone {
        self.entries[2].iter().map(|entry| (entry[0], entry[1], low_first(&entry[2..])))
    }

    /// The clients of the fourth.
    pub fn embargoes(&self) -> impl Iterator<Item = u8> + Clone {
        self.entries[3].iter().map(|entry| entry[0])
    }

    /// A service of these sizes that has the entries, as far as there is a place for them.
    pub fn service(&self, sizes: Sizes) -> Service {
        let [clients, files, blocks, store] =
            [sizes.clients, sizes.files, sizes.blocks, sizes.store].map(|size| size as u64);
        let mut service = Service::fresh_of(Settings { clients, files, blocks, store });
        let entries = &mut service.server.entries[..sizes.files];
        for (file, version, last_writer) in self.files() {
            if let Some(entry) = entries.get_mut(usize::from(file)) {
                (entry.version, entry.last_writer) = (VersionField(version), ClientField(last_writer));
            }
        }
        for [client, file, readers, writers, permission] in self.opens() {
            let records = entries.get_mut(usize::from(file)).map(|entry| &mut entry.records);
            if let Some(record) = records.and_then(|records| records.get_mut(usize::from(client))) {
                *record = Record { readers, writers, may_cache: permission != 0 };
            }
        }
        for (file, block, value) in self.blocks() {
            let block = usize::from(block);
            if let Some(entry) = entries.get_mut(usize::from(file)).filter(|entry| block < entry.blocks.len()) {
                (entry.blocks[block], entry.used[block]) = (value, true);
            }
        }
        for client in self.embargoes().map(usize::from).filter(|&client| client < CLIENTS) {
            service.server.put_under_embargo(client);
        }
        service
    }
}

/// "Reading accepts exactly the bytes that writing gives for some service": the service is made from the bytes, and
/// written.
pub fn is_written(sizes: Sizes, bytes: &[u8]) -> bool {
    written(&Sections::of(bytes).service(sizes)).is_ok_and(|image| image == bytes)
}

/// The image of a service, or why there is none.
pub fn written(service: &Service) -> Result<Vec<u8>, Refusal> {
    let mut buffer = [0; LONGEST_IMAGE];
    service.write_image(&mut buffer).map(|length| buffer[..length].to_vec())
}
