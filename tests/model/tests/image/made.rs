//! Images put together from their entries, and services to write.

use model::{Document01, Service, replay_from};

/// An image by its entries; each section gets the count of those that it has.
#[derive(Clone)]
pub struct Entries<'a> {
    pub sizes: [u8; 3],
    pub store: u16,
    pub files: Vec<(u8, u32, u8)>,
    pub opens: Vec<[u8; 5]>,
    pub blocks: Vec<(u8, u8, u64)>,
    pub embargoed: Vec<u8>,
    pub more: &'a [u8],
}

/// Three clients, four files, two blocks, and a store of five places.
pub const SMALL: [u8; 3] = [3, 4, 2];
pub const SMALL_STORE: u16 = 5;

impl Entries<'_> {
    /// Accepted by a service of these sizes; no rule of document 01 leads to it.
    pub fn small() -> Self {
        Entries {
            sizes: SMALL,
            store: SMALL_STORE,
            files: vec![(1, 2, 2), (3, 1, 0)],
            opens: vec![[0, 1, 1, 0, 1], [2, 1, 0, 1, 0], [1, 3, 255, 255, 1]],
            blocks: vec![(0, 1, 5), (1, 0, 1 << 63), (3, 1, u64::MAX)],
            embargoed: vec![0, 2],
            more: &[],
        }
    }

    pub fn bytes(&self) -> Vec<u8> {
        let mut bytes = self.sizes.to_vec();
        bytes.extend(self.store.to_le_bytes());
        bytes.extend((self.files.len() as u16).to_le_bytes());
        for (file, version, last_writer) in &self.files {
            bytes.push(*file);
            bytes.extend(version.to_le_bytes());
            bytes.push(*last_writer);
        }
        bytes.extend((self.opens.len() as u16).to_le_bytes());
        bytes.extend(self.opens.concat());
        bytes.extend((self.blocks.len() as u16).to_le_bytes());
        for (file, block, value) in &self.blocks {
            bytes.extend([*file, *block]);
            bytes.extend(value.to_le_bytes());
        }
        bytes.extend((self.embargoed.len() as u16).to_le_bytes());
        bytes.extend(&self.embargoed);
        bytes.extend(self.more);
        bytes
    }
}

/// The service that these lines lead to.
pub fn after(lines: &[&str]) -> Service {
    let mut service = Service::fresh();
    replay_from::<Document01>(&mut service, lines.join("\n").as_bytes(), &mut ());
    service
}

/// "After document 01's whole case up to its line 6."
pub fn whole_case() -> Service {
    after(&["OW 0 3", "WR 0 3 0 77", "CW 0 3", "OR 1 3", "RD 1 3 0", "AN 0 3"])
}
