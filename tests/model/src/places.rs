//! The places of the store (document 02, Wish 13): used, reserved and free.

use crate::{Server, Service, Sizes};

impl Server {
    /// "Free places, kept within 0 and the size."
    pub fn free_places(&self, sizes: Sizes) -> usize {
        self.free.min(sizes.store)
    }

    /// How many blocks in force are used.
    pub fn used_places(&self, sizes: Sizes) -> usize {
        let used = self.entries[..sizes.files].iter().flat_map(|entry| &entry.used[..sizes.blocks]);
        used.filter(|&&used| used).count()
    }

    /// "A crash .. makes free the size less" the used blocks.
    pub fn free_but_used(&mut self, sizes: Sizes) {
        self.free = sizes.store.saturating_sub(self.used_places(sizes));
    }

    pub fn take_place(&mut self, sizes: Sizes) {
        self.settle(sizes, 0, 1);
    }

    /// After a step before which so many places were held, and so many after it.
    pub fn settle(&mut self, sizes: Sizes, before: usize, after: usize) {
        if before != after {
            self.free = (self.free_places(sizes) + before).saturating_sub(after).min(sizes.store);
        }
    }

    /// Whether the server knows what this client has reserved: "reports take their reservations again".
    fn hears(&self, client: usize) -> bool {
        !self.embargoed.contains(client) && (!self.recovering || self.reported.contains(client))
    }
}

impl Service {
    pub fn is_dirty(&self, client: usize, file: usize, block: usize) -> bool {
        self.clients[client].files[file].copies.dirty[block]
    }

    /// "Reserved: dirty blocks not used, at stations without embargo."
    pub fn is_reserved(&self, file: usize, block: usize) -> bool {
        let reserves = |client| !self.server.embargoed.contains(client) && self.is_dirty(client, file, block);
        !self.server.entries[file].used[block] && (0..self.sizes().clients).any(reserves)
    }

    /// "A write to a block neither used, reserved nor dirty there takes one free place."
    #[inline(always)]
    pub fn takes_place(&self, client: usize, file: usize, block: usize) -> bool {
        let known = self.server.entries[file].used[block] || self.is_dirty(client, file, block);
        !known && !self.is_reserved(file, block)
    }

    /// How many blocks of the file have a place: those used, and those that a client has reserved of which the server
    /// knows it.
    pub fn places_held_in(&self, file: usize) -> usize {
        let sizes = self.sizes();
        let heard: Vec<usize> = (0..sizes.clients).filter(|&client| self.server.hears(client)).collect();
        let used = &self.server.entries[file].used;
        let held = |&block: &usize| used[block] || heard.iter().any(|&client| self.is_dirty(client, file, block));
        (0..sizes.blocks).filter(held).count()
    }

    /// The same in all files.
    pub fn places_held(&self) -> usize {
        (0..self.sizes().files).map(|file| self.places_held_in(file)).sum()
    }
}
