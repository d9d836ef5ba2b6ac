//! The places of the store, as refusal 23 and the picture tell them.

use crate::text::Text;
use crate::{ClientSet, Service};

#[derive(Clone, Copy, PartialEq, Eq, Debug)]
pub struct Places {
    /// The size of the store.
    pub store: usize,
    pub used: usize,
    pub reserved: usize,
    /// The clients without embargo that have a reserved block dirty.
    pub by: ClientSet,
}

impl Places {
    pub fn of(service: &Service) -> Self {
        let sizes = service.sizes();
        let blocks = (0..sizes.files).flat_map(|file| (0..sizes.blocks).map(move |block| (file, block)));
        let reserved: Vec<(usize, usize)> = blocks.filter(|&(file, block)| service.is_reserved(file, block)).collect();
        let reserves = |client| reserved.iter().any(|&(file, block)| service.is_dirty(client, file, block));
        let without_embargo = sizes.client_set().minus(service.server.embargoed);
        Places {
            store: sizes.store,
            used: service.server.used_places(sizes),
            reserved: reserved.len(),
            by: ClientSet::of(reserves).and(without_embargo),
        }
    }
}

impl Text<'_> {
    pub fn places(&mut self, places: &Places) {
        self.words("places: ");
        self.count(places.store);
        self.words("; used: ");
        self.count(places.used);
        self.words("; reserved: ");
        self.count(places.reserved);
        self.words("; reserved by stations:");
        self.list(places.by.members());
    }
}
