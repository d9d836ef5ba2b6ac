//! The settings of a service (document 02, Wishes 7 and 13): how many clients, files, blocks and places it has. "What lies past them
//! isn't there": it is neither looked at nor changed.

use crate::{BLOCKS, CLIENTS, ClientSet, FILES, PLACES};

/// The settings as they are stored. A line SET stores numbers in range; a hand-made service may hold any.
#[derive(Clone, Copy, PartialEq, Eq, Debug)]
pub struct Settings {
    pub clients: u64,
    pub files: u64,
    /// Blocks in each file.
    pub blocks: u64,
    /// The size of the store: how many blocks have a place in it.
    pub store: u64,
}

/// The sizes in force.
#[derive(Clone, Copy, PartialEq, Eq, Debug)]
pub struct Sizes {
    pub clients: usize,
    pub files: usize,
    pub blocks: usize,
    pub store: usize,
}

fn in_range(setting: u64, largest: usize) -> bool {
    (1..=largest as u64).contains(&setting)
}

impl Settings {
    /// Stored where no line SET has given others.
    pub const NOT_GIVEN: Settings = Settings { clients: 8, files: 32, blocks: 4, store: 512 };

    /// "Stations 1 to 8, files 1 to 64 and blocks 1 to 8", and a store "of 0 to 512 blocks".
    pub fn are_in_range(self) -> bool {
        in_range(self.clients, CLIENTS)
            && in_range(self.files, FILES)
            && in_range(self.blocks, BLOCKS)
            && self.store <= PLACES as u64
    }

    /// "Hand-made ones out of range: each as not given."
    #[inline(always)]
    pub fn read(self) -> Sizes {
        let size = |setting, largest, not_given| if in_range(setting, largest) { setting } else { not_given } as usize;
        Sizes {
            clients: size(self.clients, CLIENTS, Settings::NOT_GIVEN.clients),
            files: size(self.files, FILES, Settings::NOT_GIVEN.files),
            blocks: size(self.blocks, BLOCKS, Settings::NOT_GIVEN.blocks),
            store: if self.store <= PLACES as u64 { self.store } else { Settings::NOT_GIVEN.store } as usize,
        }
    }
}

impl Sizes {
    pub const LARGEST: Sizes = Sizes { clients: CLIENTS, files: FILES, blocks: BLOCKS, store: PLACES };

    /// The clients in force.
    pub fn client_set(self) -> ClientSet {
        ClientSet::first(self.clients)
    }
}
