//! The client's end: its own record of each file, and the copies of blocks that it holds.

use crate::{BLOCKS, FILES, Grant, Kind, Mode, Record, Sizes};

#[derive(Clone, PartialEq, Eq, Debug)]
pub struct Client {
    pub files: [ClientFile; FILES],
}

impl Client {
    pub fn fresh() -> Self {
        Client { files: std::array::from_fn(|_| ClientFile::default()) }
    }
}

#[derive(Clone, PartialEq, Eq, Debug, Default)]
pub struct ClientFile {
    pub record: Record,
    /// Document 01's mark.
    pub last_writer_flag: bool,
    /// Document 01's label: the version of the copy, 0 for no copy.
    pub cached_version: u32,
    pub copies: Copies,
}

/// The copies of one file's blocks. Steps leave a block that is not held clean and zero; a hand-made state need not.
#[derive(Clone, PartialEq, Eq, Debug, Default)]
pub struct Copies {
    pub values: [u64; BLOCKS],
    pub held: [bool; BLOCKS],
    pub dirty: [bool; BLOCKS],
}

impl Copies {
    /// Whether a block in force is dirty.
    pub fn any_dirty(&self, sizes: Sizes) -> bool {
        self.dirty[..sizes.blocks].contains(&true)
    }

    /// How many blocks in force are dirty.
    pub fn count_dirty(&self, sizes: Sizes) -> usize {
        self.dirty[..sizes.blocks].iter().filter(|&&dirty| dirty).count()
    }

    /// "A dropped block is not held, not dirty and zero."
    fn drop_blocks(&mut self, sizes: Sizes) {
        self.values[..sizes.blocks].fill(0);
        self.held[..sizes.blocks].fill(false);
        self.dirty[..sizes.blocks].fill(false);
    }
}

/// "The copy is kept when its label equals the latest version, or for a write open the previous one."
pub fn copy_kept(cached_version: u32, mode: Mode, grant: &Grant) -> bool {
    cached_version == grant.latest || (mode == Mode::Write && cached_version == grant.previous)
}

impl ClientFile {
    #[inline(always)]
    pub fn grant(&mut self, sizes: Sizes, mode: Mode, grant: &Grant) {
        self.record.grant(mode, grant.may_cache);
        if !grant.may_cache {
            self.drop_copy(sizes);
        } else {
            if !copy_kept(self.cached_version, mode, grant) {
                self.drop_copy(sizes);
            }
            self.cached_version = grant.latest;
        }
        if mode == Mode::Write {
            self.last_writer_flag = false;
        }
    }

    /// "A close of the last writer count with permission sets mark .. if a block is dirty, else clears" it (document
    /// 02, Wish 4).
    pub fn close(&mut self, mode: Mode, dirty: bool) {
        if self.record.close(mode) {
            self.last_writer_flag = dirty;
        }
    }

    pub fn read(&mut self, block: usize, server: &[u64; BLOCKS]) -> u64 {
        if !self.record.may_cache {
            return server[block];
        }
        if !self.copies.held[block] {
            self.copies.values[block] = server[block];
            self.copies.held[block] = true;
        }
        self.copies.values[block]
    }

    pub fn write(&mut self, block: usize, value: u64, server: &mut [u64; BLOCKS]) {
        if !self.record.may_cache {
            server[block] = value;
            return;
        }
        self.copies.values[block] = value;
        self.copies.held[block] = true;
        self.copies.dirty[block] = true;
    }

    /// "One dirty block goes to the server and is clean."
    pub fn flush(&mut self, block: usize, server: &mut [u64; BLOCKS]) {
        server[block] = self.copies.values[block];
        self.copies.dirty[block] = false;
    }

    /// "The flush of the last dirty block clears the mark" (document 02, Wish 4); `dirty` tells whether one is left.
    pub fn flushed(&mut self, dirty: bool) {
        self.last_writer_flag &= dirty;
    }

    /// The client's part of a callback reply: kind 3 is 1, then 2.
    #[inline(always)]
    pub fn answer(&mut self, sizes: Sizes, kind: Kind, server: &mut [u64; BLOCKS]) {
        if kind.writes_back() {
            self.write_back(sizes, server);
        }
        if kind.invalidates() {
            self.drop_copy(sizes);
            self.record.may_cache = false;
        }
    }

    #[inline(always)]
    fn write_back(&mut self, sizes: Sizes, server: &mut [u64; BLOCKS]) {
        for block in 0..sizes.blocks {
            if self.copies.dirty[block] {
                self.flush(block, server);
            }
        }
        self.last_writer_flag = false;
    }

    /// The client's part of a restart or of a lift: counts, permission, mark and copy go.
    pub fn restart(&mut self, sizes: Sizes) {
        self.record = Record::default();
        self.last_writer_flag = false;
        self.drop_copy(sizes);
    }

    fn drop_copy(&mut self, sizes: Sizes) {
        self.copies.drop_blocks(sizes);
        self.cached_version = 0;
    }
}
