//! One client's opens of one file: the record that the server and the client each hold.

use crate::Mode;

#[derive(Clone, Copy, PartialEq, Eq, Debug, Default)]
pub struct Record {
    pub readers: u8,
    pub writers: u8,
    /// The cache permission.
    pub may_cache: bool,
}

impl Record {
    pub fn is_open(&self) -> bool {
        self.readers > 0 || self.writers > 0
    }

    pub fn count(&self, mode: Mode) -> u8 {
        match mode {
            Mode::Read => self.readers,
            Mode::Write => self.writers,
        }
    }

    fn count_mut(&mut self, mode: Mode) -> &mut u8 {
        match mode {
            Mode::Read => &mut self.readers,
            Mode::Write => &mut self.writers,
        }
    }

    /// "A station already open that opens for read, or that has writers and opens for either, causes no call and keeps
    /// its permission."
    pub fn keeps_permission(&self, mode: Mode) -> bool {
        self.writers > 0 || (self.is_open() && mode == Mode::Read)
    }

    /// "A grant that would pass the limit of 12 .. leaves that number."
    pub fn grant(&mut self, mode: Mode, may_cache: bool) {
        let count = self.count_mut(mode);
        *count = count.saturating_add(1);
        self.may_cache = may_cache;
    }

    /// Lowers the count of that mode; "a count of 0 stays 0". Tells whether this was "a close of the last writer count
    /// with permission".
    pub fn close(&mut self, mode: Mode) -> bool {
        let last_writer_count = mode == Mode::Write && self.writers == 1 && self.may_cache;
        let count = self.count_mut(mode);
        *count = count.saturating_sub(1);
        self.may_cache &= self.is_open();
        last_writer_count
    }
}
