//! The state table as Demand 3 means it: records, version and last writer of each file, without waiting opens.

use crate::{Entry, Record, Service, Sizes};

#[derive(Clone, PartialEq, Eq, Debug)]
pub struct TableEntry {
    /// Of each client.
    pub records: Vec<Record>,
    pub version: u32,
    pub last_writer: Option<usize>,
}

#[derive(Clone, PartialEq, Eq, Debug)]
pub struct StateTable {
    /// Of each file.
    pub entries: Vec<TableEntry>,
}

impl TableEntry {
    fn of(sizes: Sizes, entry: &Entry) -> Self {
        TableEntry {
            records: entry.records[..sizes.clients].to_vec(),
            version: entry.version.read(),
            last_writer: entry.last_writer.read(sizes),
        }
    }
}

impl StateTable {
    pub fn of(service: &Service) -> Self {
        let sizes = service.sizes();
        let entries = &service.server.entries[..sizes.files];
        StateTable { entries: entries.iter().map(|entry| TableEntry::of(sizes, entry)).collect() }
    }

    /// "The recovered table is the one at the crash without that station" (document 02, Wish 8).
    pub fn forget(&mut self, client: usize) {
        for entry in &mut self.entries {
            if let Some(record) = entry.records.get_mut(client) {
                *record = Record::default();
            }
            entry.last_writer = entry.last_writer.filter(|&last_writer| last_writer != client);
        }
    }
}
