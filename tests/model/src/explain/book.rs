//! The book of lines: what an explainer keeps of the lines before. Lines have numbers from 1.

use super::{Place, Reading, Source, Told};
use crate::{BLOCKS, CLIENTS, FILES, Sizes};

/// An accepted write.
#[derive(Clone, Copy, PartialEq, Eq, Debug)]
pub struct WrittenAt {
    pub line: u64,
    pub client: usize,
    pub value: u64,
}

/// Where the number that a block has comes from.
#[derive(Clone, Copy, PartialEq, Eq, Debug)]
pub enum Origin {
    /// From the latest accepted write to it that is not lost.
    Written(WrittenAt),
    NeverWritten,
    /// Every write to it is lost.
    Start,
    /// No write that is not lost, and the run began with an image.
    Image,
}

/// A write that is lost, or that a restart or an embargo loses.
#[derive(Clone, Copy, PartialEq, Eq, Debug)]
pub struct LostAt {
    pub file: usize,
    pub block: usize,
    pub line: u64,
}

/// The writes of a block.
#[derive(Clone, Copy, Default)]
struct BlockLines {
    /// The latest that has reached the server.
    safe: Option<WrittenAt>,
    /// The latest that is not lost, if it has not.
    at_risk: Option<WrittenAt>,
    /// The latest of all, if it is lost.
    lost: Option<WrittenAt>,
}

impl BlockLines {
    fn wrote(&mut self, write: WrittenAt, in_copy: bool) {
        self.lost = None;
        if in_copy {
            self.at_risk = Some(write);
        } else {
            (self.safe, self.at_risk) = (Some(write), None);
        }
    }

    /// A write under embargo is lost at once.
    fn wrote_in_vain(&mut self, write: WrittenAt) {
        self.lost = Some(write);
    }

    /// This client's write, if it is at risk.
    fn at_risk(&self, client: usize) -> Option<WrittenAt> {
        self.at_risk.filter(|write| write.client == client)
    }

    /// This client's write at risk has reached the server.
    fn came(&mut self, client: usize) {
        if let Some(write) = self.at_risk(client) {
            (self.safe, self.at_risk) = (Some(write), None);
        }
    }

    /// This client's write at risk is lost. One that is lost already came after it, under embargo.
    fn lose(&mut self, client: usize) {
        if let Some(write) = self.at_risk(client) {
            (self.at_risk, self.lost) = (None, self.lost.or(Some(write)));
        }
    }

    fn latest_not_lost(&self) -> Option<WrittenAt> {
        self.at_risk.or(self.safe)
    }
}

pub struct Book {
    /// Whether the run began with an image.
    resumed: bool,
    /// Of each block of each file.
    writes: [[BlockLines; BLOCKS]; FILES],
    /// Of each client's copy of each block: the line at which it was fetched, or written there. 0 for none.
    copies: [[[u64; BLOCKS]; FILES]; CLIENTS],
    /// Of each file: the line of the latest open that had to wait. 0 for none.
    waits: [u64; FILES],
    /// Of each client: the line that put it under embargo. 0 if no line of this run did.
    embargoes: [u64; CLIENTS],
}

impl Book {
    /// The book before the first line of a run that begins with an image or not.
    pub fn new(resumed: bool) -> Self {
        let writes = [[BlockLines::default(); BLOCKS]; FILES];
        let copies = [[[0; BLOCKS]; FILES]; CLIENTS];
        Book { resumed, writes, copies, waits: [0; FILES], embargoes: [0; CLIENTS] }
    }

    pub fn origin(&self, Place { file, block, .. }: Place) -> Origin {
        let lines = &self.writes[file][block];
        match lines.latest_not_lost() {
            Some(write) => Origin::Written(write),
            None if self.resumed => Origin::Image,
            None if lines.lost.is_some() => Origin::Start,
            None => Origin::NeverWritten,
        }
    }

    /// The latest accepted write to the block, if it is lost.
    pub fn lost(&self, Place { file, block, .. }: Place) -> Option<WrittenAt> {
        self.writes[file][block].lost
    }

    /// The writes that a restart or an embargo of this client loses, by file and block.
    pub fn at_risk(&self, sizes: Sizes, client: usize) -> Vec<LostAt> {
        let places = (0..sizes.files).flat_map(|file| (0..sizes.blocks).map(move |block| (file, block)));
        let at_risk = |(file, block): (usize, usize)| {
            self.writes[file][block].at_risk(client).map(|write| LostAt { file, block, line: write.line })
        };
        places.filter_map(at_risk).collect()
    }

    pub fn copied(&self, Place { client, file, block }: Place) -> u64 {
        self.copies[client][file][block]
    }

    pub fn waits_since(&self, file: usize) -> u64 {
        self.waits[file]
    }

    /// Of a client under embargo: the line that put it there, 0 if an image did.
    pub fn embargoed_since(&self, client: usize) -> u64 {
        self.embargoes[client]
    }

    /// What is kept of a line is part of what is told of it.
    pub fn note(&mut self, line: u64, told: &Told) {
        match *told {
            Told::Read(Reading { place, source: Source::Fetched, .. }) => self.note_copy(line, place),
            Told::Written { place, value, in_copy, embargo } => {
                let write = WrittenAt { line, client: place.client, value };
                let lines = &mut self.writes[place.file][place.block];
                match embargo {
                    None => lines.wrote(write, in_copy),
                    Some(_) => lines.wrote_in_vain(write),
                }
                if in_copy {
                    self.note_copy(line, place);
                }
            }
            Told::Flushed(place) => self.writes[place.file][place.block].came(place.client),
            Told::Answered { client, file, .. } => self.note_answer(client, file),
            Told::AnsweredLast { client, granted, .. } => self.note_answer(client, granted.opening.file),
            Told::Restarted { client, ref lost, .. } => {
                self.note_lost(client, lost);
                self.embargoes[client] = 0;
            }
            Told::Embargoed { client, ref lost, .. } => {
                self.note_lost(client, lost);
                self.embargoes[client] = line;
            }
            Told::Lifted { client, .. } => self.embargoes[client] = 0,
            Told::Waits { opening, .. } => self.waits[opening.file] = line,
            _ => {}
        }
    }

    fn note_answer(&mut self, client: usize, file: usize) {
        self.writes[file].iter_mut().for_each(|lines| lines.came(client));
    }

    fn note_lost(&mut self, client: usize, lost: &[LostAt]) {
        lost.iter().for_each(|&LostAt { file, block, .. }| self.writes[file][block].lose(client));
    }

    fn note_copy(&mut self, line: u64, Place { client, file, block }: Place) {
        self.copies[client][file][block] = line;
    }
}
