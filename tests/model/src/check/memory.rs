//! The reference memory (document 01: the plain book): for each file and block the accepted writes, newest first, each
//! safe or at risk. A restart takes the writes at risk of its client away, and a read must give "the latest write not
//! lost" (document 02, Wish 8). An embargo takes them away too, and the writes that its client makes until it is lifted
//! or restarts are never listed; of its reads nothing is promised (Wish 9).

use crate::{BLOCKS, ClientSet, FILES, Step};

/// An accepted write that is not lost.
#[derive(Clone, Copy, PartialEq, Eq, Debug)]
pub struct KeptWrite {
    pub client: usize,
    pub value: u64,
    /// It has reached the server. Otherwise it is at risk: a restart or an embargo of its client loses it.
    pub safe: bool,
}

/// The writes to one block, the latest last. What is older than a safe write is not kept: no read comes back to it.
#[derive(Clone, Default)]
pub struct BlockWrites(Vec<KeptWrite>);

pub struct ReferenceMemory {
    blocks: Vec<[BlockWrites; BLOCKS]>,
    /// The clients under embargo, by the steps alone.
    embargoed: ClientSet,
}

impl Default for ReferenceMemory {
    fn default() -> Self {
        ReferenceMemory { blocks: vec![Default::default(); FILES], embargoed: ClientSet::NONE }
    }
}

impl BlockWrites {
    /// The number of the latest write, or 0.
    pub fn latest(&self) -> u64 {
        self.0.last().map_or(0, |write| write.value)
    }

    /// The number of the latest safe write, or 0.
    pub fn latest_safe(&self) -> u64 {
        self.0.iter().rfind(|write| write.safe).map_or(0, |write| write.value)
    }

    /// Whose latest write is at risk, if it is.
    pub fn at_risk(&self) -> Option<usize> {
        self.0.last().filter(|write| !write.safe).map(|write| write.client)
    }

    /// Some writes at risk, all of one client, and then safe ones alone.
    pub fn has_one_at_risk(&self) -> bool {
        let risked = self.0.iter().filter(|write| !write.safe);
        risked.clone().all(|write| self.at_risk() == Some(write.client))
    }

    fn wrote(&mut self, write: KeptWrite) {
        self.0.push(write);
        self.forget_older();
    }

    /// The writes at risk of this client have reached the server.
    fn came(&mut self, client: usize) {
        self.0.iter_mut().filter(|write| write.client == client).for_each(|write| write.safe = true);
        self.forget_older();
    }

    /// The writes at risk of this client are lost.
    fn lost(&mut self, client: usize) {
        self.0.retain(|write| write.safe || write.client != client);
    }

    fn forget_older(&mut self) {
        if let Some(safe) = self.0.iter().rposition(|write| write.safe) {
            self.0.drain(..safe);
        }
    }
}

impl ReferenceMemory {
    pub fn file(&self, file: usize) -> &[BlockWrites; BLOCKS] {
        &self.blocks[file]
    }

    pub fn embargoed(&self) -> ClientSet {
        self.embargoed
    }

    /// The value that an accepted read must give; none for one under embargo, and for any other step.
    pub fn expected(&self, step: &Step) -> Option<u64> {
        match *step {
            Step::Read { client, file, block } if !self.embargoed.contains(client as usize) => {
                Some(self.blocks[file as usize][block as usize].latest())
            }
            _ => None,
        }
    }

    /// It is fed the steps, whether each was refused, and of an accepted write whether it is delayed: the client may
    /// cache, so that the write stays in its copy.
    pub fn feed(&mut self, step: &Step, refused: bool, delayed: bool) {
        if refused {
            return;
        }
        match *step {
            Step::Write { client, .. } if self.embargoed.contains(client as usize) => {}
            Step::Write { client, file, block, value } => {
                let write = KeptWrite { client: client as usize, value, safe: !delayed };
                self.blocks[file as usize][block as usize].wrote(write);
            }
            Step::Flush { client, file, block } => self.blocks[file as usize][block as usize].came(client as usize),
            Step::Reply { client, file } => {
                self.blocks[file as usize].iter_mut().for_each(|writes| writes.came(client as usize));
            }
            Step::Restart { client } => {
                self.lost(client as usize);
                self.embargoed = self.embargoed.without(client as usize);
            }
            Step::Embargo { client, .. } => {
                self.lost(client as usize);
                self.embargoed = self.embargoed.with(client as usize);
            }
            Step::Lift { client } => self.embargoed = self.embargoed.without(client as usize),
            _ => {}
        }
    }

    fn lost(&mut self, client: usize) {
        self.blocks.iter_mut().flatten().for_each(|writes| writes.lost(client));
    }
}
