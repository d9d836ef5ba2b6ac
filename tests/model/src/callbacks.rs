//! The callbacks of one open (document 01: calls): who is called, and for what.

use crate::{CLIENTS, ClientSet, Sizes};

/// Document 01's kinds 1, 2 and 3.
#[derive(Clone, Copy, PartialEq, Eq, Debug)]
#[repr(u8)]
pub enum Kind {
    WriteBack = 1,
    Invalidate = 2,
    Both = 3,
}

impl Kind {
    /// The kind of this number. Document 01 knows three: a hand-made number above them is no callback, like 0.
    pub fn numbered(number: u8) -> Option<Kind> {
        match number {
            1 => Some(Kind::WriteBack),
            2 => Some(Kind::Invalidate),
            3 => Some(Kind::Both),
            _ => None,
        }
    }

    pub fn writes_back(self) -> bool {
        self != Kind::Invalidate
    }

    pub fn invalidates(self) -> bool {
        self != Kind::WriteBack
    }
}

/// For each client the number of its callback's kind, 0 for none.
#[derive(Clone, Copy, PartialEq, Eq, Debug)]
pub struct Callbacks(pub [u8; CLIENTS]);

impl Callbacks {
    pub const NONE: Callbacks = Callbacks([0; CLIENTS]);

    pub fn to(clients: ClientSet, kind: Kind) -> Self {
        Callbacks(std::array::from_fn(|client| if clients.contains(client) { kind as u8 } else { 0 }))
    }

    pub fn kind(self, client: usize) -> Option<Kind> {
        Kind::numbered(self.0[client])
    }

    /// The clients still to reply.
    pub fn clients(self) -> ClientSet {
        ClientSet::of(|client| self.kind(client).is_some())
    }

    pub fn is_empty(self) -> bool {
        (0..CLIENTS).all(|client| self.kind(client).is_none())
    }

    pub fn without(mut self, client: usize) -> Self {
        self.0[client] = 0;
        self
    }

    /// These for the clients in force, and the others' past them.
    pub fn over(self, sizes: Sizes, mut others: Callbacks) -> Self {
        others.0[..sizes.clients].copy_from_slice(&self.0[..sizes.clients]);
        others
    }
}
