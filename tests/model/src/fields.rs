//! Fields of the state table as they are stored. A step stores values that stand for themselves; a hand-made state may
//! hold any, and `read` gives what document 01 takes it for. A field stays as it is until a step sets it.

use crate::{Callbacks, Mode, Sizes, WaitingOpen};

/// A client or none.
#[derive(Clone, Copy, PartialEq, Eq, Debug)]
pub struct ClientField(pub u8);

impl ClientField {
    pub const NONE: ClientField = ClientField(u8::MAX);

    pub fn of(client: usize) -> Self {
        ClientField(client as u8)
    }

    /// "A station field of 8 or more reads as none", and so does one past the settings.
    pub fn read(self, sizes: Sizes) -> Option<usize> {
        let client = usize::from(self.0);
        (client < sizes.clients).then_some(client)
    }
}

/// The version of a file.
#[derive(Clone, Copy, PartialEq, Eq, Debug)]
pub struct VersionField(pub u32);

impl VersionField {
    /// A version of 0 reads as 1.
    pub fn read(self) -> u32 {
        self.0.max(1)
    }
}

/// An open that waits, or none.
#[derive(Clone, Copy, PartialEq, Eq, Debug)]
pub struct WaitField {
    pub opener: ClientField,
    pub mode: Mode,
    /// Those still to be replied to.
    pub callbacks: Callbacks,
}

impl WaitField {
    pub const NONE: WaitField = WaitField { opener: ClientField::NONE, mode: Mode::Read, callbacks: Callbacks::NONE };

    /// Without an opener nothing waits, and no callback is out.
    pub fn read(self, sizes: Sizes) -> Option<WaitingOpen> {
        let WaitField { opener, mode, callbacks } = self;
        let callbacks = callbacks.over(sizes, Callbacks::NONE);
        opener.read(sizes).map(|opener| WaitingOpen { opener, mode, callbacks })
    }

    /// This wait in the place of another, whose callbacks past the clients stay.
    pub fn over(self, sizes: Sizes, other: WaitField) -> Self {
        WaitField { callbacks: self.callbacks.over(sizes, other.callbacks), ..self }
    }
}

impl From<WaitingOpen> for WaitField {
    fn from(WaitingOpen { opener, mode, callbacks }: WaitingOpen) -> Self {
        WaitField { opener: ClientField::of(opener), mode, callbacks }
    }
}
