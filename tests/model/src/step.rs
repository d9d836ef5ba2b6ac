//! The steps of a step file, with their numbers as written.

use crate::Sizes;

#[derive(Clone, Copy, PartialEq, Eq, Debug)]
pub enum Mode {
    Read,
    /// Read and write.
    Write,
}

/// One step. The numbers may lie outside the service: refusals 2, 3 and 4 say so.
#[derive(Clone, Copy, PartialEq, Eq, Debug)]
pub enum Step {
    Open { mode: Mode, client: u64, file: u64 },
    Close { mode: Mode, client: u64, file: u64 },
    Reply { client: u64, file: u64 },
    Read { client: u64, file: u64, block: u64 },
    Write { client: u64, file: u64, block: u64, value: u64 },
    Flush { client: u64, file: u64, block: u64 },
    Crash,
    Report { client: u64 },
    End,
    Restart { client: u64 },
    Embargo { client: u64, file: u64 },
    Lift { client: u64 },
}

impl Step {
    /// The client that the step names, if it names one.
    pub fn client(&self) -> Option<u64> {
        match *self {
            Step::Open { client, .. }
            | Step::Close { client, .. }
            | Step::Reply { client, .. }
            | Step::Read { client, .. }
            | Step::Write { client, .. }
            | Step::Flush { client, .. }
            | Step::Report { client }
            | Step::Restart { client }
            | Step::Embargo { client, .. }
            | Step::Lift { client } => Some(client),
            Step::Crash | Step::End => None,
        }
    }

    /// The client and the file that the step names, if it names both.
    fn place(&self) -> Option<(u64, u64)> {
        match *self {
            Step::Open { client, file, .. }
            | Step::Close { client, file, .. }
            | Step::Reply { client, file }
            | Step::Read { client, file, .. }
            | Step::Write { client, file, .. }
            | Step::Flush { client, file, .. }
            | Step::Embargo { client, file } => Some((client, file)),
            Step::Crash | Step::Report { .. } | Step::End | Step::Restart { .. } | Step::Lift { .. } => None,
        }
    }

    /// The client and the file, if both exist.
    pub fn existing_place(&self, sizes: Sizes) -> Option<(usize, usize)> {
        let (client, file) = self.place()?;
        (client < sizes.clients as u64 && file < sizes.files as u64).then_some((client as usize, file as usize))
    }
}
