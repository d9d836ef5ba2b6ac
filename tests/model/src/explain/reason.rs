//! What stands behind a refusal.

use super::{Book, Opening, Place, Places};
use crate::{Clash, ClientSet, Mode, Refusal, Service, Step};

#[derive(Clone, Copy, PartialEq, Eq, Debug)]
pub enum Reason {
    NotAStep,
    /// The number that the step names, and how many there are.
    NoSuchClient(u64, usize),
    NoSuchFile(u64, usize),
    NoSuchBlock(u64, usize),
    Recovering {
        to_report: ClientSet,
    },
    NotRecovering,
    AlreadyReported {
        client: usize,
    },
    ReportsMissing {
        to_report: ClientSet,
    },
    OpenWaits(Waiting),
    NoCallback {
        client: usize,
        file: usize,
    },
    /// The mode that is needed; none for a read, which needs either.
    NotOpen {
        client: usize,
        file: usize,
        needed: Option<Mode>,
    },
    CountAtLimit(Opening),
    NotDirty(Place),
    VersionAtLimit {
        file: usize,
    },
    SettingOutOfRange,
    UnderEmbargo {
        client: usize,
        /// The line that put it there, 0 if an image did.
        since: u64,
    },
    NotUnderEmbargo {
        client: usize,
    },
    ReportsClash {
        client: usize,
        clash: Clash,
    },
    NoPlace {
        place: Place,
        places: Places,
    },
}

/// An open that waits.
#[derive(Clone, Copy, PartialEq, Eq, Debug)]
pub struct Waiting {
    pub opening: Opening,
    pub since: u64,
    /// The clients still to answer.
    pub still: ClientSet,
}

impl Waiting {
    /// The open of this file that waits, if one does.
    pub fn on(service: &Service, book: &Book, file: usize) -> Option<Self> {
        let open = service.server.entries[file].waiting.read(service.sizes())?;
        let opening = Opening { client: open.opener, file, mode: open.mode };
        Some(Waiting { opening, since: book.waits_since(file), still: open.callbacks.clients() })
    }
}

impl Reason {
    /// Why the service refuses this step. A refused step changes nothing, so it can be asked before and after.
    pub fn of(service: &Service, book: &Book, step: &Step, refusal: Refusal) -> Self {
        let sizes = service.sizes();
        let to_report = service.server.reports_missing(sizes);
        let Named { client, file, block, mode } = Named::by(step);
        // Once a refusal says that the number is there, the number fits.
        let (at_client, at_file, at_block) = (client as usize, file as usize, block as usize);
        match refusal {
            Refusal::NoSuchClient => Reason::NoSuchClient(client, sizes.clients),
            Refusal::NoSuchFile => Reason::NoSuchFile(file, sizes.files),
            Refusal::NoSuchBlock => Reason::NoSuchBlock(block, sizes.blocks),
            Refusal::Recovering => Reason::Recovering { to_report },
            Refusal::NotRecovering => Reason::NotRecovering,
            Refusal::AlreadyReported => Reason::AlreadyReported { client: at_client },
            Refusal::ReportsMissing => Reason::ReportsMissing { to_report },
            Refusal::OpenWaits => {
                Reason::OpenWaits(Waiting::on(service, book, at_file).expect("an open of the file waits"))
            }
            Refusal::NoCallback => Reason::NoCallback { client: at_client, file: at_file },
            Refusal::NotOpen => Reason::NotOpen { client: at_client, file: at_file, needed: mode },
            Refusal::CountAtLimit => {
                let mode = mode.expect("only an open is refused for its count");
                Reason::CountAtLimit(Opening { client: at_client, file: at_file, mode })
            }
            Refusal::NotDirty => Reason::NotDirty(Place { client: at_client, file: at_file, block: at_block }),
            Refusal::VersionAtLimit => Reason::VersionAtLimit { file: at_file },
            Refusal::UnderEmbargo => Reason::UnderEmbargo { client: at_client, since: book.embargoed_since(at_client) },
            Refusal::NotUnderEmbargo => Reason::NotUnderEmbargo { client: at_client },
            Refusal::ReportsClash => {
                let clash = service.first_clash(at_client).expect("the report clashes on some file");
                Reason::ReportsClash { client: at_client, clash }
            }
            Refusal::NoPlace => {
                let place = Place { client: at_client, file: at_file, block: at_block };
                Reason::NoPlace { place, places: Places::of(service) }
            }
            Refusal::NotAStep
            | Refusal::OpenWaitsAtWriting
            | Refusal::BufferTooShort
            | Refusal::NoImage
            | Refusal::SettingOutOfRange => unreachable!("no step is refused with {}", refusal.number()),
        }
    }
}

/// What a step names, 0 where it names none, and the mode that it needs, if it needs one.
struct Named {
    client: u64,
    file: u64,
    block: u64,
    mode: Option<Mode>,
}

impl Named {
    fn by(step: &Step) -> Self {
        let (client, file, block, mode) = match *step {
            Step::Open { mode, client, file } | Step::Close { mode, client, file } => (client, file, 0, Some(mode)),
            Step::Reply { client, file } | Step::Embargo { client, file } => (client, file, 0, None),
            Step::Read { client, file, block } | Step::Flush { client, file, block } => (client, file, block, None),
            Step::Write { client, file, block, .. } => (client, file, block, Some(Mode::Write)),
            Step::Report { client } | Step::Restart { client } | Step::Lift { client } => (client, 0, 0, None),
            Step::Crash | Step::End => (0, 0, 0, None),
        };
        Named { client, file, block, mode }
    }
}
