//! Who can cause a refusal: for each step the tests that document 01 lists for it, in the order of their numbers; 20
//! comes after 4, and 21 after 20 (document 02, Wish 9); 22 comes after 7 (Wish 10);
//! 23 comes last (Wish 13).

use crate::{ClientFile, Entry, Kind, Mode, Refusal, Service, Step};

pub type Admission = Result<(), Refusal>;

fn unless(refused: bool, refusal: Refusal) -> Admission {
    if refused { Err(refusal) } else { Ok(()) }
}

/// "A read unless the station is open, may cache and holds the block."
fn read_needs_server(file: &ClientFile, block: u64) -> bool {
    !(file.record.is_open() && file.record.may_cache && file.copies.held[block as usize])
}

/// "A write unless it has writers and may cache"; one that takes a place does, "cached too" (Wish 13).
fn write_needs_server(file: &ClientFile, takes_place: bool) -> bool {
    !(file.record.writers > 0 && file.record.may_cache) || takes_place
}

impl Service {
    pub fn may_open(&self, mode: Mode, client: u64, file: u64) -> Admission {
        self.client_exists(client)?;
        self.file_exists(file)?;
        self.without_embargo(client)?;
        self.running()?;
        self.nothing_waits(file)?;
        unless(self.at_client(client, file).record.count(mode) == u8::MAX, Refusal::CountAtLimit)?;
        unless(mode == Mode::Write && self.entry(file).version.read() == u32::MAX, Refusal::VersionAtLimit)
    }

    pub fn may_close(&self, mode: Mode, client: u64, file: u64) -> Admission {
        self.client_exists(client)?;
        self.file_exists(file)?;
        self.without_embargo(client)?;
        self.running()?;
        self.nothing_waits(file)?;
        unless(self.at_client(client, file).record.count(mode) == 0, Refusal::NotOpen)
    }

    #[inline(always)]
    pub fn may_read(&self, client: u64, file: u64, block: u64) -> Admission {
        self.client_exists(client)?;
        self.file_exists(file)?;
        self.block_exists(block)?;
        let copy = self.at_client(client, file);
        if self.is_embargoed(client) {
            unless(read_needs_server(copy, block), Refusal::UnderEmbargo)?;
        }
        if self.server.recovering {
            unless(self.has_reported(client) || read_needs_server(copy, block), Refusal::Recovering)?;
        }
        unless(!copy.record.is_open(), Refusal::NotOpen)
    }

    #[inline(always)]
    pub fn may_write(&self, client: u64, file: u64, block: u64) -> Admission {
        self.client_exists(client)?;
        self.file_exists(file)?;
        self.block_exists(block)?;
        let copy = self.at_client(client, file);
        let takes_place = self.takes_place(client as usize, file as usize, block as usize);
        if self.is_embargoed(client) {
            unless(write_needs_server(copy, takes_place), Refusal::UnderEmbargo)?;
        }
        if self.server.recovering {
            unless(self.has_reported(client) || write_needs_server(copy, takes_place), Refusal::Recovering)?;
        }
        unless(copy.record.writers == 0, Refusal::NotOpen)?;
        unless(takes_place && self.server.free_places(self.sizes()) == 0, Refusal::NoPlace)
    }

    pub fn may_flush(&self, client: u64, file: u64, block: u64) -> Admission {
        self.client_exists(client)?;
        self.file_exists(file)?;
        self.block_exists(block)?;
        self.without_embargo(client)?;
        self.running()?;
        unless(!self.at_client(client, file).copies.dirty[block as usize], Refusal::NotDirty)
    }

    /// A reply that is admitted has the kind of its callback.
    #[inline(always)]
    pub fn may_reply(&self, client: u64, file: u64) -> Result<Kind, Refusal> {
        self.client_exists(client)?;
        self.file_exists(file)?;
        self.without_embargo(client)?;
        self.called(client, file)
    }

    pub fn may_report(&self, client: u64) -> Admission {
        self.client_exists(client)?;
        self.without_embargo(client)?;
        self.in_recovery()?;
        unless(self.has_reported(client), Refusal::AlreadyReported)?;
        unless(self.first_clash(client as usize).is_some(), Refusal::ReportsClash)
    }

    pub fn may_end(&self) -> Admission {
        self.in_recovery()?;
        unless(!self.server.reports_missing(self.sizes()).is_empty(), Refusal::ReportsMissing)
    }

    /// "BT tests 2 only" (document 02, Wish 8).
    pub fn may_restart(&self, client: u64) -> Admission {
        self.client_exists(client)
    }

    /// "EM is tested as a reply is, never by 20" (document 02, Wish 9).
    pub fn may_embargo(&self, client: u64, file: u64) -> Admission {
        self.client_exists(client)?;
        self.file_exists(file)?;
        self.called(client, file).map(|_| ())
    }

    /// "LF tests 2 and 21."
    pub fn may_lift(&self, client: u64) -> Admission {
        self.client_exists(client)?;
        unless(!self.is_embargoed(client), Refusal::NotUnderEmbargo)
    }

    /// The refusal that this step would get now, if any.
    pub fn refusal(&self, step: &Step) -> Option<Refusal> {
        match *step {
            Step::Open { mode, client, file } => self.may_open(mode, client, file),
            Step::Close { mode, client, file } => self.may_close(mode, client, file),
            Step::Reply { client, file } => self.may_reply(client, file).map(|_| ()),
            Step::Read { client, file, block } => self.may_read(client, file, block),
            Step::Write { client, file, block, .. } => self.may_write(client, file, block),
            Step::Flush { client, file, block } => self.may_flush(client, file, block),
            Step::Crash => Ok(()),
            Step::Report { client } => self.may_report(client),
            Step::End => self.may_end(),
            Step::Restart { client } => self.may_restart(client),
            Step::Embargo { client, file } => self.may_embargo(client, file),
            Step::Lift { client } => self.may_lift(client),
        }
        .err()
    }

    fn client_exists(&self, client: u64) -> Admission {
        unless(client >= self.sizes().clients as u64, Refusal::NoSuchClient)
    }

    fn file_exists(&self, file: u64) -> Admission {
        unless(file >= self.sizes().files as u64, Refusal::NoSuchFile)
    }

    fn block_exists(&self, block: u64) -> Admission {
        unless(block >= self.sizes().blocks as u64, Refusal::NoSuchBlock)
    }

    fn is_embargoed(&self, client: u64) -> bool {
        self.server.embargoed.contains(client as usize)
    }

    /// For a step that needs the server.
    fn without_embargo(&self, client: u64) -> Admission {
        unless(self.is_embargoed(client), Refusal::UnderEmbargo)
    }

    fn running(&self) -> Admission {
        unless(self.server.recovering, Refusal::Recovering)
    }

    fn in_recovery(&self) -> Admission {
        unless(!self.server.recovering, Refusal::NotRecovering)
    }

    fn has_reported(&self, client: u64) -> bool {
        self.server.reported.contains(client as usize)
    }

    #[inline(always)]
    fn called(&self, client: u64, file: u64) -> Result<Kind, Refusal> {
        self.running()?;
        self.entry(file).callback(self.sizes(), client as usize).ok_or(Refusal::NoCallback)
    }

    fn nothing_waits(&self, file: u64) -> Admission {
        unless(self.entry(file).waiting.read(self.sizes()).is_some(), Refusal::OpenWaits)
    }

    fn entry(&self, file: u64) -> &Entry {
        &self.server.entries[file as usize]
    }

    fn at_client(&self, client: u64, file: u64) -> &ClientFile {
        &self.clients[client as usize].files[file as usize]
    }
}
