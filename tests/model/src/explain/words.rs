//! What is told, in the words of docs/EXPLAIN.md.

use super::{CopyAtGrant, Granted, LostAt, Opening, Origin, Place, Reading, Reason, Source, Told, Waiting};
use crate::text::Text;
use crate::{CLIENTS, Callbacks, Claim, Clash, ClientSet, Kind, Mode, Sizes};

impl Text<'_> {
    /// The sentence of a line.
    pub fn told(&mut self, told: &Told) {
        match told {
            Told::Read(reading) => self.read(reading),
            Told::Granted(granted) => self.granted(granted),
            Told::Waits { opening, state, callbacks } => {
                self.waits(opening);
                self.words(", which is ");
                self.words(state.name());
                self.called(*callbacks);
            }
            Told::Answered { client, file, sent, still } => {
                self.answers(*client, *file, *sent);
                self.still_to_answer(*still);
            }
            Told::AnsweredLast { client, sent, granted } => {
                self.answers(*client, granted.opening.file, *sent);
                self.words("; ");
                self.granted(granted);
            }
            Told::Closed(Opening { client, file, mode }) => {
                self.station(*client);
                self.words(" closes");
                self.file(*file);
                self.mode(*mode);
            }
            Told::Written { place, in_copy, embargo, .. } => {
                self.station(place.client);
                self.words(" writes");
                self.block(*place);
                self.words(if *in_copy { " in its copy" } else { " at the server" });
                if let Some(since) = embargo {
                    self.words("; lost: it");
                    self.is_under_embargo(*since);
                }
            }
            Told::Flushed(place) => {
                self.station(place.client);
                self.words(" sends");
                self.block(*place);
                self.words(" to the server");
            }
            Told::Crashed => self.words("the server crashes; every station has to report"),
            Told::Reported { client } => {
                self.station(*client);
                self.words(" reports what it has open");
            }
            Told::Ended => self.words("the recovery ends"),
            Told::Restarted { client, opened, lost, granted } => {
                self.station(*client);
                self.words(" restarts");
                self.forgotten(opened, lost, granted);
            }
            Told::Embargoed { client, opened, lost, granted } => {
                self.station(*client);
                self.words(" is put under embargo");
                self.forgotten(opened, lost, granted);
            }
            Told::Lifted { client, opened } => {
                self.station(*client);
                self.words(" is told of its embargo");
                self.had_open(opened);
            }
            Told::Set(Sizes { clients, files, blocks, store }) => {
                self.words("the service has ");
                self.count(*clients);
                self.words(" stations, ");
                self.count(*files);
                self.words(" files of ");
                self.count(*blocks);
                self.words(" blocks; places: ");
                self.count(*store);
            }
            Told::Refused(reason) => self.reason(reason),
        }
    }

    fn read(&mut self, reading: &Reading) {
        self.station(reading.place.client);
        self.byte(b',');
        self.block(reading.place);
        match reading.source {
            Source::OwnCopy { dirty, since } => {
                self.words(": from its own copy");
                if dirty {
                    self.words(", dirty");
                }
                self.words(", since line ");
                self.number(since);
            }
            Source::Fetched | Source::Server => self.words(": from the server"),
        }
        if let Some(since) = reading.embargo {
            self.words("; nothing is promised: it");
            self.is_under_embargo(since);
            return;
        }
        match reading.origin {
            Origin::Written(written) => {
                self.words("; written by ");
                self.station(written.client);
                self.words(" at line ");
                self.number(written.line);
            }
            Origin::NeverWritten => self.words("; never written"),
            Origin::Start => self.words("; as at the start"),
            Origin::Image => self.words("; as the image has it"),
        }
        if let Some(lost) = reading.lost {
            self.words("; the write of ");
            self.station(lost.client);
            self.words(" at line ");
            self.number(lost.line);
            self.words(" was lost");
        }
    }

    fn granted(&mut self, granted: &Granted) {
        self.has_open(&granted.opening);
        self.words(" at version ");
        self.number(granted.version.into());
        self.words(" and ");
        self.permission(granted.may_cache);
        match granted.copy {
            CopyAtGrant::None => self.words("; it had no copy"),
            CopyAtGrant::Kept(version) => self.copy_is(version, "kept"),
            CopyAtGrant::Dropped(version) => self.copy_is(version, "dropped"),
        }
    }

    fn copy_is(&mut self, version: u32, what: &str) {
        self.words("; its copy of version ");
        self.number(version.into());
        self.words(" is ");
        self.words(what);
    }

    fn called(&mut self, callbacks: Callbacks) {
        for client in 0..CLIENTS {
            let Some(kind) = callbacks.kind(client) else { continue };
            self.words("; ");
            self.station(client);
            self.words(" is called to ");
            self.words(match kind {
                Kind::WriteBack => "write back",
                Kind::Invalidate => "drop its copy",
                Kind::Both => "write back and drop its copy",
            });
        }
    }

    fn answers(&mut self, client: usize, file: usize, sent: usize) {
        self.station(client);
        self.words(" answers for");
        self.file(file);
        self.words(", blocks sent: ");
        self.count(sent);
    }

    /// What a restart and an embargo tell alike.
    fn forgotten(&mut self, opened: &[usize], lost: &[LostAt], granted: &[Granted]) {
        self.had_open(opened);
        self.writes_lost(lost);
        for granted in granted {
            self.words("; ");
            self.granted(granted);
        }
    }

    fn had_open(&mut self, opened: &[usize]) {
        self.words("; files it had open:");
        self.list(opened.iter().copied());
    }

    /// As restarts, embargoes and the picture tell them.
    pub fn writes_lost(&mut self, lost: &[LostAt]) {
        self.words("; writes lost:");
        if lost.is_empty() {
            self.words(" none");
        }
        for (at, lost) in lost.iter().enumerate() {
            if at > 0 {
                self.byte(b',');
            }
            self.lost(lost);
        }
    }

    fn lost(&mut self, &LostAt { file, block, line }: &LostAt) {
        self.file(file);
        self.words(" block ");
        self.count(block);
        self.words(" at line ");
        self.number(line);
    }

    fn reason(&mut self, reason: &Reason) {
        match *reason {
            Reason::NotAStep => self.words("this line is no step"),
            Reason::NoSuchClient(client, clients) => self.not_there("station", client, "; there are ", clients),
            Reason::NoSuchFile(file, files) => self.not_there("file", file, "; there are ", files),
            Reason::NoSuchBlock(block, blocks) => self.not_there("block", block, "; a file has ", blocks),
            Reason::Recovering { to_report } => self.recovers(to_report),
            Reason::NotRecovering => self.words("no recovery is under way"),
            Reason::AlreadyReported { client } => {
                self.station(client);
                self.words(" has reported before");
            }
            Reason::ReportsMissing { to_report } => {
                self.words("the recovery cannot end");
                self.still_to_report(to_report);
            }
            Reason::OpenWaits(waiting) => self.waiting(&waiting),
            Reason::NoCallback { client, file } => {
                self.station(client);
                self.words(" has no call to answer on");
                self.file(file);
            }
            Reason::NotOpen { client, file, needed } => {
                self.station(client);
                self.words(" does not have");
                self.file(file);
                self.words(" open");
                if let Some(mode) = needed {
                    self.mode(mode);
                }
            }
            Reason::CountAtLimit(opening) => {
                self.has_open(&opening);
                self.words(" 255 times, the most there can be");
            }
            Reason::NotDirty(place) => {
                self.station(place.client);
                self.words(" has no dirty copy of");
                self.block(place);
            }
            Reason::VersionAtLimit { file } => {
                self.words("version 4294967295 is the last, and no write open of");
                self.file(file);
                self.words(" can raise it");
            }
            Reason::UnderEmbargo { client, since } => {
                self.station(client);
                self.is_under_embargo(since);
            }
            Reason::NotUnderEmbargo { client } => {
                self.station(client);
                self.words(" is not under embargo");
            }
            Reason::ReportsClash { client, clash } => self.clash(client, &clash),
            Reason::NoPlace { place, places } => {
                self.words("no place is free for");
                self.block(place);
                self.words("; ");
                self.places(&places);
            }
            Reason::SettingOutOfRange => {
                self.words("a setting lies outside its range: 1 to 8 stations, 1 to 64 files, 1 to 8 blocks, ");
                self.words("0 to 512 places");
            }
        }
    }

    /// What the client claims, and what the server has accepted of the other.
    fn clash(&mut self, client: usize, clash: &Clash) {
        self.words(if clash.other.is_none() { "the report on" } else { "the reports on" });
        self.file(clash.file);
        self.words(if clash.other.is_none() { " cannot be true: " } else { " cannot both be true: " });
        self.claim(client, clash.own);
        if let Some((other, accepted)) = clash.other {
            self.words("; ");
            self.claim(other, accepted);
        }
    }

    fn claim(&mut self, client: usize, claim: Claim) {
        self.station(client);
        self.words(" has readers ");
        self.number(claim.record.readers.into());
        self.words(", writers ");
        self.number(claim.record.writers.into());
        self.words(", ");
        self.permission(claim.record.may_cache);
        self.words(if claim.flagged { ", a mark" } else { ", no mark" });
    }

    fn not_there(&mut self, what: &str, number: u64, there_are: &str, count: usize) {
        self.words("there is no ");
        self.words(what);
        self.byte(b' ');
        self.number(number);
        self.words(there_are);
        self.count(count);
    }

    /// An open that waits, as refusal 9 and the picture tell it.
    pub fn waiting(&mut self, waiting: &Waiting) {
        self.waits(&waiting.opening);
        self.words(" since line ");
        self.number(waiting.since);
        self.still_to_answer(waiting.still);
    }

    /// As refusal 5 and the picture tell it.
    pub fn recovers(&mut self, to_report: ClientSet) {
        self.words("the server recovers");
        self.still_to_report(to_report);
    }

    /// Since a line, or since the image that the run began with.
    pub fn is_under_embargo(&mut self, since: u64) {
        self.words(" is under embargo");
        if since == 0 {
            self.words(", as the image has it");
        } else {
            self.words(" since line ");
            self.number(since);
        }
    }

    fn waits(&mut self, Opening { client, file, mode }: &Opening) {
        self.station(*client);
        self.words(" waits to open");
        self.file(*file);
        self.mode(*mode);
    }

    fn has_open(&mut self, Opening { client, file, mode }: &Opening) {
        self.station(*client);
        self.words(" has");
        self.file(*file);
        self.words(" open");
        self.mode(*mode);
    }

    fn still_to_answer(&mut self, clients: ClientSet) {
        self.words("; stations still to answer:");
        self.list(clients.members());
    }

    fn still_to_report(&mut self, clients: ClientSet) {
        self.words("; stations still to report:");
        self.list(clients.members());
    }

    pub fn permission(&mut self, may_cache: bool) {
        self.words(if may_cache { "may cache" } else { "may not cache" });
    }

    pub fn station(&mut self, client: usize) {
        self.words("station ");
        self.count(client);
    }

    fn file(&mut self, file: usize) {
        self.words(" file ");
        self.count(file);
    }

    fn block(&mut self, place: Place) {
        self.file(place.file);
        self.words(" block ");
        self.count(place.block);
    }

    fn mode(&mut self, mode: Mode) {
        self.words(match mode {
            Mode::Read => " for read",
            Mode::Write => " for write",
        });
    }

    /// Numbers, each after a space, or " none".
    pub fn list(&mut self, numbers: impl IntoIterator<Item = usize>) {
        let mut empty = true;
        for number in numbers {
            empty = false;
            self.byte(b' ');
            self.count(number);
        }
        if empty {
            self.words(" none");
        }
    }

    pub fn words(&mut self, words: &str) {
        self.bytes(words.as_bytes());
    }

    pub fn count(&mut self, number: usize) {
        self.number(number as u64);
    }
}
