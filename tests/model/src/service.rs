//! The server's end and the clients' ends together: one step at a time, changed in place.

use crate::{
    CLIENTS, Callbacks, Client, Grant, GrantedOpen, Kind, Mode, Outcome, Refusal, Rules, Server, Settings, Sizes, Step,
    WaitingOpen,
};

#[derive(Clone, PartialEq, Eq, Debug)]
pub struct Service {
    pub settings: Settings,
    pub server: Server,
    pub clients: [Client; CLIENTS],
}

type Answer = Result<Outcome, Refusal>;

impl Service {
    pub fn fresh() -> Self {
        Service::fresh_of(Settings::NOT_GIVEN)
    }

    pub fn fresh_of(settings: Settings) -> Self {
        Service { settings, server: Server::fresh(), clients: std::array::from_fn(|_| Client::fresh()) }
    }

    pub fn sizes(&self) -> Sizes {
        self.settings.read()
    }

    /// A first line SET: the service is then a fresh one of these sizes, or as it came if the line is refused.
    pub fn set(&mut self, settings: Settings) -> Outcome {
        if !settings.are_in_range() {
            return Outcome::Refused(Refusal::SettingOutOfRange);
        }
        *self = Service::fresh_of(settings);
        Outcome::Done
    }

    /// Whether this client has a dirty block of this file.
    pub fn any_dirty(&self, client: usize, file: usize) -> bool {
        self.clients[client].files[file].copies.any_dirty(self.sizes())
    }

    /// How many blocks an answer to a callback of this kind sends: "for kinds 1 and 3 .. the dirty blocks of that file
    /// there just before the reply; an invalidation alone gives 0" (document 02, Wish 5).
    pub fn blocks_to_send(&self, client: usize, file: usize, kind: Kind) -> usize {
        if kind.writes_back() { self.clients[client].files[file].copies.count_dirty(self.sizes()) } else { 0 }
    }

    #[inline(always)]
    pub fn take<R: Rules>(&mut self, step: &Step) -> Outcome {
        match *step {
            Step::Open { mode, client, file } => self.open::<R>(mode, client, file),
            Step::Close { mode, client, file } => self.close::<R>(mode, client, file),
            Step::Reply { client, file } => self.reply::<R>(client, file),
            Step::Read { client, file, block } => self.read::<R>(client, file, block),
            Step::Write { client, file, block, value } => self.write::<R>(client, file, block, value),
            Step::Flush { client, file, block } => self.flush::<R>(client, file, block),
            Step::Crash => self.crash::<R>(),
            Step::Report { client } => self.report::<R>(client),
            Step::End => self.end::<R>(),
            Step::Restart { client } => self.restart::<R>(client),
            Step::Embargo { client, file } => self.embargo::<R>(client, file),
            Step::Lift { client } => self.lift::<R>(client),
        }
        .unwrap_or_else(Outcome::Refused)
    }

    fn open<R: Rules>(&mut self, mode: Mode, client: u64, file: u64) -> Answer {
        R::may_open(self, mode, client, file)?;
        let (opener, file) = (client as usize, file as usize);
        let sizes = self.sizes();
        let entry = &mut self.server.entries[file];
        let callbacks = R::callbacks_due(sizes, entry, opener, mode);
        if callbacks == Callbacks::NONE {
            return Ok(Outcome::Granted(self.grant_at_once::<R>(opener, file, mode)));
        }
        R::wait(sizes, entry, WaitingOpen { opener, mode, callbacks });
        Ok(Outcome::Waits(callbacks))
    }

    /// A grant that drops dirty blocks frees their places.
    fn grant_at_once<R: Rules>(&mut self, opener: usize, file: usize, mode: Mode) -> Grant {
        if !self.any_dirty(opener, file) {
            return self.grant::<R>(opener, file, mode);
        }
        let before = R::places_held_in(self, file);
        let grant = self.grant::<R>(opener, file, mode);
        let after = R::places_held_in(self, file);
        R::settle(self, &Step::Open { mode, client: opener as u64, file: file as u64 }, before, after);
        grant
    }

    fn grant<R: Rules>(&mut self, opener: usize, file: usize, mode: Mode) -> Grant {
        let sizes = self.sizes();
        let entry = &mut self.server.entries[file];
        let may_cache = R::permission_at_grant(sizes, entry, opener, mode);
        let grant = R::grant_at_server(entry, opener, mode, may_cache);
        entry.end_wait(sizes);
        R::grant_at_client(sizes, &mut self.clients[opener].files[file], mode, &grant);
        grant
    }

    fn close<R: Rules>(&mut self, mode: Mode, client: u64, file: u64) -> Answer {
        R::may_close(self, mode, client, file)?;
        let (client, file) = (client as usize, file as usize);
        let dirty = R::dirty_at_close(self, client, file);
        R::close_at_server(&mut self.server.entries[file], client, mode, dirty);
        R::close_at_client(&mut self.clients[client].files[file], mode, dirty);
        Ok(Outcome::Done)
    }

    fn reply<R: Rules>(&mut self, client: u64, file: u64) -> Answer {
        let kind = R::may_reply(self, client, file)?;
        let (client, file) = (client as usize, file as usize);
        let sizes = self.sizes();
        let sent = R::blocks_sent(self, client, file, kind);
        let (before, dirty) = (R::places_held_in(self, file), self.clients[client].files[file].copies.dirty);
        let entry = &mut self.server.entries[file];
        R::answer_at_client(sizes, &mut self.clients[client].files[file], kind, &mut entry.blocks);
        R::answer_at_server(entry, client, kind);
        for block in (0..sizes.blocks).filter(|&block| dirty[block] && kind.writes_back()) {
            R::used_by_reply(entry, block);
        }
        let granted = entry.open_due(sizes).map(|open| (open.opener, self.grant::<R>(open.opener, file, open.mode)));
        let after = R::places_held_in(self, file);
        R::settle(self, &Step::Reply { client: client as u64, file: file as u64 }, before, after);
        Ok(Outcome::Replied { sent, granted })
    }

    fn read<R: Rules>(&mut self, client: u64, file: u64, block: u64) -> Answer {
        R::may_read(self, client, file, block)?;
        let (client, file) = (client as usize, file as usize);
        let server = &self.server.entries[file].blocks;
        Ok(Outcome::Value(R::read(&mut self.clients[client].files[file], block as usize, server)))
    }

    fn write<R: Rules>(&mut self, client: u64, file: u64, block: u64, value: u64) -> Answer {
        R::may_write(self, client, file, block)?;
        let (client, file, block) = (client as usize, file as usize, block as usize);
        if R::takes_place(self, client, file, block) {
            R::take_place(self.sizes(), &mut self.server);
        }
        let (entry, own) = (&mut self.server.entries[file], &mut self.clients[client].files[file]);
        R::write(own, block, value, &mut entry.blocks);
        if !own.record.may_cache {
            R::used_by_write(entry, block);
        }
        if self.server.embargoed.contains(client) {
            R::wrote_under_embargo(&mut entry.blocks, block, value);
        }
        Ok(Outcome::Done)
    }

    fn flush<R: Rules>(&mut self, client: u64, file: u64, block: u64) -> Answer {
        R::may_flush(self, client, file, block)?;
        let (client, file) = (client as usize, file as usize);
        let server = &mut self.server.entries[file].blocks;
        R::flush(&mut self.clients[client].files[file], block as usize, server);
        R::used_by_flush(self.sizes(), &mut self.server, file, block as usize);
        let dirty = R::dirty_after_flush(self, client, file);
        R::flushed_at_server(&mut self.server.entries[file], client, dirty);
        R::flushed_at_client(&mut self.clients[client].files[file], dirty);
        Ok(Outcome::Done)
    }

    fn crash<R: Rules>(&mut self) -> Answer {
        R::crash(self);
        Ok(Outcome::Done)
    }

    fn report<R: Rules>(&mut self, client: u64) -> Answer {
        R::may_report(self, client).inspect_err(|refusal| R::report_refused(self, client, *refusal))?;
        let client = client as usize;
        let (files, before) = (self.sizes().files, R::places_held(self));
        for (entry, file) in self.server.entries[..files].iter_mut().zip(&self.clients[client].files) {
            R::report(entry, client, file);
        }
        self.server.reported = self.server.reported.with(client);
        let after = R::places_held(self);
        R::settle(self, &Step::Report { client: client as u64 }, before, after);
        Ok(Outcome::Done)
    }

    fn end<R: Rules>(&mut self) -> Answer {
        R::may_end(self)?;
        R::end(self.sizes(), &mut self.server);
        Ok(Outcome::Done)
    }

    /// File by file, ascending. The one that is granted an open is never the one that restarts: its own open has gone.
    fn restart<R: Rules>(&mut self, client: u64) -> Answer {
        R::may_restart(self, client)?;
        let client = client as usize;
        let (sizes, before) = (self.sizes(), R::places_held(self));
        let mut granted = Vec::new();
        for file in 0..sizes.files {
            let due = R::restart_at_server(sizes, &mut self.server, file, client);
            if let Some(WaitingOpen { opener, mode, .. }) = due {
                granted.push(GrantedOpen { opener, file, grant: self.grant::<R>(opener, file, mode) });
            }
            let blocks = &mut self.server.entries[file].blocks;
            R::restart_at_client(sizes, &mut self.clients[client].files[file], blocks);
        }
        R::restart_reports(&mut self.server, client);
        R::restart_lifts(&mut self.server, client);
        let after = R::places_held(self);
        R::settle(self, &Step::Restart { client: client as u64 }, before, after);
        Ok(Outcome::Restarted { granted })
    }

    /// On all files, ascending, whichever the step names.
    fn embargo<R: Rules>(&mut self, client: u64, of: u64) -> Answer {
        R::may_embargo(self, client, of)?;
        let client = client as usize;
        let (sizes, before) = (self.sizes(), R::places_held(self));
        let mut granted = Vec::new();
        for file in 0..sizes.files {
            let due = R::embargo_at_server(sizes, &mut self.server, file, client, of as usize);
            if let Some(WaitingOpen { opener, mode, .. }) = due {
                granted.push(GrantedOpen { opener, file, grant: self.grant::<R>(opener, file, mode) });
            }
            let blocks = &mut self.server.entries[file].blocks;
            R::embargo_at_client(sizes, &mut self.clients[client].files[file], blocks);
        }
        R::put_under_embargo(&mut self.server, client);
        let after = R::places_held(self);
        R::settle(self, &Step::Embargo { client: client as u64, file: of }, before, after);
        Ok(R::embargo_answer(granted))
    }

    /// The server has nothing of the client, and no place is reserved for it.
    fn lift<R: Rules>(&mut self, client: u64) -> Answer {
        R::may_lift(self, client)?;
        let client = client as usize;
        let sizes = self.sizes();
        R::freed_by_lift(self, client);
        for file in 0..sizes.files {
            let blocks = &mut self.server.entries[file].blocks;
            R::lift_at_client(sizes, &mut self.clients[client].files[file], blocks);
        }
        R::lift_reports(&mut self.server, client);
        R::end_embargo(&mut self.server, client);
        Ok(Outcome::Done)
    }
}
