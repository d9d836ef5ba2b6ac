//! Document 01 and the wishes of document 02 that have landed, read once more: plainly, apart from the model's own
//! rules, and for any service.

use model::{
    CLIENTS, Callbacks, ClientField, ClientFile, Entry, Grant, GrantedOpen, Mode, Outcome, Record, Service, Sizes,
    Step, VersionField,
};

use crate::sizes::in_force;

/// Takes a step that is not refused. "Free places, kept within 0 and the size, are counted up and down by history", and
/// "a crash keeps used blocks and makes free the size less them" (Wish 13): by how many blocks have a place before the
/// step and after it.
pub fn accept(service: &mut Service, step: &Step) -> Outcome {
    let (before, reached) = (with_a_place(service), reached_by(service, step));
    let outcome = act(service, step);
    for (file, block) in reached {
        service.server.entries[file].used[block] = true;
    }
    let (store, after) = (in_force(service).store as i64, with_a_place(service));
    let free = (service.server.free.min(store as usize)) as i64;
    if *step == Step::Crash {
        service.server.free = (store - count_used(service)).max(0) as usize;
    } else if before != after {
        service.server.free = (free + before - after).max(0).min(store) as usize;
    }
    outcome
}

/// The blocks that the step brings to the server: by a flush, by an answer that writes back, and by a write without
/// permission.
fn reached_by(service: &Service, step: &Step) -> Vec<(usize, usize)> {
    match *step {
        Step::Write { client, file, block, .. }
            if !service.clients[client as usize].files[file as usize].record.may_cache =>
        {
            vec![(file as usize, block as usize)]
        }
        Step::Flush { file, block, .. } => vec![(file as usize, block as usize)],
        Step::Reply { client, file }
            if service.server.entries[file as usize].waiting.callbacks.0[client as usize] != 2 =>
        {
            let dirty = service.clients[client as usize].files[file as usize].copies.dirty;
            (0..in_force(service).blocks).filter(|&block| dirty[block]).map(|block| (file as usize, block)).collect()
        }
        _ => vec![],
    }
}

fn count_used(service: &Service) -> i64 {
    let Sizes { files, blocks, .. } = in_force(service);
    let used = |file: usize| service.server.entries[file].used[..blocks].iter().filter(|&&used| used).count();
    (0..files).map(used).sum::<usize>() as i64
}

/// Blocks used, and blocks dirty at a station without embargo that has, in recovery, reported.
fn with_a_place(service: &Service) -> i64 {
    let Sizes { clients, files, blocks, .. } = in_force(service);
    let server = &service.server;
    let counts = |station: usize| {
        !server.embargoed.contains(station) && !(server.recovering && !server.reported.contains(station))
    };
    let mut places = 0;
    for file in 0..files {
        for block in 0..blocks {
            let dirty = |station: usize| service.clients[station].files[file].copies.dirty[block];
            let reserved = (0..clients).any(|station| counts(station) && dirty(station));
            places += i64::from(server.entries[file].used[block] || reserved);
        }
    }
    places
}

fn act(service: &mut Service, step: &Step) -> Outcome {
    match *step {
        Step::Open { mode, client, file } => File::of(service, file).open(client as usize, mode),
        Step::Close { mode, client, file } => File::of(service, file).close(client as usize, mode),
        Step::Reply { client, file } => File::of(service, file).reply(client as usize),
        Step::Read { client, file, block } => File::of(service, file).read(client as usize, block as usize),
        Step::Write { client, file, block, value } => {
            File::of(service, file).write(client as usize, block as usize, value)
        }
        Step::Flush { client, file, block } => File::of(service, file).flush(client as usize, block as usize),
        Step::Crash => crash(service),
        Step::Report { client } => report(service, client as usize),
        Step::End => end(service),
        Step::Restart { client } => restart(service, client as usize),
        Step::Embargo { client, .. } => embargo(service, client as usize),
        Step::Lift { client } => lift(service, client as usize),
    }
}

/// "'files' and how many files are not CLOSED or not at version 1, and for each, ascending: file, state code, version,
/// last writer or '-'."
pub fn summary(service: &Service) -> String {
    let Sizes { clients, files, .. } = in_force(service);
    let line = |file: usize| {
        let entry = &service.server.entries[file];
        let (state, version) = (state(clients, entry), entry.version.0.max(1));
        let last_writer = last_writer(clients, entry).map_or("-".into(), |client| client.to_string());
        ((state, version) != (0, 1)).then(|| format!("{file} {state} {version} {last_writer}\n"))
    };
    let lines: Vec<String> = (0..files).filter_map(line).collect();
    format!("files {}\n{}", lines.len(), lines.concat())
}

/// "The server's readers, writers, permissions, last writers, waits and reports are lost; nothing at a station changes;
/// recovery begins."
fn crash(service: &mut Service) -> Outcome {
    let Sizes { clients, files, .. } = in_force(service);
    for entry in &mut service.server.entries[..files] {
        entry.last_writer = ClientField::NONE;
        no_wait(clients, entry);
        entry.records[..clients].fill(Record { readers: 0, writers: 0, may_cache: false });
    }
    no_reports(clients, service);
    service.server.recovering = true;
    Outcome::Done
}

fn no_reports(clients: usize, service: &mut Service) {
    for client in 0..clients {
        service.server.reported = service.server.reported.without(client);
    }
}

fn no_wait(clients: usize, entry: &mut Entry) {
    (entry.waiting.opener, entry.waiting.mode) = (ClientField::NONE, Mode::Read);
    entry.waiting.callbacks.0[..clients].fill(0);
}

/// "A station gives counts, permissions and marks for all files; the table takes them."
fn report(service: &mut Service, client: usize) -> Outcome {
    for file in 0..in_force(service).files {
        let (entry, own) = (&mut service.server.entries[file], &service.clients[client].files[file]);
        entry.records[client] = own.record;
        if own.last_writer_flag {
            entry.last_writer = ClientField(client as u8);
        }
    }
    service.server.reported = service.server.reported.with(client);
    Outcome::Done
}

/// "After eight reports the service runs again": after those of all clients.
fn end(service: &mut Service) -> Outcome {
    no_reports(in_force(service).clients, service);
    service.server.recovering = false;
    Outcome::Done
}

/// "BT .. prints K, then each granted open as after A, by ascending file. During recovery the restart stands as an
/// empty report and supersedes one already given" (Wish 8). "A restart lifts too" (Wish 9).
fn restart(service: &mut Service, client: usize) -> Outcome {
    let mut granted = Vec::new();
    for file in 0..in_force(service).files {
        let brought = File::of(service, file as u64).restart(client);
        granted.extend(brought.map(|(opener, grant)| GrantedOpen { opener, file, grant }));
    }
    embargo_ends(service, client);
    Outcome::Restarted { granted }
}

/// "During recovery .. an empty report."
fn embargo_ends(service: &mut Service, client: usize) {
    if service.server.recovering {
        service.server.reported = service.server.reported.with(client);
    }
    service.server.embargoed = service.server.embargoed.without(client);
}

/// "The server forgets it as in Wish 8, but the station doesn't know. .. EM .. prints A 0, then grants as BT does"
/// (Wish 9).
fn embargo(service: &mut Service, client: usize) -> Outcome {
    let mut granted = Vec::new();
    for file in 0..in_force(service).files {
        let brought = File::of(service, file as u64).forget(client);
        granted.extend(brought.map(|(opener, grant)| GrantedOpen { opener, file, grant }));
    }
    service.server.embargoed = service.server.embargoed.with(client);
    Outcome::Embargoed { granted }
}

/// "Telling it drops all it holds, counts too. .. A lift or restart during recovery is an empty report."
fn lift(service: &mut Service, client: usize) -> Outcome {
    for file in 0..in_force(service).files {
        File::of(service, file as u64).drop_all(client);
    }
    embargo_ends(service, client);
    Outcome::Done
}

/// "A station is open on a file when its readers or writers are above 0."
fn is_open(record: &Record) -> bool {
    (record.readers, record.writers) != (0, 0)
}

/// "A station field of 8 or more reads as none", and so does one past the settings.
fn last_writer(clients: usize, entry: &Entry) -> Option<usize> {
    (0..clients).find(|&client| usize::from(entry.last_writer.0) == client)
}

/// The code of "Names, first that fits".
fn state(clients: usize, entry: &Entry) -> u8 {
    let open: Vec<usize> = (0..clients).filter(|&client| is_open(&entry.records[client])).collect();
    let last_writer = last_writer(clients, entry);
    match open[..] {
        [] if last_writer.is_none() => 0,
        [] => 1,
        _ if open.iter().any(|&client| !entry.records[client].may_cache) => 6,
        [one] if entry.records[one].writers > 0 => 5,
        [one] if last_writer == Some(one) => 3,
        [_] => 2,
        _ => 4,
    }
}

/// "A station already open that opens for read, or that has writers and opens for either, causes no call and keeps its
/// permission."
fn keeps_permission(record: &Record, mode: Mode) -> bool {
    record.writers > 0 || (mode == Mode::Read && record.readers > 0)
}

/// "Otherwise these other stations are called (1 write-back, 2 invalidate, 3 both)."
fn calls(clients: usize, entry: &Entry, opener: usize, mode: Mode) -> [u8; CLIENTS] {
    let (state, last_writer) = (state(clients, entry), last_writer(clients, entry));
    std::array::from_fn(|client| match (state, mode) {
        _ if client >= clients => 0,
        _ if client == opener || keeps_permission(&entry.records[opener], mode) => 0,
        (1 | 3, Mode::Read) if last_writer == Some(client) => 1,
        (1 | 3, Mode::Write) if last_writer == Some(client) => 3,
        (2 | 4, Mode::Write) if is_open(&entry.records[client]) => 2,
        (5, _) if is_open(&entry.records[client]) => 3,
        (6, _) if is_open(&entry.records[client]) && entry.records[client].may_cache => 2,
        _ => 0,
    })
}

/// "Save where permission is kept as above, the opener may cache unless some other station is open with writers, or
/// this is a write open with some other station open, or some station open before the grant, the opener included, may
/// not cache."
fn permission(clients: usize, entry: &Entry, opener: usize, mode: Mode) -> bool {
    let shuts_out = |client: usize| {
        let record = &entry.records[client];
        let shares = client != opener && (record.writers > 0 || mode == Mode::Write);
        is_open(record) && (shares || !record.may_cache)
    };
    let own = &entry.records[opener];
    if keeps_permission(own, mode) { own.may_cache } else { !(0..clients).any(shuts_out) }
}

/// "Close in a mode lowers that count by 1", and "a count of 0 stays 0". "A final close takes its permission away."
/// Gives whether it was "a close of the last writer count with permission".
fn lower(record: &mut Record, mode: Mode) -> bool {
    let last_cached_writer = mode == Mode::Write && record.writers == 1 && record.may_cache;
    let count = if mode == Mode::Read { &mut record.readers } else { &mut record.writers };
    *count -= u8::from(*count > 0);
    record.may_cache &= is_open(record);
    last_cached_writer
}

/// "With permission, the copy is kept when its label equals the latest version, or for a write open the previous one;
/// otherwise its blocks are dropped. The label becomes the latest. Without permission the copy is dropped, label 0. A
/// write open clears the mark."
fn check_copy(blocks: usize, own: &mut ClientFile, mode: Mode, grant: &Grant) {
    let oldest = if mode == Mode::Write { grant.previous } else { grant.latest };
    if !(grant.may_cache && (oldest..=grant.latest).contains(&own.cached_version)) {
        drop_blocks(blocks, own);
    }
    own.cached_version = if grant.may_cache { grant.latest } else { 0 };
    own.last_writer_flag &= mode == Mode::Read;
}

/// "A dropped block is not held, not dirty and zero."
fn drop_blocks(blocks: usize, own: &mut ClientFile) {
    for block in 0..blocks {
        (own.copies.values[block], own.copies.held[block], own.copies.dirty[block]) = (0, false, false);
    }
}

/// One file: the server's end and the clients'.
struct File<'a> {
    sizes: Sizes,
    entry: &'a mut Entry,
    clients: [&'a mut ClientFile; CLIENTS],
}

impl<'a> File<'a> {
    fn of(service: &'a mut Service, file: u64) -> Self {
        let (file, sizes) = (file as usize, in_force(service));
        let clients = service.clients.each_mut().map(|client| &mut client.files[file]);
        File { sizes, entry: &mut service.server.entries[file], clients }
    }

    /// "With no call due the open is granted in that step; else it waits."
    fn open(&mut self, opener: usize, mode: Mode) -> Outcome {
        let clients = self.sizes.clients;
        let kinds = calls(clients, self.entry, opener, mode);
        if kinds == [0; CLIENTS] {
            return Outcome::Granted(self.grant(opener, mode));
        }
        let waiting = &mut self.entry.waiting;
        (waiting.opener, waiting.mode) = (ClientField(opener as u8), mode);
        waiting.callbacks.0[..clients].copy_from_slice(&kinds[..clients]);
        Outcome::Waits(Callbacks(kinds))
    }

    /// "The count of that mode rises by 1. For write, the version rises by 1 and the last writer becomes none. .. The
    /// grant tells latest version, previous (latest less 1) and permission."
    fn grant(&mut self, opener: usize, mode: Mode) -> Grant {
        let may_cache = permission(self.sizes.clients, self.entry, opener, mode);
        let mut latest = self.entry.version.0.max(1);
        if mode == Mode::Write {
            latest = latest.checked_add(1).unwrap_or(latest);
            (self.entry.version, self.entry.last_writer) = (VersionField(latest), ClientField::NONE);
        }
        no_wait(self.sizes.clients, self.entry);
        for record in [&mut self.entry.records[opener], &mut self.clients[opener].record] {
            let count = if mode == Mode::Read { &mut record.readers } else { &mut record.writers };
            *count = count.checked_add(1).unwrap_or(255);
            record.may_cache = may_cache;
        }
        let grant = Grant { latest, previous: latest - 1, may_cache };
        check_copy(self.sizes.blocks, self.clients[opener], mode, &grant);
        grant
    }

    /// "A close of the last writer count with permission sets mark and last writer if a block is dirty, else clears
    /// both" (Wish 4). "A station's own change go[es] by the station's record; .. the table go[es] by the server's."
    fn close(&mut self, client: usize, mode: Mode) -> Outcome {
        let any_dirty = self.any_dirty(client);
        if lower(&mut self.clients[client].record, mode) {
            self.clients[client].last_writer_flag = any_dirty;
        }
        if lower(&mut self.entry.records[client], mode) {
            self.entry.last_writer = if any_dirty { ClientField(client as u8) } else { ClientField::NONE };
        }
        Outcome::Done
    }

    /// Blocks past the settings are not there.
    fn any_dirty(&self, client: usize) -> bool {
        (0..self.sizes.blocks).any(|block| self.clients[client].copies.dirty[block])
    }

    /// "1 sends every dirty block, each then clean and still held, and clears mark and last writer; 2 drops the copy,
    /// label 0, permission gone; 3 is 1, then 2." "Writing back now tells how many blocks it sent" (Wish 5).
    fn reply(&mut self, client: usize) -> Outcome {
        let kind = std::mem::take(&mut self.entry.waiting.callbacks.0[client]);
        let mut sent = 0;
        if kind != 2 {
            for block in 0..self.sizes.blocks {
                if self.clients[client].copies.dirty[block] {
                    self.send(client, block);
                    sent += 1;
                }
            }
            (self.clients[client].last_writer_flag, self.entry.last_writer) = (false, ClientField::NONE);
        }
        if kind != 1 {
            let own = &mut self.clients[client];
            drop_blocks(self.sizes.blocks, own);
            own.cached_version = 0;
            (own.record.may_cache, self.entry.records[client].may_cache) = (false, false);
        }
        Outcome::Replied { sent, granted: self.grant_after_the_last_call() }
    }

    /// Of an open that waits, after a call was replied to: it "is granted in the step in which the last called station
    /// replies".
    fn grant_after_the_last_call(&mut self) -> Option<(usize, Grant)> {
        let (opener, mode) = (usize::from(self.entry.waiting.opener.0), self.entry.waiting.mode);
        let kinds = &self.entry.waiting.callbacks.0[..self.sizes.clients];
        let was_last = !kinds.iter().any(|kind| (1..=3).contains(kind));
        was_last.then(|| (opener, self.grant(opener, mode)))
    }

    /// "Its counts, permissions, marks, copies and any waiting open of its own go at both ends, with the calls of that
    /// open. Then a call on it counts as replied to with no blocks, which may grant opens of others" (Wish 8).
    fn restart(&mut self, client: usize) -> Option<(usize, Grant)> {
        self.drop_all(client);
        self.forget(client)
    }

    /// The client's end.
    fn drop_all(&mut self, client: usize) {
        let own = &mut self.clients[client];
        drop_blocks(self.sizes.blocks, own);
        (own.cached_version, own.last_writer_flag) = (0, false);
        own.record = Record { readers: 0, writers: 0, may_cache: false };
    }

    /// The server's end.
    fn forget(&mut self, client: usize) -> Option<(usize, Grant)> {
        let clients = self.sizes.clients;
        self.entry.records[client] = Record { readers: 0, writers: 0, may_cache: false };
        if last_writer(clients, self.entry) == Some(client) {
            self.entry.last_writer = ClientField::NONE;
        }
        let opener = usize::from(self.entry.waiting.opener.0);
        if opener == client {
            no_wait(clients, self.entry);
        }
        let waits = opener < clients && opener != client;
        if !waits || !matches!(self.entry.waiting.callbacks.0[client], 1..=3) {
            return None;
        }
        if std::mem::take(&mut self.entry.waiting.callbacks.0[client]) != 2 {
            self.entry.last_writer = ClientField::NONE;
        }
        self.grant_after_the_last_call()
    }

    /// "A station that may cache gives the held block, or fetches and holds it. Without permission the server's block
    /// is given and not held."
    fn read(&mut self, client: usize, block: usize) -> Outcome {
        let (own, server) = (&mut self.clients[client], self.entry.blocks[block]);
        if own.record.may_cache && !own.copies.held[block] {
            (own.copies.held[block], own.copies.values[block]) = (true, server);
        }
        Outcome::Value(if own.record.may_cache { own.copies.values[block] } else { server })
    }

    /// "With permission the copy is written, held and dirty; without, the server's block."
    fn write(&mut self, client: usize, block: usize, value: u64) -> Outcome {
        let own = &mut self.clients[client];
        if own.record.may_cache {
            (own.copies.values[block], own.copies.held[block], own.copies.dirty[block]) = (value, true, true);
        } else {
            self.entry.blocks[block] = value;
        }
        Outcome::Done
    }

    /// "The flush of the last dirty block clears the mark and, if the station is last writer, that" (Wish 4).
    fn flush(&mut self, client: usize, block: usize) -> Outcome {
        self.send(client, block);
        if !self.any_dirty(client) {
            self.clients[client].last_writer_flag = false;
            if last_writer(self.sizes.clients, self.entry) == Some(client) {
                self.entry.last_writer = ClientField::NONE;
            }
        }
        Outcome::Done
    }

    /// "One dirty block goes to the server and is clean."
    fn send(&mut self, client: usize, block: usize) {
        self.entry.blocks[block] = self.clients[client].copies.values[block];
        self.clients[client].copies.dirty[block] = false;
    }
}
