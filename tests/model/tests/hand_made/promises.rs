//! What holds of every step from every service, hand-made or not.

use model::{
    CLIENTS, Callbacks, ClientField, ClientFile, Copies, Document01, Entry, FILES, Grant, Mode, Outcome, Record,
    Service, Settings, Sizes, Step, VersionField,
};

use crate::sizes::{in_force, with_past_of};
use crate::{plain, refusals};

/// A step, and the service before and after it.
pub struct Taken {
    pub before: Service,
    pub step: Step,
    pub outcome: Outcome,
    pub after: Service,
}

impl Taken {
    pub fn from(before: Service, step: Step) -> Self {
        let mut after = before.clone();
        let outcome = after.take::<Document01>(&step);
        Taken { before, step, outcome, after }
    }

    fn sizes(&self) -> Sizes {
        in_force(&self.before)
    }

    /// The client and the file of the step, if both exist.
    fn place(&self) -> Option<(usize, usize)> {
        self.step.existing_place(self.sizes())
    }

    /// The refusal's number.
    fn refusal(&self) -> Option<usize> {
        match self.outcome {
            Outcome::Refused(refusal) => Some(refusal.number()),
            _ => None,
        }
    }

    /// The openers that are granted in this step, each with its file.
    fn granted(&self) -> Vec<(usize, usize)> {
        match (&self.outcome, self.place()) {
            (Outcome::Granted(_), Some(place)) => vec![place],
            (Outcome::Replied { granted: Some((opener, _)), .. }, Some((_, file))) => vec![(*opener, file)],
            (Outcome::Restarted { granted } | Outcome::Embargoed { granted }, _) => {
                granted.iter().map(|open| (open.opener, open.file)).collect()
            }
            _ => vec![],
        }
    }

    /// The client that has restarted.
    fn restarted(&self) -> Option<usize> {
        match self.step {
            Step::Restart { client } if self.refusal().is_none() => Some(client as usize),
            _ => None,
        }
    }

    /// The client that is put under embargo.
    fn put_aside(&self) -> Option<usize> {
        match self.step {
            Step::Embargo { client, .. } if self.refusal().is_none() => Some(client as usize),
            _ => None,
        }
    }

    /// The client that is told of its embargo.
    fn told(&self) -> Option<usize> {
        match self.step {
            Step::Lift { client } if self.refusal().is_none() => Some(client as usize),
            _ => None,
        }
    }

    fn touches(&self, client: usize, file: usize) -> bool {
        let emptied = self.restarted().or(self.told()) == Some(client) && file < self.sizes().files;
        let named = self.place() == Some((client, file)) && self.put_aside().is_none();
        emptied || named || self.granted().contains(&(client, file))
    }
}

/// Gives the first promise that this step breaks.
pub fn broken(taken: &Taken) -> Option<&'static str> {
    PROMISES.iter().find(|(_, holds)| !holds(taken)).map(|(promise, _)| *promise)
}

type Promise = fn(&Taken) -> bool;

const PROMISES: [(&str, Promise); 23] = [
    ("refusals are tested in number order, lowest first", |taken| {
        taken.refusal() == refusals::lowest(&taken.before, &taken.step)
    }),
    ("a refused step leaves server and clients as they came", |taken| {
        taken.refusal().is_none() || taken.after == taken.before
    }),
    ("an accepted step does what document 01 says of it", |taken| {
        let mut after = taken.before.clone();
        taken.refusal().is_some() || (plain::accept(&mut after, &taken.step) == taken.outcome && after == taken.after)
    }),
    ("a step gets a reply of its own form", has_its_form),
    ("at a crash, a report and an end nothing at a client changes", |taken| {
        let whole_table = matches!(taken.step, Step::Crash | Step::Report { .. } | Step::End);
        !whole_table || taken.after.clients == taken.before.clients
    }),
    ("a client that has restarted has nothing left, at both ends", |taken| {
        let left = |client| has_nothing_left(taken, client) && has_nothing_at_the_server(taken, client);
        taken.restarted().is_none_or(left)
    }),
    ("a client that is put under embargo has nothing left at the server, and keeps what it has", |taken| {
        taken.put_aside().is_none_or(|client| {
            let granted = taken.granted().into_iter().any(|(opener, _)| opener == client);
            has_nothing_at_the_server(taken, client)
                && !granted
                && taken.after.clients[client] == taken.before.clients[client]
        })
    }),
    ("a client that is told of its embargo has nothing left, and the table stays", |taken| {
        let (after, before) = (&taken.after.server.entries, &taken.before.server.entries);
        taken.told().is_none_or(|client| has_nothing_left(taken, client) && after == before)
    }),
    ("an embargo begins with EM and ends with LF or BT, and no other step changes it", |taken| {
        let before = taken.before.server.embargoed;
        let begun = taken.put_aside().map_or(before, |client| before.with(client));
        let left = taken.told().or(taken.restarted()).map_or(begun, |client| begun.without(client));
        taken.after.server.embargoed == left
    }),
    ("a lift counts as a report while the server recovers, and an embargo leaves recovery and reports", |taken| {
        let (server, before) = (&taken.after.server, &taken.before.server);
        let reported = taken.told().filter(|_| before.recovering).map_or(before.reported, |c| before.reported.with(c));
        taken.told().or(taken.put_aside()).is_none()
            || (server.recovering, server.reported) == (before.recovering, reported)
    }),
    ("no step of a client under embargo reaches the server, but a restart", |taken| {
        let embargoed = |client: u64| taken.before.server.embargoed.contains(client as usize);
        match taken.step {
            Step::Read { client, .. } | Step::Write { client, .. } if embargoed(client) => {
                taken.after.server == taken.before.server
            }
            Step::Open { client, .. } | Step::Close { client, .. } | Step::Reply { client, .. } => {
                !embargoed(client) || taken.refusal().is_some()
            }
            Step::Flush { client, .. } | Step::Report { client } => !embargoed(client) || taken.refusal().is_some(),
            _ => true,
        }
    }),
    (
        "a restart counts as a report while the server recovers, and leaves the blocks, recovery and other reports",
        |taken| {
            let (server, before) = (&taken.after.server, &taken.before.server);
            let mut entries = server.entries.iter().zip(&before.entries);
            taken.restarted().is_none_or(|client| {
                let reported = if before.recovering { before.reported.with(client) } else { before.reported };
                (server.recovering, server.reported) == (before.recovering, reported)
                    && entries.all(|(after, before)| after.blocks == before.blocks)
            })
        },
    ),
    ("versions, blocks and which are used survive a crash; the rest does not", |taken| {
        let Sizes { clients, files, .. } = taken.sizes();
        let survives = |(after, before): (&Entry, &Entry)| {
            let lost = after.records[..clients].iter().all(|record| *record == Record::default());
            let kept = (after.version, after.blocks, after.used) == (before.version, before.blocks, before.used);
            lost && kept && after.last_writer == ClientField::NONE && nothing_waits(clients, after)
        };
        let (server, before) = (&taken.after.server, &taken.before.server);
        let mut entries = server.entries[..files].iter().zip(&before.entries);
        taken.step != Step::Crash || server.recovering && entries.all(survives)
    }),
    ("a step on a file leaves the other files and the other clients alone", leaves_the_rest_alone),
    ("a read and a write leave the table as it is, and a flush all but its own last writer", leaves_the_table),
    (
        "an answer tells as many blocks as were dirty before it and are not after it, and an invalidation none",
        |taken| {
            let Outcome::Replied { sent, .. } = taken.outcome else { return true };
            sent == sent_by(taken)
        },
    ),
    ("after a grant no open waits and no callback is out", |taken| {
        let after = |file| nothing_waits(taken.sizes().clients, &taken.after.server.entries[file]);
        taken.granted().into_iter().all(|(_, file)| after(file))
    }),
    ("no block that was used is not used any more", |taken| {
        let pairs = taken.before.server.entries.iter().zip(&taken.after.server.entries);
        pairs.flat_map(|(before, after)| before.used.iter().zip(after.used)).all(|(&before, after)| !before || after)
    }),
    ("a closed, a read, a lift, an end and a wait leave the free places", |taken| {
        let leaves = match taken.step {
            Step::Close { .. } | Step::Read { .. } | Step::Lift { .. } | Step::End | Step::Flush { .. } => true,
            Step::Open { .. } => matches!(taken.outcome, Outcome::Waits(_)),
            _ => false,
        };
        !leaves || taken.after.server.free == taken.before.server.free
    }),
    ("a write takes one place or none", |taken| {
        let store = taken.sizes().store;
        let [before, after] = [&taken.before, &taken.after].map(|service| service.server.free.min(store));
        !matches!(taken.step, Step::Write { .. }) || before == after || before == after + 1
    }),
    ("a client field past the clients reads as none, a version of 0 as 1, a kind above 3 as no callback", |taken| {
        let plain = Taken::from(as_read(&taken.before), taken.step);
        plain.outcome == taken.outcome && as_read(&plain.after) == as_read(&taken.after)
    }),
    ("a step leaves the settings, and what lies past them, as they came", |taken| {
        taken.after.settings == taken.before.settings && with_past_of(&taken.after, &taken.before) == taken.after
    }),
    ("what lies past the settings is not looked at", |taken| {
        let nothing_past = with_past_of(&taken.before, &Service::fresh());
        let without = Taken::from(nothing_past, taken.step);
        without.outcome == taken.outcome && with_past_of(&without.after, &taken.before) == taken.after
    }),
];

fn nothing_waits(clients: usize, entry: &Entry) -> bool {
    let none = (entry.waiting.opener, entry.waiting.mode) == (ClientField::NONE, Mode::Read);
    none && entry.waiting.callbacks.0[..clients].iter().all(|&kind| kind == 0)
}

/// "G latest previous permission; or W and each call; or V value; or N refusal; or A, followed, if an open was granted,
/// by its station and its G fields; else K." With A comes the number of blocks that were sent, as many as there are at
/// the most (Wishes 5 and 7).
fn has_its_form(taken: &Taken) -> bool {
    let Sizes { clients, files, blocks, .. } = taken.sizes();
    let granted_well = |opener: usize, grant: &Grant| opener < clients && grant.previous + 1 == grant.latest;
    match (taken.step, &taken.outcome) {
        (_, Outcome::Refused(_)) => taken.step != Step::Crash,
        (Step::Open { .. }, Outcome::Granted(grant)) => grant.previous + 1 == grant.latest,
        (Step::Open { client, .. }, Outcome::Waits(Callbacks(kinds))) => {
            let (called, past) = kinds.split_at(clients);
            called.iter().any(|&kind| kind > 0)
                && called[client as usize] == 0
                && called.iter().all(|&kind| kind <= 3)
                && past.iter().all(|&kind| kind == 0)
        }
        (Step::Reply { .. }, Outcome::Replied { sent, granted }) => {
            *sent <= blocks && granted.is_none_or(|(opener, grant)| granted_well(opener, &grant))
        }
        (Step::Restart { client }, Outcome::Restarted { granted })
        | (Step::Embargo { client, .. }, Outcome::Embargoed { granted }) => {
            granted.is_sorted_by(|one, next| one.file < next.file)
                && granted.iter().all(|open| {
                    open.file < files && open.opener != client as usize && granted_well(open.opener, &open.grant)
                })
        }
        (Step::Read { .. }, Outcome::Value(_)) => true,
        (Step::Open { .. } | Step::Reply { .. } | Step::Read { .. }, _) => false,
        (Step::Restart { .. } | Step::Embargo { .. }, _) => false,
        (_, outcome) => *outcome == Outcome::Done,
    }
}

/// A restart and an embargo leave the other clients alone save those that they grant an open.
fn leaves_the_rest_alone(taken: &Taken) -> bool {
    let (before, after) = (&taken.before, &taken.after);
    let same_entry = |other| after.server.entries[other] == before.server.entries[other];
    let same_end = |client: usize, file: usize| after.clients[client].files[file] == before.clients[client].files[file];
    let same_ends =
        (0..CLIENTS).all(|client| (0..FILES).all(|file| taken.touches(client, file) || same_end(client, file)));
    let on_all_files = taken.restarted().or(taken.put_aside()).or(taken.told()).is_some();
    let Some((_, file)) = taken.place().filter(|_| !on_all_files) else { return !on_all_files || same_ends };
    same_ends
        && (0..FILES).all(|other| other == file || same_entry(other))
        && (after.server.recovering, after.server.reported) == (before.server.recovering, before.server.reported)
}

fn leaves_the_table(taken: &Taken) -> bool {
    let (Step::Read { .. } | Step::Write { .. } | Step::Flush { .. }) = taken.step else { return true };
    let Some((client, file)) = taken.place() else { return true };
    let (before, after) = (&taken.before.server.entries[file], &taken.after.server.entries[file]);
    let flushed = matches!(taken.step, Step::Flush { .. }) && before.last_writer == ClientField(client as u8);
    let last_writer = if flushed { after.last_writer } else { before.last_writer };
    *after == Entry { blocks: after.blocks, used: after.used, last_writer, ..before.clone() }
}

/// Of the files and blocks in force.
fn has_nothing_at_the_server(taken: &Taken, client: usize) -> bool {
    let Sizes { clients, files, .. } = taken.sizes();
    let at_server = |entry: &Entry| {
        let named = [entry.last_writer, entry.waiting.opener].contains(&ClientField(client as u8));
        let waits = usize::from(entry.waiting.opener.0) < clients;
        let called = waits && (1..=3).contains(&entry.waiting.callbacks.0[client]);
        entry.records[client] == Record::default() && !named && !called
    };
    taken.after.server.entries[..files].iter().all(at_server)
}

/// Of the files and blocks in force.
fn has_nothing_left(taken: &Taken, client: usize) -> bool {
    let Sizes { files, blocks, .. } = taken.sizes();
    let own = |file: &ClientFile| {
        let Copies { values, held, dirty } = &file.copies;
        let dropped = |block: usize| (values[block], held[block], dirty[block]) == (0, false, false);
        (file.record, file.last_writer_flag, file.cached_version) == (Record::default(), false, 0)
            && (0..blocks).all(dropped)
    };
    taken.after.clients[client].files[..files].iter().all(own)
}

/// The blocks that an answer has made clean, if its callback asked for them.
fn sent_by(taken: &Taken) -> usize {
    let Some((client, file)) = taken.place() else { return 0 };
    let kind = taken.before.server.entries[file].waiting.callbacks.0[client];
    let dirty = |service: &Service, block| service.clients[client].files[file].copies.dirty[block];
    let cleaned = |&block: &usize| dirty(&taken.before, block) && !dirty(&taken.after, block);
    if kind == 2 { 0 } else { (0..taken.sizes().blocks).filter(cleaned).count() }
}

/// The same service with every field stored as it reads.
fn as_read(service: &Service) -> Service {
    let mut read = service.clone();
    let Sizes { clients, files, blocks, store } = in_force(service);
    let [set_clients, set_files, set_blocks, set_store] = [clients, files, blocks, store].map(|size| size as u64);
    read.settings = Settings { clients: set_clients, files: set_files, blocks: set_blocks, store: set_store };
    read.server.free = read.server.free.min(store);
    for entry in &mut read.server.entries[..files] {
        entry.version = VersionField(entry.version.0.max(1));
        if usize::from(entry.last_writer.0) >= clients {
            entry.last_writer = ClientField::NONE;
        }
        let waits = usize::from(entry.waiting.opener.0) < clients;
        let kinds = &mut entry.waiting.callbacks.0[..clients];
        kinds.iter_mut().filter(|kind| !waits || **kind > 3).for_each(|kind| *kind = 0);
        if !waits {
            (entry.waiting.opener, entry.waiting.mode) = (ClientField::NONE, Mode::Read);
        }
    }
    read
}
