//! "Who can cause a refusal", read once more and apart from the model: the numbers that each step tests, and what each
//! number says of a service and a step.

use model::{ClientFile, Entry, Mode, Record, Service, Sizes, Step};

use crate::sizes::in_force;

/// The lowest number of the step's list that holds.
pub fn lowest(service: &Service, step: &Step) -> Option<usize> {
    tested(step).iter().copied().find(|&number| holds(number, service, step))
}

/// "Open tests 2, 3, 5, 9, 12, 14; close 2, 3, 5, 9, 11; read and write 2, 3, 4, 5, 11; flush 2, 3, 4, 5, 13; reply 2,
/// 3, 5, 10; report 2, 6, 7; end 6, 8; crash none." "BT tests 2 only" (Wish 8). "EM is tested as a reply is, never by
/// 20 ..; LF tests 2 and 21. 20 when an embargoed station's step other than BT or LF needs the server (any but a read
/// or write does), after 4" (Wish 9). "22 when a report .. breaks one of these, after 7" (Wish 10). "23 when such a write
/// finds nothing free, and only then, last of all" (Wish 13).
fn tested(step: &Step) -> &'static [usize] {
    match step {
        Step::Open { .. } => &[2, 3, 20, 5, 9, 12, 14],
        Step::Close { .. } => &[2, 3, 20, 5, 9, 11],
        Step::Read { .. } => &[2, 3, 4, 20, 5, 11],
        Step::Write { .. } => &[2, 3, 4, 20, 5, 11, 23],
        Step::Flush { .. } => &[2, 3, 4, 20, 5, 13],
        Step::Reply { .. } => &[2, 3, 20, 5, 10],
        Step::Embargo { .. } => &[2, 3, 5, 10],
        Step::Report { .. } => &[2, 20, 6, 7, 22],
        Step::End => &[6, 8],
        Step::Crash => &[],
        Step::Restart { .. } => &[2],
        Step::Lift { .. } => &[2, 21],
    }
}

/// A number above 4 is asked for only where 2, 3 and 4 do not hold.
fn holds(number: usize, service: &Service, step: &Step) -> bool {
    let Numbers { client, file, block } = Numbers::of(step);
    let Sizes { clients, files, blocks, store } = in_force(service);
    let at = || Place::of(service, client as usize, file as usize);
    match number {
        2 => client >= clients as u64,
        3 => file >= files as u64,
        4 => block >= blocks as u64,
        5 => service.server.recovering && recovery_stops(service, step),
        6 => !service.server.recovering,
        7 => service.server.reported.contains(client as usize),
        8 => (0..clients).any(|client| !service.server.reported.contains(client) && !is_embargoed(service, client)),
        9 => at().open_waits(),
        10 => !at().is_called(client as usize),
        11 => !is_open_as_needed(&at().own.record, step),
        12 => count(&at().own.record, mode(step)) == 255,
        13 => !at().own.copies.dirty[block as usize],
        14 => mode(step) == Mode::Write && at().entry.version.0 == 4_294_967_295,
        20 => is_embargoed(service, client as usize) && needs_server(service, step),
        21 => !is_embargoed(service, client as usize),
        22 => report_cannot_be_true(service, client as usize),
        23 => takes_a_place(service, step) && service.server.free.min(store) == 0,
        _ => unreachable!("no step tests {number}"),
    }
}

/// The numbers of a step; 0 where it has none.
struct Numbers {
    client: u64,
    file: u64,
    block: u64,
}

impl Numbers {
    fn of(step: &Step) -> Self {
        let (client, file, block) = match *step {
            Step::Open { client, file, .. } | Step::Close { client, file, .. } => (client, file, 0),
            Step::Reply { client, file } | Step::Embargo { client, file } => (client, file, 0),
            Step::Read { client, file, block } | Step::Flush { client, file, block } => (client, file, block),
            Step::Write { client, file, block, .. } => (client, file, block),
            Step::Report { client } | Step::Restart { client } | Step::Lift { client } => (client, 0, 0),
            Step::Crash | Step::End => (0, 0, 0),
        };
        Numbers { client, file, block }
    }
}

/// A file at the server and at the client of the step.
struct Place<'a> {
    clients: usize,
    entry: &'a Entry,
    own: &'a ClientFile,
}

impl<'a> Place<'a> {
    fn of(service: &'a Service, client: usize, file: usize) -> Self {
        let (entry, own) = (&service.server.entries[file], &service.clients[client].files[file]);
        Place { clients: in_force(service).clients, entry, own }
    }

    fn open_waits(&self) -> bool {
        usize::from(self.entry.waiting.opener.0) < self.clients
    }

    fn is_called(&self, client: usize) -> bool {
        self.open_waits() && (1..=3).contains(&self.entry.waiting.callbacks.0[client])
    }
}

/// "For reads and writes 5 holds during recovery if the station has reported, or if the step needs the server: a read
/// unless the station is open, may cache and holds the block; a write unless it has writers and may cache. For the
/// other steps 5 holds throughout recovery."
fn recovery_stops(service: &Service, step: &Step) -> bool {
    match *step {
        Step::Read { client, .. } | Step::Write { client, .. } => {
            service.server.reported.contains(client as usize) || needs_server(service, step)
        }
        _ => true,
    }
}

/// "The step needs the server: a read unless the station is open, may cache and holds the block; a write unless it has
/// writers and may cache", and "any but a read or write does" (Wish 9). A write that takes a place, "cached too, needs the
/// server" (Wish 13).
fn needs_server(service: &Service, step: &Step) -> bool {
    let Numbers { client, file, block } = Numbers::of(step);
    let own = || &service.clients[client as usize].files[file as usize];
    match step {
        Step::Read { .. } => {
            let Record { readers, writers, may_cache } = own().record;
            !((readers > 0 || writers > 0) && may_cache && own().copies.held[block as usize])
        }
        Step::Write { .. } => {
            let in_its_copy = own().record.writers > 0 && own().record.may_cache;
            !in_its_copy || takes_a_place(service, step)
        }
        _ => true,
    }
}

/// "A write to a block neither used, reserved nor dirty there takes one free place." "Reserved: dirty blocks not used, at
/// stations without embargo" (Wish 13).
fn takes_a_place(service: &Service, step: &Step) -> bool {
    let Numbers { client, file, block } = Numbers::of(step);
    let (file, block) = (file as usize, block as usize);
    let dirty = |station: usize| service.clients[station].files[file].copies.dirty[block];
    let used = service.server.entries[file].used[block];
    let reserved = !used && (0..in_force(service).clients).any(|other| dirty(other) && !is_embargoed(service, other));
    !(used || reserved || dirty(client as usize))
}

fn is_embargoed(service: &Service, client: usize) -> bool {
    service.server.embargoed.contains(client)
}

/// "11 not open in the mode needed (a read needs either)."
fn is_open_as_needed(own: &Record, step: &Step) -> bool {
    match step {
        Step::Read { .. } => own.readers > 0 || own.writers > 0,
        Step::Write { .. } => own.writers > 0,
        _ => count(own, mode(step)) > 0,
    }
}

fn mode(step: &Step) -> Mode {
    match *step {
        Step::Open { mode, .. } | Step::Close { mode, .. } => mode,
        _ => unreachable!("{step:?} has no mode"),
    }
}

fn count(record: &Record, mode: Mode) -> u8 {
    if mode == Mode::Read { record.readers } else { record.writers }
}

/// What is known of one station on one file.
#[derive(Clone, Copy)]
pub struct Known {
    open: bool,
    writes: bool,
    may_cache: bool,
    marked: bool,
}

impl Known {
    fn of(record: &Record, marked: bool) -> Self {
        let Record { readers, writers, may_cache } = *record;
        Known { open: readers != 0 || writers != 0, writes: writers != 0, may_cache, marked }
    }

    /// What the server has taken from the report of this station.
    pub fn accepted(service: &Service, file: usize, station: usize) -> Self {
        let entry = &service.server.entries[file];
        Known::of(&entry.records[station], usize::from(entry.last_writer.0) == station)
    }
}

/// "No file has permission at a station that isn't open; a mark at a station with writers, or open without permission; a
/// marked station and another open or marked; or a station with writers and another that may cache" (Wish 10): of all
/// these stations together.
pub fn can_be_true(stations: &[Known]) -> bool {
    if stations.is_empty() {
        return true;
    }
    let count = |has: fn(&Known) -> bool| stations.iter().filter(|station| has(station)).count();
    let (open, marked) = (count(|station| station.open), count(|station| station.marked));
    let marked_and_open = count(|station| station.marked && station.open);
    let (writing, caching) = (count(|station| station.writes), count(|station| station.may_cache));
    let writing_and_caching = count(|station| station.writes && station.may_cache);
    let closed_with_permission = count(|station| !station.open && station.may_cache);
    let marked_writers = count(|station| station.marked && station.writes);
    let marked_and_open_without = count(|station| station.marked && station.open && !station.may_cache);
    let mark_beside_another = marked > 1 || marked == 1 && open > marked_and_open;
    // One that writes and caches is no other to itself.
    let writer_beside_cacher = writing * caching > writing_and_caching;
    closed_with_permission + marked_writers + marked_and_open_without == 0
        && !mark_beside_another
        && !writer_beside_cacher
}

/// "22 when a report, alone or with one accepted, breaks one of these." DECISIONS: "A client that says nothing of a file"
/// breaks nothing there.
fn report_cannot_be_true(service: &Service, client: usize) -> bool {
    let Sizes { clients, files, .. } = in_force(service);
    for file in 0..files {
        let own = &service.clients[client].files[file];
        let own = Known::of(&own.record, own.last_writer_flag);
        if !(own.open || own.may_cache || own.marked) {
            continue;
        }
        if !can_be_true(&[own]) {
            return true;
        }
        for other in (0..clients).filter(|&other| service.server.reported.contains(other)) {
            if !can_be_true(&[own, Known::accepted(service, file, other)]) {
                return true;
            }
        }
    }
    false
}
