//! A step taken by the service, and what is told of it.

use super::{Book, Granted, LostAt, Opening, Place, Reading, Reason, Source, Told};
use crate::rules::Apart;
use crate::{GrantedOpen, Outcome, Service, State, Step, WaitingOpen};

/// Takes the step. The book has the lines before it.
pub fn take(service: &mut Service, book: &Book, step: &Step) -> (Outcome, Told) {
    if let Some(refusal) = service.refusal(step) {
        return (Outcome::Refused(refusal), Told::Refused(Reason::of(service, book, step, refusal)));
    }
    // An accepted step names what is there: its numbers fit.
    let found = Found::by(step, service, book);
    let outcome = service.take::<Apart>(step);
    let told = found.told(service, &outcome);
    (outcome, told)
}

/// What an accepted step finds before it is taken, as far as it is told.
enum Found {
    /// The file's state and the label of the opener's copy.
    Open { opening: Opening, state: State, label: u32 },
    /// The open that waits, and the label of the opener's copy.
    Reply { client: usize, opening: Opening, label: u32 },
    /// Of a restart and an embargo: the files that the client has open, its writes at risk, and of each file the open
    /// that waits, if one does, with the label of the opener's copy.
    Forgotten { client: usize, opened: Vec<usize>, lost: Vec<LostAt>, waiting: Vec<Option<(Opening, u32)>> },
    /// All that is told, found before the step.
    Whole(Told),
}

impl Found {
    fn by(step: &Step, service: &Service, book: &Book) -> Self {
        match *step {
            Step::Open { mode, client, file } => {
                let opening = Opening { client: client as usize, file: file as usize, mode };
                let state = State::of(service.sizes(), &service.server.entries[opening.file]);
                Found::Open { opening, state, label: label(service, opening) }
            }
            Step::Reply { client, file } => {
                let open = waiting(service, file as usize);
                let opening = Opening { client: open.opener, file: file as usize, mode: open.mode };
                Found::Reply { client: client as usize, opening, label: label(service, opening) }
            }
            Step::Close { mode, client, file } => {
                Found::Whole(Told::Closed(Opening { client: client as usize, file: file as usize, mode }))
            }
            Step::Read { client, file, block } => {
                let place = place(client, file, block);
                let (source, origin, lost) = (source(service, book, place), book.origin(place), book.lost(place));
                let embargo = embargo(service, book, place.client);
                Found::Whole(Told::Read(Reading { place, source, origin, lost, embargo }))
            }
            Step::Write { client, file, block, value } => {
                let place = place(client, file, block);
                let in_copy = service.clients[place.client].files[place.file].record.may_cache;
                let embargo = embargo(service, book, place.client);
                Found::Whole(Told::Written { place, value, in_copy, embargo })
            }
            Step::Flush { client, file, block } => Found::Whole(Told::Flushed(place(client, file, block))),
            Step::Crash => Found::Whole(Told::Crashed),
            Step::Report { client } => Found::Whole(Told::Reported { client: client as usize }),
            Step::End => Found::Whole(Told::Ended),
            Step::Restart { client } | Step::Embargo { client, .. } => Found::forgotten(service, book, client as usize),
            Step::Lift { client } => {
                let client = client as usize;
                Found::Whole(Told::Lifted { client, opened: opened(service, client) })
            }
        }
    }

    fn forgotten(service: &Service, book: &Book, client: usize) -> Self {
        let sizes = service.sizes();
        let waiting = |file: usize| {
            let open = service.server.entries[file].waiting.read(sizes)?;
            let opening = Opening { client: open.opener, file, mode: open.mode };
            Some((opening, label(service, opening)))
        };
        Found::Forgotten {
            client,
            opened: opened(service, client),
            lost: book.at_risk(sizes, client),
            waiting: (0..sizes.files).map(waiting).collect(),
        }
    }

    /// What is told of the step, given the service that it leaves.
    fn told(self, service: &Service, outcome: &Outcome) -> Told {
        match (self, outcome) {
            (Found::Open { opening, label, .. }, Outcome::Granted(grant)) => {
                Told::Granted(Granted::of(opening, label, grant))
            }
            (Found::Open { opening, state, .. }, Outcome::Waits(callbacks)) => {
                Told::Waits { opening, state, callbacks: *callbacks }
            }
            (Found::Reply { client, opening, label }, Outcome::Replied { sent, granted: Some((_, grant)) }) => {
                Told::AnsweredLast { client, sent: *sent, granted: Granted::of(opening, label, grant) }
            }
            (Found::Reply { client, opening: Opening { file, .. }, .. }, Outcome::Replied { sent, granted: None }) => {
                Told::Answered { client, file, sent: *sent, still: waiting(service, file).callbacks.clients() }
            }
            (Found::Forgotten { client, opened, lost, waiting }, Outcome::Restarted { granted }) => {
                Told::Restarted { client, opened, lost, granted: grants(&waiting, granted) }
            }
            (Found::Forgotten { client, opened, lost, waiting }, Outcome::Embargoed { granted }) => {
                Told::Embargoed { client, opened, lost, granted: grants(&waiting, granted) }
            }
            (Found::Whole(told), _) => told,
            (_, outcome) => {
                unreachable!("an open, a callback reply, a restart or an embargo with the outcome {outcome:?}")
            }
        }
    }
}

/// What is told of the opens granted, of those that waited.
fn grants(waiting: &[Option<(Opening, u32)>], granted: &[GrantedOpen]) -> Vec<Granted> {
    let told = |GrantedOpen { file, grant, .. }: &GrantedOpen| {
        let (opening, label) = waiting[*file].expect("an open that is granted has waited");
        Granted::of(opening, label, grant)
    };
    granted.iter().map(told).collect()
}

/// The files that the client has open, by its own record.
fn opened(service: &Service, client: usize) -> Vec<usize> {
    let is_open = |file: &usize| service.clients[client].files[*file].record.is_open();
    (0..service.sizes().files).filter(is_open).collect()
}

/// The line that put the client under embargo, if it is.
fn embargo(service: &Service, book: &Book, client: usize) -> Option<u64> {
    service.server.embargoed.contains(client).then(|| book.embargoed_since(client))
}

/// The open of which a callback is out.
fn waiting(service: &Service, file: usize) -> WaitingOpen {
    service.server.entries[file].waiting.read(service.sizes()).expect("a callback is out while an open waits")
}

fn place(client: u64, file: u64, block: u64) -> Place {
    Place { client: client as usize, file: file as usize, block: block as usize }
}

fn label(service: &Service, Opening { client, file, .. }: Opening) -> u32 {
    service.clients[client].files[file].cached_version
}

/// "Its own copy" is told if the client may cache and holds the block.
fn source(service: &Service, book: &Book, place: Place) -> Source {
    let file = &service.clients[place.client].files[place.file];
    match (file.record.may_cache, file.copies.held[place.block]) {
        (true, true) => Source::OwnCopy { dirty: file.copies.dirty[place.block], since: book.copied(place) },
        (true, false) => Source::Fetched,
        (false, _) => Source::Server,
    }
}
