//! The picture of the service at the end of a run, and its words.

use std::io::{Result, Write};

use super::{Book, LostAt, Place, Places, Waiting};
use crate::printer::Printer;
use crate::text::Text;
use crate::{BLOCKS, ClientFile, ClientSet, Record, Refusal, Service, Sizes, State};

#[derive(Clone, PartialEq, Eq, Debug)]
pub struct Picture {
    /// In a recovery: the clients still to report.
    pub recovering: Option<ClientSet>,
    pub places: Places,
    /// As it is read.
    pub free: usize,
    /// The clients under embargo, ascending.
    pub embargoed: Vec<EmbargoPicture>,
    /// Those that are told, ascending.
    pub files: Vec<FilePicture>,
    /// How often each refusal was given, by its number.
    pub refusals: [u64; Refusal::LAST_NUMBER + 1],
}

#[derive(Clone, PartialEq, Eq, Debug)]
pub struct EmbargoPicture {
    pub client: usize,
    /// The line that put it there, 0 if an image did.
    pub since: u64,
    /// Its dirty blocks, by file and block, each with the line at which its copy was written.
    pub lost: Vec<LostAt>,
}

/// A file by the server's entry, and what the clients have of it.
#[derive(Clone, PartialEq, Eq, Debug)]
pub struct FilePicture {
    pub file: usize,
    pub state: State,
    pub version: u32,
    pub last_writer: Option<usize>,
    /// Those that have it open or hold a block of it, ascending.
    pub clients: Vec<ClientPicture>,
    pub waiting: Option<Waiting>,
}

/// A client by its own record.
#[derive(Clone, PartialEq, Eq, Debug)]
pub struct ClientPicture {
    pub client: usize,
    pub record: Record,
    pub held: Vec<usize>,
    pub dirty: Vec<usize>,
}

impl Picture {
    pub fn of(service: &Service, book: &Book, refusals: [u64; Refusal::LAST_NUMBER + 1]) -> Self {
        let sizes = service.sizes();
        let server = &service.server;
        let embargoed = server.embargoed.and(sizes.client_set());
        Picture {
            recovering: server.recovering.then(|| server.reports_missing(sizes)),
            places: Places::of(service),
            free: server.free_places(sizes),
            embargoed: embargoed.members().map(|client| EmbargoPicture::of(service, book, client)).collect(),
            files: (0..sizes.files).filter_map(|file| FilePicture::of(service, book, file)).collect(),
            refusals,
        }
    }

    pub fn print(&self, printer: &mut Printer<impl Write>) -> Result<()> {
        match self.recovering {
            None => printer.line(|text| text.words("the server runs"))?,
            Some(to_report) => printer.line(|text| text.recovers(to_report))?,
        }
        printer.line(|text| text.places_told(&self.places, self.free))?;
        for embargoed in &self.embargoed {
            printer.long_line(|text| text.embargo_told(embargoed))?;
        }
        for file in &self.files {
            file.print(printer)?;
        }
        let mut given = self.refusals.iter().enumerate().filter(|(_, times)| **times > 0).peekable();
        if given.peek().is_none() {
            printer.line(|text| text.words("nothing was refused"))?;
        }
        given.try_for_each(|(number, times)| printer.line(|text| text.refused(number, *times)))?;
        printer.line(|text| text.words("end of the picture"))
    }
}

impl EmbargoPicture {
    fn of(service: &Service, book: &Book, client: usize) -> Self {
        let sizes = service.sizes();
        let places =
            (0..sizes.files).flat_map(|file| (0..sizes.blocks).map(move |block| Place { client, file, block }));
        let dirty = places.filter(|place| service.clients[client].files[place.file].copies.dirty[place.block]);
        let lost = dirty.map(|place| LostAt { file: place.file, block: place.block, line: book.copied(place) });
        EmbargoPicture { client, since: book.embargoed_since(client), lost: lost.collect() }
    }
}

impl FilePicture {
    /// None if nothing is told of the file.
    fn of(service: &Service, book: &Book, file: usize) -> Option<Self> {
        let sizes = service.sizes();
        let entry = &service.server.entries[file];
        let of_client = |client: usize| ClientPicture::of(sizes, client, &service.clients[client].files[file]);
        let picture = FilePicture {
            file,
            state: State::of(sizes, entry),
            version: entry.version.read(),
            last_writer: entry.last_writer.read(sizes),
            clients: (0..sizes.clients).filter_map(of_client).collect(),
            waiting: Waiting::on(service, book, file),
        };
        let is_told = picture.state != State::Closed || picture.version != 1 || !picture.clients.is_empty();
        is_told.then_some(picture)
    }

    fn print(&self, printer: &mut Printer<impl Write>) -> Result<()> {
        printer.line(|text| text.file_told(self))?;
        for client in &self.clients {
            printer.line(|text| text.client_told(client))?;
        }
        self.waiting.as_ref().map_or(Ok(()), |waiting| {
            printer.line(|text| {
                text.words("  ");
                text.waiting(waiting);
            })
        })
    }
}

impl ClientPicture {
    /// None if nothing is told of the client.
    fn of(sizes: Sizes, client: usize, file: &ClientFile) -> Option<Self> {
        let those = |has: &[bool; BLOCKS]| (0..sizes.blocks).filter(|&block| has[block]).collect();
        let (held, dirty): (Vec<usize>, _) = (those(&file.copies.held), those(&file.copies.dirty));
        let is_told = file.record.is_open() || !held.is_empty();
        is_told.then_some(ClientPicture { client, record: file.record, held, dirty })
    }
}

impl Text<'_> {
    fn places_told(&mut self, places: &Places, free: usize) {
        self.places(places);
        self.words("; free: ");
        self.count(free);
    }

    fn embargo_told(&mut self, told: &EmbargoPicture) {
        self.station(told.client);
        self.is_under_embargo(told.since);
        self.writes_lost(&told.lost);
    }

    fn file_told(&mut self, told: &FilePicture) {
        self.words("file ");
        self.count(told.file);
        self.words(" is ");
        self.words(told.state.name());
        self.words(" at version ");
        self.number(told.version.into());
        self.words("; last writer:");
        self.list(told.last_writer);
    }

    fn client_told(&mut self, told: &ClientPicture) {
        self.words("  ");
        self.station(told.client);
        self.words(": read opens ");
        self.number(told.record.readers.into());
        self.words(", write opens ");
        self.number(told.record.writers.into());
        self.words(", ");
        self.permission(told.record.may_cache);
        self.words("; blocks held:");
        self.list(told.held.iter().copied());
        self.words("; dirty:");
        self.list(told.dirty.iter().copied());
    }

    fn refused(&mut self, number: usize, times: u64) {
        self.words("refused with ");
        self.count(number);
        self.words(": ");
        self.number(times);
    }
}
