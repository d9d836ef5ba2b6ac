//! The image of the server (document 02, Wish 2), written into a lent buffer and read again. It begins with the sizes
//! in force, one byte each (Wish 7), and the size of the store in two (Wish 13); then come four sections, each after its
//! count, the last of them of the clients under embargo (Wish 9).

use crate::{BLOCKS, CLIENTS, ClientSet, FILES, Record, Refusal, Service, Settings, Sizes};

/// Bytes of the sizes: clients, files, blocks and the store.
pub const SIZES_BYTES: usize = 5;
/// Bytes of a count: "two bytes, low byte first".
pub const COUNT_BYTES: usize = 2;
/// Bytes of an entry of each section: files, opens, blocks, embargoes.
pub const ENTRY_BYTES: [usize; 4] = [6, 5, 10, 1];
/// With the largest sizes and every entry listed.
pub const LONGEST_IMAGE: usize = SIZES_BYTES
    + ENTRY_BYTES.len() * COUNT_BYTES
    + FILES * ENTRY_BYTES[0]
    + FILES * CLIENTS * ENTRY_BYTES[1]
    + FILES * BLOCKS * ENTRY_BYTES[2]
    + CLIENTS * ENTRY_BYTES[3];

/// "Last writer or 255."
const NO_LAST_WRITER: u8 = 255;

impl Service {
    /// "Writing tests 5, 15, 16." Gives the length; bytes past it stay, and on a refusal the whole buffer does.
    pub fn write_image(&self, buffer: &mut [u8]) -> Result<usize, Refusal> {
        let sizes = self.sizes();
        if self.server.recovering {
            return Err(Refusal::Recovering);
        }
        if self.server.entries[..sizes.files].iter().any(|entry| entry.waiting.read(sizes).is_some()) {
            return Err(Refusal::OpenWaitsAtWriting);
        }
        let image = self.image();
        let room = buffer.get_mut(..image.len()).ok_or(Refusal::BufferTooShort)?;
        room.copy_from_slice(&image);
        Ok(image.len())
    }

    /// "Reading tests 17 only." Takes versions, blocks, used ones and embargoes and is otherwise a crash.
    pub fn read_image(&mut self, bytes: &[u8]) -> Result<(), Refusal> {
        let sizes = self.sizes();
        let contents = Contents::read(sizes, bytes).ok_or(Refusal::NoImage)?;
        self.server.set_embargoes(sizes, contents.embargoed);
        for (file, entry) in self.server.entries[..sizes.files].iter_mut().enumerate() {
            entry.version.0 = contents.versions[file];
            for block in 0..sizes.blocks {
                let value = contents.used[file][block];
                (entry.blocks[block], entry.used[block]) = (value.unwrap_or(0), value.is_some());
            }
        }
        self.server.crash(sizes);
        Ok(())
    }

    /// The service on the standby machine: of the image's sizes, its clients fresh, the image just read.
    pub fn resumed(image: &[u8]) -> Result<Self, Refusal> {
        let Some(&[clients, files, blocks, low, high]) = image.first_chunk() else { return Err(Refusal::NoImage) };
        let [clients, files, blocks] = [clients, files, blocks].map(u64::from);
        let store = u16::from_le_bytes([low, high]).into();
        let mut service = Service::fresh_of(Settings { clients, files, blocks, store });
        service.read_image(image)?;
        Ok(service)
    }

    fn image(&self) -> Vec<u8> {
        let sizes = self.sizes();
        let mut image = [sizes.clients, sizes.files, sizes.blocks].map(|size| size as u8).to_vec();
        image.extend((sizes.store as u16).to_le_bytes());
        let sections = [
            self.listed_files(sizes),
            self.listed_opens(sizes),
            self.listed_blocks(sizes),
            self.listed_embargoes(sizes),
        ];
        for section in sections {
            image.extend((section.len() as u16).to_le_bytes());
            image.extend(section.concat());
        }
        image
    }

    /// "Files: number, version in four bytes low first, last writer or 255, for each file not at version 1 without last
    /// writer."
    fn listed_files(&self, sizes: Sizes) -> Vec<Vec<u8>> {
        let mut listed = Vec::new();
        for (file, entry) in self.server.entries[..sizes.files].iter().enumerate() {
            let (version, last_writer) = (entry.version.read(), entry.last_writer.read(sizes));
            if version != 1 || last_writer.is_some() {
                let last_writer = last_writer.map_or(NO_LAST_WRITER, |client| client as u8);
                listed.push([&[file as u8][..], &version.to_le_bytes(), &[last_writer]].concat());
            }
        }
        listed
    }

    /// "Opens, for each open station: station, file, readers, writers, permission, by file and then station."
    fn listed_opens(&self, sizes: Sizes) -> Vec<Vec<u8>> {
        let mut listed = Vec::new();
        for (file, entry) in self.server.entries[..sizes.files].iter().enumerate() {
            for (client, record) in entry.records[..sizes.clients].iter().enumerate() {
                if record.is_open() {
                    let Record { readers, writers, may_cache } = *record;
                    listed.push(vec![client as u8, file as u8, readers, writers, may_cache.into()]);
                }
            }
        }
        listed
    }

    /// "Non-zero blocks: file, block, value in eight bytes low first"; "the image lists used blocks in place of non-zero
    /// ones" (document 02, Wish 13).
    fn listed_blocks(&self, sizes: Sizes) -> Vec<Vec<u8>> {
        let mut listed = Vec::new();
        for (file, entry) in self.server.entries[..sizes.files].iter().enumerate() {
            for (block, value) in entry.blocks[..sizes.blocks].iter().enumerate() {
                if entry.used[block] {
                    listed.push([&[file as u8, block as u8][..], &value.to_le_bytes()].concat());
                }
            }
        }
        listed
    }

    /// "A last section of embargoed stations, ascending" (document 02, Wish 9).
    fn listed_embargoes(&self, sizes: Sizes) -> Vec<Vec<u8>> {
        self.server.embargoed.and(sizes.client_set()).members().map(|client| vec![client as u8]).collect()
    }
}

/// What a reading takes from an image.
struct Contents {
    versions: [u32; FILES],
    /// The value of each used block.
    used: [[Option<u64>; BLOCKS]; FILES],
    embargoed: ClientSet,
}

impl Contents {
    /// None if no service of these sizes is written as these bytes.
    fn read(sizes: Sizes, bytes: &[u8]) -> Option<Self> {
        let mut contents = Contents { versions: [1; FILES], used: [[None; BLOCKS]; FILES], embargoed: ClientSet::NONE };
        let mut rest = Rest(bytes);
        for size in [sizes.clients, sizes.files, sizes.blocks] {
            holds(usize::from(rest.byte()?) == size)?;
        }
        holds(rest.number::<2>()? == sizes.store as u64)?;
        contents.read_files(sizes, &mut rest)?;
        read_opens(sizes, &mut rest)?;
        contents.read_blocks(sizes, &mut rest)?;
        contents.read_embargoes(sizes, &mut rest)?;
        holds(rest.0.is_empty())?;
        Some(contents)
    }

    fn read_files(&mut self, sizes: Sizes, rest: &mut Rest) -> Option<()> {
        let mut ascent = Ascent::default();
        for _ in 0..rest.count()? {
            let file = rest.below(sizes.files)?;
            ascent.goes_on((file, 0))?;
            let version = rest.number::<4>()? as u32;
            let last_writer = rest.byte()?;
            let is_client = usize::from(last_writer) < sizes.clients;
            holds(is_client || last_writer == NO_LAST_WRITER)?;
            holds(version > 1 || version == 1 && is_client)?;
            self.versions[file] = version;
        }
        Some(())
    }

    fn read_blocks(&mut self, sizes: Sizes, rest: &mut Rest) -> Option<()> {
        let mut ascent = Ascent::default();
        for _ in 0..rest.count()? {
            let (file, block) = (rest.below(sizes.files)?, rest.below(sizes.blocks)?);
            ascent.goes_on((file, block))?;
            self.used[file][block] = Some(rest.number::<8>()?);
        }
        Some(())
    }

    fn read_embargoes(&mut self, sizes: Sizes, rest: &mut Rest) -> Option<()> {
        let mut ascent = Ascent::default();
        for _ in 0..rest.count()? {
            let client = rest.below(sizes.clients)?;
            ascent.goes_on((client, 0))?;
            self.embargoed = self.embargoed.with(client);
        }
        Some(())
    }
}

/// Opens are judged, and nothing is taken from them.
fn read_opens(sizes: Sizes, rest: &mut Rest) -> Option<()> {
    let mut ascent = Ascent::default();
    for _ in 0..rest.count()? {
        let (client, file) = (rest.below(sizes.clients)?, rest.below(sizes.files)?);
        ascent.goes_on((file, client))?;
        let (readers, writers) = (rest.byte()?, rest.byte()?);
        holds(readers > 0 || writers > 0)?;
        rest.below(2)?;
    }
    Some(())
}

fn holds(condition: bool) -> Option<()> {
    condition.then_some(())
}

/// The places that a section has named so far: each must lie above the one before.
#[derive(Default)]
struct Ascent(Option<(usize, usize)>);

impl Ascent {
    fn goes_on(&mut self, place: (usize, usize)) -> Option<()> {
        holds(self.0.is_none_or(|before| before < place))?;
        self.0 = Some(place);
        Some(())
    }
}

/// The bytes still to be read.
struct Rest<'a>(&'a [u8]);

impl Rest<'_> {
    fn byte(&mut self) -> Option<u8> {
        let (first, rest) = self.0.split_first()?;
        self.0 = rest;
        Some(*first)
    }

    fn below(&mut self, limit: usize) -> Option<usize> {
        let number = usize::from(self.byte()?);
        (number < limit).then_some(number)
    }

    /// A number of so many bytes, low first.
    fn number<const BYTES: usize>(&mut self) -> Option<u64> {
        let (bytes, rest) = self.0.split_first_chunk::<BYTES>()?;
        self.0 = rest;
        Some(bytes.iter().rev().fold(0, |number, &byte| number << 8 | u64::from(byte)))
    }

    fn count(&mut self) -> Option<u64> {
        self.number::<COUNT_BYTES>()
    }
}
