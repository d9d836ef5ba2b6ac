//! The judge's side of the protocol that src/bin/images/main.rs tells: strings in, answers out.

use super::sections::written;
use crate::{Document01, Mode, Outcome, Refusal, SIZES_BYTES, Service, Settings, State, Step};

/// The most bytes of a string, and of the input of one run.
pub const LONGEST_STRING: usize = 8_192;
pub const LONGEST_INPUT: usize = 65_536;

const HEAD: usize = 8;

/// A string, the sizes of the service that reads it, and which steps come before the reading.
#[derive(Clone, Debug)]
pub struct Request {
    /// As an image has them.
    pub sizes: [u8; SIZES_BYTES],
    pub before: u8,
    pub bytes: Vec<u8>,
}

impl Request {
    pub fn write(&self, input: &mut Vec<u8>) {
        input.extend(self.sizes);
        input.push(self.before);
        input.extend((self.bytes.len() as u16).to_le_bytes());
        input.extend(&self.bytes);
    }

    /// How many bytes it takes in the input.
    pub fn length(&self) -> usize {
        HEAD + self.bytes.len()
    }

    /// The first request of an input, and what follows.
    fn read(input: &[u8]) -> Option<(Request, &[u8])> {
        let (&[clients, files, blocks, store, more, before, low, high], rest) = input.split_first_chunk::<HEAD>()?;
        let (bytes, rest) = rest.split_at_checked(u16::from_le_bytes([low, high]).into())?;
        Some((Request { sizes: [clients, files, blocks, store, more], before, bytes: bytes.to_vec() }, rest))
    }

    pub fn settings(&self) -> Settings {
        let [clients, files, blocks, low, high] = self.sizes.map(u64::from);
        Settings { clients, files, blocks, store: low + 256 * high }
    }
}

/// Client 0 has the first file open, and the last one closed and dirty.
fn steps_at_start(files: u64) -> [Step; 5] {
    let file = files - 1;
    [
        Step::Open { mode: Mode::Write, client: 0, file: 0 },
        Step::Write { client: 0, file: 0, block: 0, value: 1 },
        Step::Open { mode: Mode::Write, client: 0, file },
        Step::Write { client: 0, file, block: 0, value: 2 },
        Step::Close { mode: Mode::Write, client: 0, file },
    ]
}

/// The reading meets a recovery, or a wait.
fn steps_before(before: u8) -> &'static [Step] {
    match before {
        1 => &[Step::Crash, Step::Report { client: 0 }],
        2 => &[Step::Open { mode: Mode::Write, client: 1, file: 0 }],
        _ => &[],
    }
}

pub type ReadImage<'a> = dyn Fn(&mut Service, &[u8]) -> Result<(), Refusal> + 'a;
pub type WriteImage<'a> = dyn Fn(&Service) -> Result<Vec<u8>, Refusal> + 'a;

pub struct Judge<'a> {
    read_image: &'a ReadImage<'a>,
    write_image: &'a WriteImage<'a>,
    sizes: Option<[u8; SIZES_BYTES]>,
    service: Service,
    /// Reports refused with 22.
    clashes: usize,
}

impl<'a> Judge<'a> {
    /// A judge that reads and writes images in this way.
    pub fn new(read_image: &'a ReadImage<'a>, write_image: &'a WriteImage<'a>) -> Self {
        Judge { read_image, write_image, sizes: None, service: Service::fresh(), clashes: 0 }
    }

    pub fn model() -> Self {
        Judge::new(&|service, bytes| service.read_image(bytes), &written)
    }

    /// The output of one run.
    pub fn run(mut self, mut input: &[u8]) -> Vec<u8> {
        let mut output = Vec::new();
        while let Some((request, rest)) = Request::read(input) {
            output.extend(self.answer(&request));
            input = rest;
        }
        output.push(b'\n');
        output
    }

    pub fn answer(&mut self, request: &Request) -> Vec<u8> {
        if self.sizes != Some(request.sizes) {
            self.sizes = Some(request.sizes);
            self.service = Service::fresh_of(request.settings());
            self.take(&steps_at_start(request.settings().files));
        }
        self.take(steps_before(request.before));
        let accepted = (self.read_image)(&mut self.service, &request.bytes).is_ok();
        let mut answer = vec![if accepted { b'1' } else { b'0' }, self.files_not_closed()];
        let reports = (0..self.service.sizes().clients as u64).map(|client| Step::Report { client });
        self.take(&reports.chain([Step::End]).collect::<Vec<Step>>());
        answer.extend((self.service.server.free_places(self.service.sizes()) as u16).to_le_bytes());
        answer.extend(self.image());
        answer
    }

    /// How many reports were refused with 22 so far: after a reading that lifts an embargo.
    pub fn clashes(&self) -> usize {
        self.clashes
    }

    fn take(&mut self, steps: &[Step]) {
        for step in steps {
            let outcome = self.service.take::<Document01>(step);
            self.clashes += usize::from(outcome == Outcome::Refused(Refusal::ReportsClash));
        }
    }

    fn files_not_closed(&self) -> u8 {
        let sizes = self.service.sizes();
        let entries = &self.service.server.entries[..sizes.files];
        entries.iter().filter(|entry| State::of(sizes, entry) != State::Closed).count() as u8
    }

    /// The length and the image, or 0 and why there is none.
    fn image(&self) -> Vec<u8> {
        match (self.write_image)(&self.service) {
            Ok(image) => [&(image.len() as u16).to_le_bytes()[..], &image].concat(),
            Err(refusal) => vec![0, 0, refusal.number() as u8],
        }
    }
}
