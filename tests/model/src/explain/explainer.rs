//! Step files explained: as a stream from a fresh service, and in memory.

use std::io::{Read, Result, Write};

use super::taken::take;
use super::{Book, Picture, Reason, Told};
use crate::input::each_piece;
use crate::printer::Printer;
use crate::{Outcome, Refusal, Service, Step, read_line, read_settings};

/// Explains a stream in constant memory. What is said of a buffer of input is out before the next one is read.
pub fn explain(input: impl Read, output: impl Write) -> Result<()> {
    explain_on(Service::fresh(), false, input, output).map(|_| ())
}

/// The same from any service. A resumed session began with an image, and takes no line SET, on its first line either.
/// Gives what the last step leaves.
pub fn explain_on(service: Service, resumed: bool, input: impl Read, output: impl Write) -> Result<Service> {
    let mut explainer = Explainer::new(service, resumed, (), output);
    each_piece(input, |lines| {
        explainer.lines(lines)?;
        explainer.printer.flush()
    })?;
    explainer.picture()?;
    explainer.printer.flush()?;
    Ok(explainer.service)
}

/// Explains a step file in memory.
pub fn explained(input: &[u8]) -> Vec<u8> {
    explained_from(Service::fresh(), false, input)
}

/// The same from any service.
pub fn explained_from(service: Service, resumed: bool, input: &[u8]) -> Vec<u8> {
    distorted(service, resumed, input, &mut ())
}

/// The same with what is told changed before it is put into words.
pub fn distorted(service: Service, resumed: bool, input: &[u8], distortion: &mut dyn Distortion) -> Vec<u8> {
    let mut explainer = Explainer::new(service, resumed, distortion, Vec::new());
    let whole = explainer.lines(input).and_then(|()| explainer.picture()).and_then(|()| explainer.printer.into_inner());
    whole.expect("a vector takes every byte")
}

/// Changes what is told. The plain explainer changes nothing; the fault study does.
pub trait Distortion {
    /// Of a line that gives a step or none, with the service as it is after the line.
    fn line(&mut self, _service: &Service, _step: Option<&Step>, _told: &mut Told) {}
    fn picture(&mut self, _service: &Service, _picture: &mut Picture) {}
}

impl Distortion for () {}

impl<D: Distortion + ?Sized> Distortion for &mut D {
    fn line(&mut self, service: &Service, step: Option<&Step>, told: &mut Told) {
        (**self).line(service, step, told);
    }

    fn picture(&mut self, service: &Service, picture: &mut Picture) {
        (**self).picture(service, picture);
    }
}

struct Explainer<D, W> {
    service: Service,
    book: Book,
    /// Lines so far.
    line: u64,
    /// Whether the line has passed that may be a line SET.
    begun: bool,
    refusals: [u64; Refusal::LAST_NUMBER + 1],
    distortion: D,
    printer: Printer<W>,
}

impl<D: Distortion, W: Write> Explainer<D, W> {
    fn new(service: Service, resumed: bool, distortion: D, output: W) -> Self {
        Explainer {
            service,
            book: Book::new(resumed),
            line: 0,
            begun: resumed,
            refusals: [0; Refusal::LAST_NUMBER + 1],
            distortion,
            printer: Printer::new(output),
        }
    }

    fn lines(&mut self, mut bytes: &[u8]) -> Result<()> {
        while !bytes.is_empty() {
            let length = self.first_line(bytes)?;
            bytes = &bytes[length..];
        }
        Ok(())
    }

    /// Explains the first of these lines. Gives how many bytes it has.
    fn first_line(&mut self, bytes: &[u8]) -> Result<usize> {
        let may_set = !std::mem::replace(&mut self.begun, true);
        if may_set && let Some((settings, length)) = read_settings(bytes) {
            let outcome = self.service.set(settings);
            let told = match outcome {
                Outcome::Done => Told::Set(self.service.sizes()),
                _ => Told::Refused(Reason::SettingOutOfRange),
            };
            return self.say(None, &outcome, told).map(|()| length);
        }
        let (step, length) = read_line(bytes);
        let (outcome, told) = match &step {
            Some(step) => take(&mut self.service, &self.book, step),
            None => (Outcome::Refused(Refusal::NotAStep), Told::Refused(Reason::NotAStep)),
        };
        self.say(step.as_ref(), &outcome, told).map(|()| length)
    }

    /// Notes what is told of the next line, and prints it.
    fn say(&mut self, step: Option<&Step>, outcome: &Outcome, mut told: Told) -> Result<()> {
        self.line += 1;
        self.book.note(self.line, &told);
        if let Outcome::Refused(refusal) = outcome {
            self.refusals[refusal.number()] += 1;
        }
        self.distortion.line(&self.service, step, &mut told);
        self.printer.explained(outcome, |text| {
            text.words("    ");
            text.told(&told);
        })
    }

    fn picture(&mut self) -> Result<()> {
        let mut picture = Picture::of(&self.service, &self.book, self.refusals);
        self.distortion.picture(&self.service, &mut picture);
        picture.print(&mut self.printer)
    }
}
