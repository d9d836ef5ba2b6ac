//! Step files played: as a stream from a fresh service, and in memory with a witness beside it.

use std::io::{Read, Result, Write};
use std::marker::PhantomData;

use crate::check::Witness;
use crate::input::each_piece;
use crate::printer::Printer;
use crate::reader::{Taker, take_line};
use crate::{Outcome, Refusal, Rules, Service, Settings, Sizes, Step, read_line, read_settings};

/// Plays a stream in constant memory. What is said of a buffer of input is out before the next one is read.
pub fn play<R: Rules>(input: impl Read, output: impl Write) -> Result<()> {
    play_on::<R>(Service::fresh(), false, input, output).map(|_| ())
}

/// The same from any service. A resumed session takes no line SET, on its first line either. Gives what the last step
/// leaves.
pub fn play_on<R: Rules>(service: Service, resumed: bool, input: impl Read, output: impl Write) -> Result<Service> {
    let mut player = Player::<R, _> { service, printer: Printer::new(output), begun: resumed, rules: PhantomData };
    each_piece(input, |lines| {
        player.lines(lines)?;
        player.printer.flush()
    })?;
    player.printer.summary(&player.service, R::files_in_summary(player.service.sizes()))?;
    player.printer.flush()?;
    Ok(player.service)
}

struct Player<R, W> {
    service: Service,
    printer: Printer<W>,
    /// Whether the line has passed that may be a line SET.
    begun: bool,
    rules: PhantomData<R>,
}

impl<R: Rules, W: Write> Player<R, W> {
    fn lines(&mut self, mut bytes: &[u8]) -> Result<()> {
        if !self.begun && !bytes.is_empty() {
            bytes = self.first_line(bytes)?;
        }
        while !bytes.is_empty() {
            let (printed, length) = take_line(bytes, &mut *self);
            printed?;
            bytes = &bytes[length..];
        }
        Ok(())
    }

    /// Takes the first line if it is a line SET. Gives what is left.
    fn first_line<'a>(&mut self, bytes: &'a [u8]) -> Result<&'a [u8]> {
        self.begun = true;
        let Some((settings, length)) = read_settings(bytes) else { return Ok(bytes) };
        let outcome = R::set(&mut self.service, settings);
        self.printer.outcome(&outcome)?;
        Ok(&bytes[length..])
    }
}

impl<R: Rules, W: Write> Taker for &mut Player<R, W> {
    type Answer = Result<()>;

    #[inline(always)]
    fn step(self, step: Step) -> Result<()> {
        let outcome = self.service.take::<R>(&step);
        self.printer.outcome(&outcome)
    }

    fn no_step(self) -> Result<()> {
        self.printer.outcome(&Outcome::Refused(Refusal::NotAStep))
    }
}

/// Plays a step file in memory and shows every step to the witness. Gives the output.
pub fn replay<R: Rules>(input: &[u8], witness: &mut dyn Witness) -> Vec<u8> {
    replay_from::<R>(&mut Service::fresh(), input, witness)
}

/// The same from any service, which is left as the last step leaves it.
pub fn replay_from<R: Rules>(service: &mut Service, input: &[u8], witness: &mut dyn Witness) -> Vec<u8> {
    let seams =
        Seams { set: R::set, late_set: R::late_set, take: Service::take::<R>, files_in_summary: R::files_in_summary };
    replay_with(&seams, service, input, witness)
}

/// What `replay` takes from a set of rules.
struct Seams {
    set: fn(&mut Service, Settings) -> Outcome,
    late_set: fn(&mut Service, Settings) -> Outcome,
    take: fn(&mut Service, &Step) -> Outcome,
    files_in_summary: fn(Sizes) -> usize,
}

impl Seams {
    fn step(&self, service: &mut Service, step: &Step, witness: &mut dyn Witness) -> Outcome {
        witness.before(service, step);
        let outcome = (self.take)(service, step);
        witness.after(service, step, &outcome);
        outcome
    }
}

/// Apart from `replay`, so that it is compiled once and not for each set of rules.
fn replay_with(seams: &Seams, service: &mut Service, mut input: &[u8], witness: &mut dyn Witness) -> Vec<u8> {
    let mut printer = Printer::new(Vec::new());
    let mut set = seams.set;
    while !input.is_empty() {
        let (outcome, length) = match (read_settings(input), read_line(input)) {
            (Some((settings, length)), _) => (set(service, settings), length),
            (None, (Some(step), length)) => (seams.step(service, &step, witness), length),
            (None, (None, length)) => (Outcome::Refused(Refusal::NotAStep), length),
        };
        set = seams.late_set;
        witness.answered(&outcome);
        printer.outcome(&outcome).expect("a vector takes every byte");
        input = &input[length..];
    }
    let files = (seams.files_in_summary)(service.sizes());
    printer.summary(service, files).expect("a vector takes every byte");
    printer.into_inner().expect("a vector takes every byte")
}
