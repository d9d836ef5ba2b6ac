//! Step files counted: as a stream from a fresh service, and in memory.

use std::io::{Read, Result, Write};

use super::{Counted, Found, Line, Table, Totals};
use crate::input::each_piece;
use crate::printer::Printer;
use crate::rules::Apart;
use crate::{CLIENTS, Outcome, Refusal, Service, Step, read_line, read_settings};

/// Counts a stream in constant memory. Nothing is said before its end.
pub fn count(input: impl Read, output: impl Write) -> Result<()> {
    count_on(Service::fresh(), false, input, output).map(|_| ())
}

/// The same from any service. A resumed session takes no line SET, on its first line either. Gives what the last step
/// leaves.
pub fn count_on(service: Service, resumed: bool, input: impl Read, output: impl Write) -> Result<Service> {
    let mut counter = Counter::new(service, resumed, ());
    each_piece(input, |lines| {
        counter.lines(lines);
        Ok(())
    })?;
    let mut printer = Printer::new(output);
    counter.table().print(&mut printer)?;
    printer.flush()?;
    Ok(counter.service)
}

/// Counts a step file in memory.
pub fn counted(input: &[u8]) -> Vec<u8> {
    counted_from(Service::fresh(), false, input)
}

/// The same from any service.
pub fn counted_from(service: Service, resumed: bool, input: &[u8]) -> Vec<u8> {
    distorted(service, resumed, input, &mut ())
}

/// The same with what is counted changed before it is added up, and the table before it is printed.
pub fn distorted(service: Service, resumed: bool, input: &[u8], distortion: &mut dyn Distortion) -> Vec<u8> {
    printed(&table_of(service, resumed, input, distortion))
}

/// The table alone.
pub fn table_from(service: Service, resumed: bool, input: &[u8]) -> Table {
    table_of(service, resumed, input, ())
}

fn table_of(service: Service, resumed: bool, input: &[u8], distortion: impl Distortion) -> Table {
    let mut counter = Counter::new(service, resumed, distortion);
    counter.lines(input);
    counter.table()
}

fn printed(table: &Table) -> Vec<u8> {
    let mut printer = Printer::new(Vec::new());
    let whole = table.print(&mut printer).and_then(|()| printer.into_inner());
    whole.expect("a vector takes every byte")
}

/// Changes what is counted. The plain counter changes nothing; the fault study does.
pub trait Distortion {
    /// Of any line, with the service as it is after the line.
    fn line(&mut self, _service: &Service, _line: &Line, _counted: &mut Vec<Counted>) {}
    fn table(&mut self, _table: &mut Table) {}
}

impl Distortion for () {}

impl<D: Distortion + ?Sized> Distortion for &mut D {
    fn line(&mut self, service: &Service, line: &Line, counted: &mut Vec<Counted>) {
        (**self).line(service, line, counted);
    }

    fn table(&mut self, table: &mut Table) {
        (**self).table(table);
    }
}

struct Counter<D> {
    service: Service,
    /// Whether the line has passed that may be a line SET.
    begun: bool,
    clients: [Totals; CLIENTS],
    /// What counts of the line that is taken now.
    counted: Vec<Counted>,
    distortion: D,
}

impl<D: Distortion> Counter<D> {
    fn new(service: Service, resumed: bool, distortion: D) -> Self {
        let clients = [Totals::default(); CLIENTS];
        Counter { service, begun: resumed, clients, counted: Vec::new(), distortion }
    }

    fn lines(&mut self, mut bytes: &[u8]) {
        while !bytes.is_empty() {
            let length = self.first_line(bytes);
            bytes = &bytes[length..];
        }
    }

    /// Counts the first of these lines. Gives how many bytes it has.
    fn first_line(&mut self, bytes: &[u8]) -> usize {
        let may_set = !std::mem::replace(&mut self.begun, true);
        if may_set && let Some((settings, length)) = read_settings(bytes) {
            let outcome = self.service.set(settings);
            self.add(None, Found::default(), &outcome);
            return length;
        }
        let (step, length) = read_line(bytes);
        let found = step.map_or(Found::default(), |step| Found::by(&step, &self.service));
        let outcome = match &step {
            Some(step) => self.service.take::<Apart>(step),
            None => Outcome::Refused(Refusal::NotAStep),
        };
        self.add(step, found, &outcome);
        length
    }

    fn add(&mut self, step: Option<Step>, found: Found, outcome: &Outcome) {
        let line = Line { step, found, outcome };
        self.counted.clear();
        line.list(self.service.sizes(), &mut self.counted);
        self.distortion.line(&self.service, &line, &mut self.counted);
        for &Counted { client, column } in &self.counted {
            let total = &mut self.clients[client][column];
            *total = total.saturating_add(1);
        }
    }

    fn table(&mut self) -> Table {
        let mut table = Table::of(self.service.sizes(), self.clients);
        self.distortion.table(&mut table);
        table
    }
}
