//! What a fault of a counter is: what counts of a line is changed before it is added up, or the table before it is
//! printed, or the print, or what is read.

use model::sample::Sample;
use model::traffic::{Column, Counted, Distortion, Line, Table};
use model::{Service, Sizes};

pub struct Fault {
    pub name: &'static str,
    pub wrong: Wrong,
}

pub enum Wrong {
    /// What counts of a line.
    Line(fn(&Taken, &mut Vec<Counted>)),
    Table(fn(&mut Table)),
    LineAndTable(fn(&Taken, &mut Vec<Counted>), fn(&mut Table)),
    /// The whole output.
    Text(fn(&str) -> String),
    /// The step file, or the image.
    Read(fn(&mut Sample)),
}

/// Each fault is named for the wrong answer it gives.
macro_rules! faults {
    ($($name:ident: $wrong:ident($($change:expr),+);)*) => {
        pub const FAULTS: &[$crate::fault::Fault] = &[$($crate::fault::Fault {
            name: stringify!($name),
            wrong: $crate::fault::Wrong::$wrong($($change),+),
        }),*];
    };
}

pub(crate) use faults;

impl Fault {
    /// What a counter with this fault prints.
    pub fn counted(&self, sample: &Sample) -> Vec<u8> {
        match self.wrong {
            Wrong::Text(change) => {
                let right = String::from_utf8(sample.counted()).expect("the output is text");
                change(&right).into_bytes()
            }
            Wrong::Read(change) => {
                let mut read = sample.clone();
                change(&mut read);
                read.counted()
            }
            _ => sample.counted_with(&mut Faulty(self)),
        }
    }
}

struct Faulty<'a>(&'a Fault);

impl Distortion for Faulty<'_> {
    fn line(&mut self, service: &Service, line: &Line, counted: &mut Vec<Counted>) {
        if let Wrong::Line(change) | Wrong::LineAndTable(change, _) = self.0.wrong {
            change(&Taken { service, line }, counted);
        }
    }

    fn table(&mut self, table: &mut Table) {
        if let Wrong::Table(change) | Wrong::LineAndTable(_, change) = self.0.wrong {
            change(table);
        }
    }
}

/// A line that was taken, and the service as it is after it.
pub struct Taken<'a> {
    pub service: &'a Service,
    pub line: &'a Line<'a>,
}

impl Taken<'_> {
    pub fn sizes(&self) -> Sizes {
        self.service.sizes()
    }

    /// The client that the step names. What counts of a line counts because it names one that is there.
    pub fn client(&self) -> usize {
        self.line.client(self.sizes()).expect("the step names a client that is there")
    }
}

/// One more in this column, at this client.
pub fn add(counted: &mut Vec<Counted>, client: usize, column: Column) {
    counted.push(Counted { client, column });
}

/// What stands in this column does not count.
pub fn leave_out(counted: &mut Vec<Counted>, column: Column) {
    counted.retain(|one| one.column != column);
}

/// What stands in this column counts at this client.
pub fn count_at(counted: &mut [Counted], column: Column, client: usize) {
    counted.iter_mut().filter(|one| one.column == column).for_each(|one| one.client = client);
}

/// What stands in one column counts in another.
pub fn count_as(counted: &mut [Counted], column: Column, other: Column) {
    counted.iter_mut().filter(|one| one.column == column).for_each(|one| one.column = other);
}

/// Of what stands in this column, only the first counts.
pub fn keep_first(counted: &mut Vec<Counted>, column: Column) {
    let mut met = false;
    counted.retain(|one| one.column != column || !std::mem::replace(&mut met, true));
}
