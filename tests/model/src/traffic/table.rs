//! The totals, by client and column, and how they are printed.

use std::io::{Result, Write};
use std::ops::{Index, IndexMut};

use crate::printer::Printer;
use crate::text::Text;
use crate::{CLIENTS, Sizes};

/// What is counted.
#[derive(Clone, Copy, PartialEq, Eq, Debug)]
pub enum Column {
    Opens,
    Closes,
    Fetches,
    WritesSent,
    Calls,
    Refusals,
    Hits,
    AcceptedReads,
}

impl Column {
    /// "These eight numbers in this order."
    pub const ALL: [Column; 8] = [
        Column::Opens,
        Column::Closes,
        Column::Fetches,
        Column::WritesSent,
        Column::Calls,
        Column::Refusals,
        Column::Hits,
        Column::AcceptedReads,
    ];

    pub fn name(self) -> &'static str {
        match self {
            Column::Opens => "opens",
            Column::Closes => "closes",
            Column::Fetches => "fetches",
            Column::WritesSent => "writes sent",
            Column::Calls => "calls",
            Column::Refusals => "refusals",
            Column::Hits => "hits",
            Column::AcceptedReads => "accepted reads",
        }
    }
}

/// A total for each column.
#[derive(Clone, Copy, PartialEq, Eq, Debug, Default)]
pub struct Totals([u64; Column::ALL.len()]);

impl Totals {
    pub fn add(&mut self, others: &Totals) {
        for column in Column::ALL {
            self[column] = self[column].saturating_add(others[column]);
        }
    }
}

impl Index<Column> for Totals {
    type Output = u64;

    fn index(&self, column: Column) -> &u64 {
        &self.0[column as usize]
    }
}

impl IndexMut<Column> for Totals {
    fn index_mut(&mut self, column: Column) -> &mut u64 {
        &mut self.0[column as usize]
    }
}

#[derive(Clone, PartialEq, Eq, Debug)]
pub struct Table {
    /// How many clients are in force.
    pub in_force: usize,
    /// Of every client, those past the settings too.
    pub clients: [Totals; CLIENTS],
    pub all: Totals,
}

impl Table {
    /// "The whole equals the sum over stations."
    pub fn of(sizes: Sizes, clients: [Totals; CLIENTS]) -> Self {
        let mut all = Totals::default();
        clients[..sizes.clients].iter().for_each(|totals| all.add(totals));
        Table { in_force: sizes.clients, clients, all }
    }

    /// "A line gives the station, ascending, or last "all", and these eight numbers."
    pub fn print(&self, printer: &mut Printer<impl Write>) -> Result<()> {
        for (client, totals) in self.clients[..self.in_force].iter().enumerate() {
            printer.line(|text| {
                text.number(client as u64);
                text.totals(totals);
            })?;
        }
        printer.line(|text| {
            text.bytes(b"all");
            text.totals(&self.all);
        })
    }
}

impl Text<'_> {
    fn totals(&mut self, totals: &Totals) {
        for column in Column::ALL {
            self.byte(b' ');
            self.number(totals[column]);
        }
    }
}
