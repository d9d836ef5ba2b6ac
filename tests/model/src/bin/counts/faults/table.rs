//! Faults of the table: the whole, the order of the columns, and which clients have a line.

use model::CLIENTS;
use model::traffic::{Column, Table, Totals};

use crate::fault::faults;

faults! {
    // The whole.
    all_without_client_0: Table(|table| table.all = sum(&table.clients[1..table.in_force]));
    all_without_the_last_client: Table(|table| table.all = sum(&table.clients[..table.in_force - 1]));
    all_of_the_first_four_clients: Table(|table| table.all = sum(&table.clients[..table.in_force.min(4)]));
    all_is_the_largest: Table(|table| {
        for column in Column::ALL {
            table.all[column] = table.clients.iter().map(|totals| totals[column]).max().unwrap_or(0);
        }
    });
    all_is_zero: Table(|table| table.all = Totals::default());

    // The columns.
    opens_and_closes_swapped: Table(|table| swap(table, Column::Opens, Column::Closes));
    closes_and_fetches_swapped: Table(|table| swap(table, Column::Closes, Column::Fetches));
    fetches_and_writes_sent_swapped: Table(|table| swap(table, Column::Fetches, Column::WritesSent));
    writes_sent_and_calls_swapped: Table(|table| swap(table, Column::WritesSent, Column::Calls));
    calls_and_refusals_swapped: Table(|table| swap(table, Column::Calls, Column::Refusals));
    refusals_and_hits_swapped: Table(|table| swap(table, Column::Refusals, Column::Hits));
    hits_and_accepted_reads_swapped: Table(|table| swap(table, Column::Hits, Column::AcceptedReads));
    fetches_in_place_of_accepted_reads: Table(|table| on_each(table, |totals| {
        totals[Column::AcceptedReads] = totals[Column::Fetches];
    }));
    totals_of_8_bits: Table(|table| on_each(table, |totals| {
        Column::ALL.iter().for_each(|&column| totals[column] %= 1 << 8);
    }));
    totals_that_stop_at_255: Table(|table| on_each(table, |totals| {
        Column::ALL.iter().for_each(|&column| totals[column] = totals[column].min(255));
    }));

    // The clients.
    eight_clients_printed: Table(|table| table.in_force = CLIENTS);
    last_client_not_printed: Table(|table| table.in_force -= 1);
    clients_descend: Table(|table| table.clients[..table.in_force].reverse());
    clients_a_place_late: Table(|table| table.clients.rotate_right(1));
}

fn sum(clients: &[Totals]) -> Totals {
    let mut all = Totals::default();
    clients.iter().for_each(|totals| all.add(totals));
    all
}

fn on_each(table: &mut Table, change: impl Fn(&mut Totals)) {
    table.clients.iter_mut().for_each(&change);
    change(&mut table.all);
}

fn swap(table: &mut Table, one: Column, other: Column) {
    on_each(table, |totals| (totals[one], totals[other]) = (totals[other], totals[one]));
}
