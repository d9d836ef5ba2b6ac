//! The traffic of a session (document 02, Wish 11): what counts of each line, and the totals for each client and for
//! the whole. What counts of a line is listed first, and added up after that. Document 01's station is a client here.

mod counted;
mod counter;
mod table;

pub use counted::{Counted, Found, Line};
pub use counter::{Distortion, count, count_on, counted, counted_from, distorted, table_from};
pub use table::{Column, Table, Totals};
