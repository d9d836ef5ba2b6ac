//! States that no steps lead to. "A hand-made state that no steps lead to gets a reply by the same rules": each test
//! quotes the sentence of document 01 that judges it, or the row of docs/DECISIONS.md where document 01 leaves it open.

mod clash;
mod close;
mod copies;
mod embargo;
mod ends;
mod fields;
mod flush;
mod limits;
#[path = "../common/listing.rs"]
mod listing;
mod made;
mod names;
mod places;
mod plain;
mod promises;
mod random;
mod recovery;
mod refusals;
mod restart;
mod sent;
mod settings;
mod sizes;
mod waits;
