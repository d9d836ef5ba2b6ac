//! A model of document 01 and of the wishes of document 02 that have landed, written from their text alone and sharing
//! nothing with the proved engine, together with the tools that compare the two. Names follow the field; each definition
//! gives document 01's word where it differs.

pub mod check;
pub mod explain;
pub mod generate;
pub mod images;
pub mod process;
pub mod sample;
pub mod traffic;

mod callbacks;
mod claim;
mod client;
mod client_set;
mod door;
mod entry;
mod fields;
mod image;
mod input;
mod outcome;
mod places;
mod player;
mod printer;
mod reader;
mod record;
mod rules;
mod server;
mod service;
mod sizes;
mod state;
mod step;
mod text;
mod verdict;

pub use callbacks::{Callbacks, Kind};
pub use claim::{Claim, Clash};
pub use client::{Client, ClientFile, Copies, copy_kept};
pub use client_set::ClientSet;
pub use door::Admission;
pub use entry::{Entry, WaitingOpen};
pub use fields::{ClientField, VersionField, WaitField};
pub use image::{COUNT_BYTES, ENTRY_BYTES, LONGEST_IMAGE, SIZES_BYTES};
pub use outcome::{Grant, GrantedOpen, Outcome, Refusal};
pub use player::{play, play_on, replay, replay_from};
pub use reader::{LONGEST_STEP, read_line, read_settings};
pub use record::Record;
pub use rules::{Document01, Rules};
pub use server::Server;
pub use service::Service;
pub use sizes::{Settings, Sizes};
pub use state::State;
pub use step::{Mode, Step};
pub use verdict::verdict;

/// The most clients that a service can have (document 01: stations).
pub const CLIENTS: usize = 8;
/// The most files.
pub const FILES: usize = 64;
/// The most blocks in each file.
pub const BLOCKS: usize = 8;
/// The largest store, in blocks: its places (document 02, Wish 13).
pub const PLACES: usize = 512;
