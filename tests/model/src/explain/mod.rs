//! Step files explained, line by line and with a picture of the service at the end, from the text of docs/EXPLAIN.md.
//! What is told of a line is made first, and put into words after that. Document 01's station is a client here.

mod book;
mod explainer;
mod picture;
mod places;
mod reason;
mod taken;
mod told;
mod words;

pub use book::{Book, LostAt, Origin, WrittenAt};
pub use explainer::{Distortion, distorted, explain, explain_on, explained, explained_from};
pub use picture::{ClientPicture, EmbargoPicture, FilePicture, Picture};
pub use places::Places;
pub use reason::{Reason, Waiting};
pub use told::{CopyAtGrant, Granted, Opening, Place, Reading, Source, Told};
