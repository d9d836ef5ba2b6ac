//! Byte strings that are images or nearly so, and the judges of them: the model, a second and different one, and the
//! small protocol by which a judge under test is asked.

mod changes;
mod judge;
mod sections;
mod servers;
mod strings;

pub use judge::{Judge, LONGEST_INPUT, LONGEST_STRING, Request};
pub use sections::{Sections, is_written, written};
pub use servers::{any_sizes, full, hand_made};
pub use strings::{ByteString, Sort, strings};
