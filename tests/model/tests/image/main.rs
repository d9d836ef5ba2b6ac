//! The image of the server (document 02, Wish 2, and its front by Wish 7): what is written, what is read, and that
//! reading accepts exactly what writing gives.

mod made;
mod no_image;
mod random;
mod reading;
mod writing;
