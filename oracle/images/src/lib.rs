//! Compares the port's translation and run search, and the program `runs`, with a reference
//! written from documents 01 and 02, on generated images of four and of five levels.
//!
//! `generate` is the list to add to: a family is a name and a function that makes its cases, and
//! the comparisons with the program and with the library follow.

pub mod draft;
pub mod generate;
pub mod hand_written;
pub mod image;
mod layers;
pub mod library;
#[cfg(feature = "library")]
pub mod port;
pub mod program;
pub mod reference;
pub mod tally;
pub mod width;
pub mod worked;
pub mod worst;
