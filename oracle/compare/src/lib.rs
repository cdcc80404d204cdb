//! Compares the port with the unchanged Rust and with a model of the documents, question by question.
//!
//! `operations` is the list to add to: a row gives an operation its three sides, and the inputs,
//! the comparison, the replayed list and the benchmark follow from the row.

pub mod answer;
pub mod cases;
pub mod comparison;
pub mod counts;
pub mod inputs;
pub mod kind;
pub mod model;
pub mod operation;
pub mod operations;
pub mod port;
pub mod rust;
pub mod sample;
