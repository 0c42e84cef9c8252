//! Compares the port with the repository's Rust: cases from a generator and from a sweep, the Rust's answers to them,
//! and what is held to those answers.
pub mod bench;
pub mod case;
pub mod check;
pub mod coverage;
pub mod faults;
pub mod generate;
pub mod oracle;
mod possible;
pub mod record;
pub mod rng;
pub mod rows;
pub mod run;
pub mod subject;
pub mod sweep;
