//! A unit as document 01 describes it, written from that text alone: verdicts, types, instructions, tables, and the
//! reader and writer of its bytes. Nothing here knows the Rust of the repository or the port.

// The reader names this crate from outside, so that `move-rust-faulty` can compile a copy of it with faults.
extern crate self as unit;

pub mod instruction;
pub mod read;
pub mod tables;
pub mod types;
pub mod verdict;
pub mod write;

pub use instruction::{Form, Instruction, Opcode};
pub use read::read;
pub use tables::Unit;
pub use types::Type;
pub use verdict::{Position, Verdict};

/// The longest unit that is read, in bytes.
pub const LONGEST_UNIT: usize = 32_768;
/// The longest area that is accepted, in bytes.
pub const LONGEST_AREA: usize = 65_535;
/// How many levels a type of a unit may nest, a leaf being one.
pub const DEEPEST_TYPE: usize = 32;
