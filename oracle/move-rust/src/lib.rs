//! The repository's own files, compiled unchanged (see originals.rs), and what they need around them: stand-ins that
//! carry no verifier logic, a unit's tables in the Rust's structures, and walks over the unit's listed blocks in place
//! of `cfg()`.
//!
//! The same sources are compiled a second time, as `move-rust-faulty`, with faults put into the repository's files.

// The names by which the files call the crates that they come from.
#[allow(unused_extern_crates)]
extern crate derives as serde;
#[allow(unused_extern_crates)]
extern crate derives as variant_count;
extern crate self as move_binary_format;
extern crate self as move_core_types;
extern crate self as ref_cast;

include!(concat!(env!("OUT_DIR"), "/originals.rs"));

mod stand_ins;
pub use file_format::CompiledModule;
pub use stand_ins::binary_format::{access, file_format_common, internals, IndexKind, SignatureTokenKind};
pub use stand_ins::core_types::{account_address, identifier, language_storage, metadata};
pub use stand_ins::vm_status;
pub use stand_ins::RefCast;

mod bytecode;
mod caught;
mod listed_blocks;
mod loaded;
mod tables;
mod whole;
pub use loaded::{Loaded, Viewed, Walked};
pub use whole::{proper_blocks, verify_whole, Whole};
