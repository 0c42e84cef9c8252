//! Stand-ins for the crates and modules that the repository's files name and that are not at hand. They hold data and
//! look it up by index; no rule of the verifier is here.
pub mod binary_format;
pub mod core_types;
pub mod vm_status;

/// `ref_cast::RefCast`, as far as file_format.rs uses it.
pub trait RefCast {
    type From: ?Sized;
    fn ref_cast(from: &Self::From) -> &Self;
}
