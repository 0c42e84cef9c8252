//! Two passes of the Move bytecode verifier, stack usage and type safety, by the proved library `libwavgrut.a`.
//!
//! Each call is lent a unit and a work area. Any bytes and any lengths will do: a unit that is too long, cut short or no unit at all gets
//! its verdict like any other. The area may hold anything before, and is zeros afterwards; an area of more than [`LONGEST_AREA`] bytes is
//! refused, `9 b 0`, and left as it was.
//!
//! ```
//! let listing = [1, 0x11, 0, 0x19, 0, 0, 0, 0, 0, 0, 0, 0x1a, 0, 0, 2, 0, 0x1b, 3, 0, 0x0c, 0, 1];
//! let verdict = wavgrut::both(&listing, &mut [0; 16384]);
//! assert!(verdict.is_accepted());
//! assert_eq!(verdict.to_string(), "0 n 0");
//! ```
//!
//! A call asks for 256 KiB of its thread's stack (about 102 KB were measured) and takes no heap. Any number of threads may call at once.

mod status;
mod verdict;

pub use status::Status;
pub use verdict::{Position, Verdict};

/// A longer unit is refused with `1 b 0`.
pub const LONGEST_UNIT: usize = 32_768;

/// A longer area is refused with `9 b 0`.
pub const LONGEST_AREA: usize = 65_535;

/// The library's functions, as include/wavgrut.h declares them.
mod linked {
    pub type Call = unsafe extern "C" fn(*const u8, usize, *mut u8, usize) -> u64;

    extern "C" {
        pub fn wavgrut_read(unit: *const u8, unit_len: usize, area: *mut u8, area_len: usize) -> u64;
        pub fn wavgrut_stack_usage(unit: *const u8, unit_len: usize, area: *mut u8, area_len: usize) -> u64;
        pub fn wavgrut_types(unit: *const u8, unit_len: usize, area: *mut u8, area_len: usize) -> u64;
        pub fn wavgrut_both(unit: *const u8, unit_len: usize, area: *mut u8, area_len: usize) -> u64;
    }
}

fn call(function: linked::Call, unit: &[u8], area: &mut [u8]) -> Verdict {
    // SAFETY: the two slices are live for the call and cannot overlap, and the function is lent exactly their lengths.
    let packed = unsafe { function(unit.as_ptr(), unit.len(), area.as_mut_ptr(), area.len()) };
    Verdict::of_packed(packed).expect("libwavgrut.a answers a verdict")
}

/// "read a unit": whether the bytes are a unit.
pub fn read(unit: &[u8], area: &mut [u8]) -> Verdict {
    call(linked::wavgrut_read, unit, area)
}

/// "stack usage": reads the unit, then runs that pass.
pub fn stack_usage(unit: &[u8], area: &mut [u8]) -> Verdict {
    call(linked::wavgrut_stack_usage, unit, area)
}

/// "types": reads the unit, then runs that pass.
pub fn types(unit: &[u8], area: &mut [u8]) -> Verdict {
    call(linked::wavgrut_types, unit, area)
}

/// "both": reads the unit; the verdict is that of stack usage where it refuses, else that of types.
pub fn both(unit: &[u8], area: &mut [u8]) -> Verdict {
    call(linked::wavgrut_both, unit, area)
}
