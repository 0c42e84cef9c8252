//! What is compared with the Rust: anything that answers the four calls over lent bytes, as the port does.
use crate::case::Call;

/// An answer is packed: number in bits 0 to 7, the letter in 8 to 15, the place in 16 to 31, and nothing above.
pub trait Subject {
    fn judge(&mut self, call: Call, unit: &mut [u8], area: &mut [u8]) -> u64;
}

/// The port, linked as a static library.
#[cfg(port)]
pub struct Port;

#[cfg(port)]
mod linked {
    type Judge = unsafe extern "C" fn(*const u8, usize, *mut u8, usize) -> u64;

    unsafe extern "C" {
        fn wavgrut_read(unit: *const u8, unit_len: usize, area: *mut u8, area_len: usize) -> u64;
        fn wavgrut_stack_usage(unit: *const u8, unit_len: usize, area: *mut u8, area_len: usize) -> u64;
        fn wavgrut_types(unit: *const u8, unit_len: usize, area: *mut u8, area_len: usize) -> u64;
        fn wavgrut_both(unit: *const u8, unit_len: usize, area: *mut u8, area_len: usize) -> u64;
    }

    /// The exports, in the order of `Call::ALL`.
    pub const CALLS: [Judge; 4] = [wavgrut_read, wavgrut_stack_usage, wavgrut_types, wavgrut_both];
}

#[cfg(port)]
impl Subject for Port {
    fn judge(&mut self, call: Call, unit: &mut [u8], area: &mut [u8]) -> u64 {
        // SAFETY: both slices are live for the call, and the port is lent exactly their lengths.
        unsafe { linked::CALLS[call as usize](unit.as_ptr(), unit.len(), area.as_mut_ptr(), area.len()) }
    }
}
