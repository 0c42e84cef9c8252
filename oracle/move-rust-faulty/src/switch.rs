//! Which of the faults is switched on.
use std::sync::atomic::{AtomicUsize, Ordering};

static CHOSEN: AtomicUsize = AtomicUsize::new(usize::MAX);

/// Switches on one fault, by its place in `FAULTS`, and all others off.
pub fn choose(number: usize) {
    CHOSEN.store(number, Ordering::Relaxed);
}

pub fn is_on(number: usize) -> bool {
    CHOSEN.load(Ordering::Relaxed) == number
}
