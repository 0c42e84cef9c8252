//! Runs a piece of the Rust, catches its panic and says which one it was.
use crate::errors::PartialVMResult;
use std::any::Any;
use std::cell::Cell;
use std::panic::{self, AssertUnwindSafe};
use std::sync::Once;
use unit::verdict::number::{EMPTY_STACK, HEIGHT, OUT_OF_TABLE};

thread_local! {
    /// Whether this thread is inside the Rust, whose panics are answers and not to be printed.
    static INSIDE: Cell<bool> = const { Cell::new(false) };
}

/// How a piece of the Rust ended.
pub enum Ended {
    Returned(PartialVMResult<()>),
    /// It panicked, and this is the number for it.
    Panicked(u8),
}

/// Runs `piece`. A panic must be one of `expected`; any other is passed on.
pub fn run(expected: &[u8], piece: impl FnOnce() -> PartialVMResult<()>) -> Ended {
    silence_panics_inside();
    INSIDE.with(|inside| inside.set(true));
    let ended = panic::catch_unwind(AssertUnwindSafe(piece));
    INSIDE.with(|inside| inside.set(false));
    match ended {
        Ok(result) => Ended::Returned(result),
        Err(payload) => Ended::Panicked(number_of(&*payload, expected)),
    }
}

/// The panics that are numbers: `unwrap()` on an empty stack, an index past a vector, an overflow of the height.
fn number_of(payload: &(dyn Any + Send), expected: &[u8]) -> u8 {
    let text = match (payload.downcast_ref::<&str>(), payload.downcast_ref::<String>()) {
        (Some(text), _) => text,
        (None, Some(text)) => text.as_str(),
        (None, None) => "a payload that is no text",
    };
    let number = match text {
        "called `Option::unwrap()` on a `None` value" => Some(EMPTY_STACK),
        "attempt to add with overflow" => Some(HEIGHT),
        _ if text.starts_with("index out of bounds: the len is ") => Some(OUT_OF_TABLE),
        _ => None,
    };
    match number {
        Some(number) if expected.contains(&number) => number,
        _ => panic!("the Rust panicked where it is not expected to: {}", text),
    }
}

fn silence_panics_inside() {
    static ONCE: Once = Once::new();
    ONCE.call_once(|| {
        let usual = panic::take_hook();
        panic::set_hook(Box::new(move |info| {
            if !INSIDE.with(Cell::get) {
                usual(info)
            }
        }));
    });
}
