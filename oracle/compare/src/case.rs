//! What is asked: a unit's bytes and an area's length, by each of the four public calls.

/// Document 01's public calls, at the numbers that a recorded case has for them.
#[derive(Clone, Copy, PartialEq, Eq, Debug)]
pub enum Call {
    Read,
    StackUsage,
    Types,
    Both,
}

impl Call {
    pub const ALL: [Call; 4] = [Call::Read, Call::StackUsage, Call::Types, Call::Both];
}

#[derive(Clone, PartialEq, Eq, Debug)]
pub struct Case {
    pub unit: Vec<u8>,
    pub area: usize,
}

impl Case {
    /// The unit in hexadecimal.
    pub fn hex(&self) -> String {
        self.unit.iter().map(|byte| format!("{byte:02x}")).collect()
    }
}
