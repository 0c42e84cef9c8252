//! The expected answers: the unit is read by the reader of `unit`, and the two passes are the repository's own.
use crate::case::{Call, Case};
use move_rust::{Loaded, Walked};
use unit::verdict::number::AREA;
use unit::{Unit, Verdict, LONGEST_AREA};

/// What the four calls answer to a case.
pub struct Answers {
    verdicts: [Verdict; 4],
    /// How the passes went, where they were reached.
    pub passes: Option<Passes>,
}

/// The two passes over a unit that was read.
pub struct Passes {
    pub unit: Unit,
    pub loaded: Loaded,
    pub usage: Verdict,
    pub types: Walked,
}

impl Answers {
    pub fn to(&self, call: Call) -> Verdict {
        self.verdicts[call as usize]
    }
}

/// The answers of the repository's Rust.
pub fn answers(case: &Case) -> Answers {
    let unit = match read(case, unit::read) {
        Ok(unit) => unit,
        Err(refusal) => return Answers { verdicts: [refusal; 4], passes: None },
    };
    let loaded = Loaded::new(&unit);
    let usage = loaded.stack_usage();
    let types = loaded.types(case.area);
    let verdicts = four(usage, types.verdict);
    Answers { verdicts, passes: Some(Passes { unit, loaded, usage, types }) }
}

/// What every call does first: the area's length is judged, then the unit is read, by that reader.
pub fn read(case: &Case, reader: fn(&[u8]) -> Result<Unit, Verdict>) -> Result<Unit, Verdict> {
    if case.area > LONGEST_AREA {
        return Err(Verdict::at_byte(AREA, 0));
    }
    reader(&case.unit)
}

/// The verdicts of the four calls on a unit that was read, in the order of `Call::ALL`.
pub fn four(usage: Verdict, types: Verdict) -> [Verdict; 4] {
    let both = if usage.accepts() { types } else { usage };
    [Verdict::ACCEPTED, usage, types, both]
}
