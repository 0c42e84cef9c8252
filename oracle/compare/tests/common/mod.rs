//! What the tests of the readings of document 01 (docs/DECISIONS.md) share: a unit's verdict as it is printed, and short ways to write code.
// Each test file is a program of its own and uses part of this.
#![allow(dead_code)]
use compare::case::{Call, Case};
use compare::oracle::answers;
use compare::rows::USUAL_AREA;
use unit::{Instruction, Unit};

/// The verdict on a unit, as it is printed.
pub fn says(call: Call, unit: &Unit) -> String {
    says_with(call, unit, USUAL_AREA)
}

pub fn says_with(call: Call, unit: &Unit, area: usize) -> String {
    says_of_bytes(call, unit.write(), area)
}

pub fn says_of_bytes(call: Call, unit: Vec<u8>, area: usize) -> String {
    answers(&Case { unit, area }).to(call).to_string()
}

/// The verdict of the type pass on code in the tables of a unit.
pub fn types_of(unit: &Unit, code: Vec<Instruction>) -> String {
    says(Call::Types, &compare::rows::in_one_block(unit.clone(), code))
}

/// The same of stack usage.
pub fn usage_of(unit: &Unit, code: Vec<Instruction>) -> String {
    says(Call::StackUsage, &compare::rows::in_one_block(unit.clone(), code))
}
