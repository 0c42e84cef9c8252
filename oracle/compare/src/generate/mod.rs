//! The generator: a seed and a number give a case.
//!
//! Most cases are good units, or good units with one change, so that deep walks are common and refusals come late.
mod blocks;
mod change;
mod damage;
mod effects;
mod large;
mod program;
mod tables;
mod types;

use crate::case::Case;
use crate::rng::Rng;
use move_rust::Loaded;
use program::Program;
use types::{Scope, OFTEN, SELDOM};
use unit::tables::{FunctionHandle, Instantiation};
use unit::{Instruction, Opcode, Unit, LONGEST_AREA};

/// The case of that number.
pub fn case(seed: u64, number: u64) -> Case {
    let rng = &mut Rng::of_case(seed, number);
    let unit = unit_bytes(rng);
    let area = area(rng, &unit);
    Case { unit, area }
}

fn unit_bytes(rng: &mut Rng) -> Vec<u8> {
    match rng.below(1_000) {
        0..=249 => good(rng).write(),
        250..=599 => changed(rng).write(),
        600..=789 => clashing(rng).write(),
        790..=809 => high(rng).write(),
        810..=819 => returning(rng).write(),
        820..=919 => damaged(rng),
        920..=997 => damage::garbage(rng),
        _ => large::large(rng),
    }
}

/// A unit that is mostly accepted by both passes.
fn good(rng: &mut Rng) -> Unit {
    let mut unit = tables::tables(rng, SELDOM);
    let chosen = *rng.pick(&[1, 2, 4, 8, 16, 30]);
    let rests = Program::new(rng, &mut unit, SELDOM).write(chosen);
    blocks::add_blocks(rng, &mut unit, &rests);
    unit
}

/// A good unit with one change, at times with two.
fn changed(rng: &mut Rng) -> Unit {
    let mut unit = good(rng);
    change::change(rng, &mut unit);
    if rng.once_in(8) {
        change::change(rng, &mut unit);
    }
    unit
}

/// One instruction over operands that nearly fit, with some of the tables changed: refusals meet, and their order is
/// seen.
fn clashing(rng: &mut Rng) -> Unit {
    let mut unit = tables::tables(rng, OFTEN);
    Program::new(rng, &mut unit, OFTEN).write_one();
    change::spoil_tables(rng, &mut unit);
    unit.list_one_block();
    unit
}

/// A good unit with, somewhere, a VecUnpack that takes the height to about 2^64, and an instruction after it, often one
/// that looks its effect up.
fn high(rng: &mut Rng) -> Unit {
    use Opcode::*;
    let mut unit = good(rng);
    let at = rng.below(unit.code.len());
    let count = u64::MAX - rng.below(3) as u64;
    let index = rng.below(unit.signatures.len()) as u16;
    let looked_up = [Call, CallGeneric, Pack, PackGeneric, Unpack, UnpackGeneric, VecPack, VecUnpack];
    let mut after = change::any_instruction(rng);
    if rng.once_in(2) {
        after.opcode = *rng.pick(&looked_up);
    }
    let put = [Instruction::plain(LdTrue), Instruction::counted(VecUnpack, index, count), after];
    unit.code.splice(at..at, put);
    unit
}

/// A call of several returns, of which some may pass the area and some may name a parameter that is not there.
fn returning(rng: &mut Rng) -> Unit {
    let mut unit = tables::tables(rng, SELDOM);
    let scope = Scope { handles: &unit.struct_handles, parameters: 3, odd: SELDOM };
    let returns = (0..rng.between(2, 5)).map(|_| scope.any(rng)).collect();
    let arguments = (0..rng.between(1, 3)).map(|_| scope.value(rng, 2)).collect();
    let handle = FunctionHandle { parameters: 0, returns: tables::push_signature(&mut unit, returns) };
    let arguments = tables::push_signature(&mut unit, arguments);
    unit.function_instantiations
        .insert(0, Instantiation { of: unit.function_handles.len() as u16, arguments });
    unit.function_handles.push(handle);
    unit.code = vec![Instruction::indexed(Opcode::CallGeneric, 0); rng.between(1, 3)];
    unit.list_one_block();
    unit
}

fn damaged(rng: &mut Rng) -> Vec<u8> {
    let mut bytes = if rng.once_in(2) { good(rng) } else { changed(rng) }.write();
    damage::damage(rng, &mut bytes);
    bytes
}

/// An area: of ample length, about what the walk needs, very short, or as long as may be and about that.
fn area(rng: &mut Rng, bytes: &[u8]) -> usize {
    match rng.below(100) {
        0..=44 => 1_024,
        45..=74 => about_needed(rng, bytes),
        75..=89 => rng.below(64),
        90..=91 => 0,
        92..=95 => rng.below(4_096),
        96 => 16_384,
        97 => LONGEST_AREA,
        98 => LONGEST_AREA + 1,
        _ => rng.between(LONGEST_AREA - 2, LONGEST_AREA + 300),
    }
}

/// What the Rust's stack weighs at the most, and up to a few bytes more or fewer.
fn about_needed(rng: &mut Rng, bytes: &[u8]) -> usize {
    let needed = unit::read(bytes).map_or(0, |unit| Loaded::new(&unit).types(LONGEST_AREA).heaviest);
    (needed + rng.below(3)).saturating_sub(rng.below(5))
}
