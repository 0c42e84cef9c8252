//! Units of the generator that both passes accept, by length: short ones as they are, and longer ones that repeat the
//! code of others, three times or as often as there is room.
use crate::case::{Call, Case};
use crate::rows::USUAL_AREA;
use crate::{generate, oracle};
use std::ops::RangeInclusive;
use unit::tables::Block;
use unit::{Unit, LONGEST_UNIT};

const SEED: u64 = 1;
/// What a block record takes, in bytes.
const BLOCK_RECORD: usize = 5;

/// Of about 12 instructions.
pub fn small() -> Vec<Unit> {
    accepted(200, 10..=14)
}

/// Of 120 to 300 instructions.
pub fn medium() -> Vec<Unit> {
    accepted(100, 40..=100).iter().map(|unit| repeated(unit, 3)).collect()
}

/// Close to as long as a unit may be.
pub fn largest() -> Vec<Unit> {
    accepted(10, 40..=100).iter().map(|unit| repeated(unit, copies_that_fit(unit))).collect()
}

/// The generator's first units of so many instructions that both passes accept and walk whole.
fn accepted(wanted: usize, instructions: RangeInclusive<usize>) -> Vec<Unit> {
    let units = (0..).filter_map(|number| unit::read(&generate::case(SEED, number).unit).ok());
    units
        .filter(|unit| instructions.contains(&unit.code.len()) && is_walked_whole(unit))
        .take(wanted)
        .collect()
}

/// Whether both passes accept the unit, having walked as many instructions as it has.
fn is_walked_whole(unit: &Unit) -> bool {
    let answers = oracle::answers(&Case { unit: unit.write(), area: USUAL_AREA });
    let steps = answers.passes.as_ref().map(|passes| passes.types.steps);
    answers.to(Call::Both).accepts() && steps == Some(unit.code.len())
}

/// How often a unit has room for its code and its blocks.
fn copies_that_fit(unit: &Unit) -> usize {
    let mut code = Vec::new();
    unit.code.iter().for_each(|instruction| instruction.write(&mut code));
    let once = code.len() + BLOCK_RECORD * unit.blocks.len();
    let tables = unit.write().len() - once;
    (LONGEST_UNIT - tables) / once
}

/// The unit with its code and its blocks so many times. It is accepted as the unit is: the stack is empty after each
/// block, and no pass follows a branch.
fn repeated(unit: &Unit, copies: usize) -> Unit {
    let blocks_of_copy = |copy: usize| {
        let shift = (copy * unit.code.len()) as u16;
        unit.blocks.iter().map(move |block| Block { first: block.first + shift, last: block.last + shift })
    };
    Unit {
        code: unit.code.repeat(copies),
        blocks: (0..copies).flat_map(blocks_of_copy).collect(),
        ..unit.clone()
    }
}
