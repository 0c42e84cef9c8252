//! Lists of blocks: proper, whole, cut where the stack is empty, out of order, repeated, overlapping, random, none.
use crate::rng::Rng;
use unit::tables::Block;
use unit::Unit;

/// Gives the unit a list of blocks. The stack is empty before each instruction of `rests`, if all went well.
pub fn add_blocks(rng: &mut Rng, unit: &mut Unit, rests: &[u16]) {
    let count = unit.code.len() as u16;
    if count == 0 {
        return;
    }
    let cut = between_rests(rests, count);
    unit.blocks = match rng.below(16) {
        0..=3 => vec![Block { first: 0, last: count - 1 }],
        4..=6 => move_rust::proper_blocks(unit).unwrap_or(cut),
        7..=9 => cut,
        10 => shuffled(rng, cut),
        11 => repeated(rng, &cut),
        12 => overlapping(rng, &cut),
        13 => some(rng, cut),
        14 => (0..rng.between(1, 5)).map(|_| any_block(rng, count)).collect(),
        _ if rng.once_in(4) => vec![],
        _ => cut,
    };
}

/// A block from each rest to the next.
pub fn between_rests(rests: &[u16], count: u16) -> Vec<Block> {
    let ends = rests.iter().skip(1).copied().chain([count]);
    rests.iter().zip(ends).map(|(&first, end)| Block { first, last: end - 1 }).collect()
}

fn shuffled(rng: &mut Rng, mut blocks: Vec<Block>) -> Vec<Block> {
    for at in (1..blocks.len()).rev() {
        blocks.swap(at, rng.below(at + 1));
    }
    blocks
}

/// As many blocks again, each one of the list.
fn repeated(rng: &mut Rng, blocks: &[Block]) -> Vec<Block> {
    (0..2 * blocks.len()).map(|_| *rng.pick(blocks)).collect()
}

/// Each block is lengthened to the end of a later one.
fn overlapping(rng: &mut Rng, blocks: &[Block]) -> Vec<Block> {
    let lengthen = |at: usize, rng: &mut Rng| Block { last: rng.pick(&blocks[at..]).last, ..blocks[at] };
    (0..blocks.len()).map(|at| lengthen(at, rng)).collect()
}

/// Some of the blocks.
fn some(rng: &mut Rng, blocks: Vec<Block>) -> Vec<Block> {
    blocks.into_iter().filter(|_| !rng.once_in(3)).collect()
}

/// A block anywhere in the code.
fn any_block(rng: &mut Rng, count: u16) -> Block {
    let first = rng.below(usize::from(count)) as u16;
    Block { first, last: rng.between(usize::from(first), usize::from(count) - 1) as u16 }
}
