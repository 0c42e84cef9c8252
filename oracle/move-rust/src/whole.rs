//! The repository's passes as they are, `cfg()` and all, for code whose control flow graph can be built. The walks over
//! listed blocks are held to these on units that list exactly the graph's blocks.
use crate::caught::{self, Ended};
use crate::control_flow_graph::{ControlFlowGraph, VMControlFlowGraph};
use crate::loaded::{verdict_of_error, Loaded};
use crate::stack_usage_verifier::StackUsageVerifier;
use crate::type_safety;
use unit::tables::Block;
use unit::verdict::number::{EMPTY_STACK, HEIGHT, OUT_OF_TABLE};
use unit::{Form, Instruction, Opcode, Position, Unit, Verdict};

/// What a whole pass answers. A panic has no place.
pub enum Whole {
    Answered(Verdict),
    Panicked(u8),
}

impl Whole {
    /// Whether a walk's verdict is the same, as far as this one goes.
    pub fn agrees(&self, verdict: Verdict) -> bool {
        match self {
            Whole::Answered(own) => *own == verdict,
            Whole::Panicked(number) => *number == verdict.number,
        }
    }
}

/// The blocks of the repository's control flow graph, in its order; none where it can't be built: for no code, and
/// with a branch out of the code.
pub fn proper_blocks(unit: &Unit) -> Option<Vec<Block>> {
    let count = unit.code.len();
    let mut branches = unit.code.iter().filter(|instruction| instruction.opcode.form() == Form::Offset);
    if count == 0 || branches.any(|branch| usize::from(branch.index) >= count) {
        return None;
    }
    let code: Vec<_> = unit.code.iter().map(crate::bytecode::bytecode).collect();
    let graph = VMControlFlowGraph::new(&code);
    let block = |id| Block { first: graph.block_start(id), last: graph.block_end(id) };
    Some(graph.blocks().into_iter().map(block).collect())
}

/// What `StackUsageVerifier::verify` and `verify` of type_safety.rs answer to a unit that lists the blocks of its
/// control flow graph; none to any other, and none where a VecUnpack would fill the memory.
pub fn verify_whole(unit: &Unit) -> Option<(Whole, Whole)> {
    let fills_memory = |i: &Instruction| i.opcode == Opcode::VecUnpack && i.count > 1_000;
    if unit.code.iter().any(fills_memory) || proper_blocks(unit)? != unit.blocks {
        return None;
    }
    let loaded = Loaded::new(unit);
    Some(loaded.with_views(loaded.code(), |resolver, view| {
        let usage = caught::run(&[OUT_OF_TABLE, HEIGHT], || StackUsageVerifier::verify(resolver, view));
        let types = caught::run(&[EMPTY_STACK, OUT_OF_TABLE], || type_safety::verify(resolver, view));
        (whole(usage, Position::BlockStart), whole(types, Position::Instruction))
    }))
}

fn whole(ended: Ended, position: fn(u16) -> Position) -> Whole {
    match ended {
        Ended::Returned(Ok(())) => Whole::Answered(Verdict::ACCEPTED),
        Ended::Returned(Err(error)) => Whole::Answered(verdict_of_error(error, position)),
        Ended::Panicked(number) => Whole::Panicked(number),
    }
}
