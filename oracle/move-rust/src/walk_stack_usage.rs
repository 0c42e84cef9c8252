//! `StackUsageVerifier::verify` over the listed blocks. This is a child module of stack_usage_verifier.rs, so that it
//! can make the verifier and call `verify_block`, which runs as it is.
use super::StackUsageVerifier;
use crate::binary_views::{BinaryIndexedView, FunctionView};
use crate::caught::{self, Ended};
use crate::control_flow_graph::ControlFlowGraph;
use crate::errors::PartialVMResult;
use crate::file_format::CodeUnit;
use crate::listed_blocks::ListedBlocks;
use unit::tables::Block;
use unit::verdict::number::{HEIGHT, OUT_OF_TABLE};
use unit::{Position, Verdict};

/// Runs `verify_block` on each block of the list, to the first refusal. `code` stands in place of the view's own.
pub fn walk(resolver: &BinaryIndexedView, view: &FunctionView, code: &CodeUnit, blocks: &[Block]) -> Verdict {
    let verifier = verifier(resolver, view, code);
    let listed = ListedBlocks(blocks);
    for id in listed.blocks() {
        let ended = caught::run(&[OUT_OF_TABLE, HEIGHT], || verifier.verify_block(id, &listed));
        let verdict = verdict_of(ended, listed.block_start(id));
        if !verdict.accepts() {
            return verdict;
        }
    }
    Verdict::ACCEPTED
}

/// The same walk with nothing around `verify_block`: no panic is caught. For timing.
pub fn walk_bare(
    resolver: &BinaryIndexedView,
    view: &FunctionView,
    code: &CodeUnit,
    blocks: &[Block],
) -> PartialVMResult<()> {
    let verifier = verifier(resolver, view, code);
    let listed = ListedBlocks(blocks);
    listed.blocks().into_iter().try_for_each(|id| verifier.verify_block(id, &listed))
}

fn verifier<'a>(
    resolver: &'a BinaryIndexedView<'a>,
    view: &'a FunctionView<'a>,
    code: &'a CodeUnit,
) -> StackUsageVerifier<'a> {
    StackUsageVerifier { resolver, current_function: view.index(), code, return_: view.return_() }
}

/// A panic has no place of its own; like every refusal of this pass it carries the block's start.
fn verdict_of(ended: Ended, block_start: u16) -> Verdict {
    match ended {
        Ended::Returned(Ok(())) => Verdict::ACCEPTED,
        Ended::Returned(Err(error)) => crate::loaded::verdict_of_error(error, Position::BlockStart),
        Ended::Panicked(number) => Verdict { number, position: Position::BlockStart(block_start) },
    }
}
