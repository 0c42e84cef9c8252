//! `verify` of type_safety.rs over the listed blocks. This is a child module of type_safety.rs, so that it can make the
//! checker, call `verify_instr`, which runs as it is, and weigh the checker's stack.
use super::{verify_instr, TypeSafetyChecker};
use crate::binary_views::{BinaryIndexedView, FunctionView};
use crate::caught::{self, Ended};
use crate::errors::PartialVMResult;
use crate::file_format::{Bytecode, CodeOffset, SignatureIndex, SignatureToken};
use crate::loaded::{verdict_of_error, Walked};
use unit::tables::Block;
use unit::verdict::number::{EMPTY_STACK, NO_ROOM, OUT_OF_TABLE};
use unit::{Position, Verdict};

/// Runs `verify_instr` on each instruction of each block, as listed, from an empty stack that is not cleared between
/// blocks, to the first refusal.
pub fn walk<'a>(
    resolver: &'a BinaryIndexedView<'a>,
    view: &'a FunctionView<'a>,
    code: &[Bytecode],
    blocks: &[Block],
    area: usize,
) -> Walked {
    let mut checker = TypeSafetyChecker::new(resolver, view);
    let mut walked = Walked { verdict: Verdict::ACCEPTED, steps: 0, heaviest: 0 };
    for block in blocks {
        for offset in block.first..=block.last {
            walked.verdict = step(&mut checker, &code[usize::from(offset)], offset, area);
            if !walked.verdict.accepts() {
                return walked;
            }
            walked.steps += 1;
            walked.heaviest = walked.heaviest.max(weight(&checker.stack));
        }
    }
    walked
}

/// The same walk with nothing around `verify_instr`: no panic is caught and the stack is not weighed. For timing.
pub fn walk_bare<'a>(
    resolver: &'a BinaryIndexedView<'a>,
    view: &'a FunctionView<'a>,
    code: &[Bytecode],
    blocks: &[Block],
) -> PartialVMResult<()> {
    let mut checker = TypeSafetyChecker::new(resolver, view);
    for block in blocks {
        for offset in block.first..=block.last {
            verify_instr(&mut checker, &code[usize::from(offset)], offset)?;
        }
    }
    Ok(())
}

/// One `verify_instr`, and NO_ROOM where the stack passes the area.
///
/// The stack is weighed once, however the instruction ended, and that finds the refusal of every single push: before
/// the instruction the stack is within the area, pops only lighten it and each push adds to it, so some push passed
/// the area exactly if the stack passes it in the end. It comes before whatever else the instruction ended with, since
/// the Rust goes on to nothing that can fail after a push but the next return of a call, which panics (11) with the
/// earlier returns pushed.
fn step(checker: &mut TypeSafetyChecker, instr: &Bytecode, offset: CodeOffset, area: usize) -> Verdict {
    let bounded = with_bounded_count(checker, instr, area);
    let instr = bounded.as_ref().unwrap_or(instr);
    let ended = caught::run(&[EMPTY_STACK, OUT_OF_TABLE], || verify_instr(checker, instr, offset));
    let at = Position::Instruction(offset);
    if weight(&checker.stack) > area {
        return Verdict { number: NO_ROOM, position: at };
    }
    match ended {
        Ended::Returned(Ok(())) => Verdict::ACCEPTED,
        Ended::Returned(Err(error)) => verdict_of_error(error, Position::Instruction),
        Ended::Panicked(number) => Verdict { number, position: at },
    }
}

/// VecUnpack with a huge count would push until memory ends. A count that alone passes the area has the same verdict,
/// so the real instruction is run with the smallest such count.
fn with_bounded_count(checker: &TypeSafetyChecker, instr: &Bytecode, area: usize) -> Option<Bytecode> {
    let (index, count) = match instr {
        Bytecode::VecUnpack(index, count) => (*index, *count),
        _ => return None,
    };
    let element = element_type(checker, index)?;
    let passes_area = (area / entry_weight(element) + 1) as u64;
    Some(Bytecode::VecUnpack(index, count.min(passes_area)))
}

/// The element type, where there is one; where there is none the Rust never comes to the count.
fn element_type<'a>(checker: &TypeSafetyChecker<'a>, index: SignatureIndex) -> Option<&'a SignatureToken> {
    checker.resolver.signatures().get(usize::from(index.0))?.0.first()
}

/// What a stack weighs: document 01's "An entry weighs its bytes plus 2".
fn weight(stack: &[SignatureToken]) -> usize {
    stack.iter().map(entry_weight).sum()
}

fn entry_weight(token: &SignatureToken) -> usize {
    encoded_length(token) + 2
}

/// The length of a type's bytes.
fn encoded_length(token: &SignatureToken) -> usize {
    use SignatureToken::*;
    match token {
        Bool | U8 | U64 | U128 | Address | Signer => 1,
        Vector(inner) | Reference(inner) | MutableReference(inner) => 1 + encoded_length(inner),
        Struct(_) | TypeParameter(_) => 3,
        StructInstantiation(_, arguments) => 4 + arguments.iter().map(encoded_length).sum::<usize>(),
    }
}
