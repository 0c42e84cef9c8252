//! The exhaustive sweep: every opcode, with every index that its tables have and some that they have not (VecPack and
//! VecUnpack with four indexes and five counts), over every stack of up to two types of every kind (up to three of a few
//! kinds for VecSwap, up to one in a script), with room and with none beyond the stack itself.
mod tables;

use crate::case::Case;
use std::ops::ControlFlow;
use tables::{base, kinds, kinds_for_swap, LOCALS};
use unit::{Form, Instruction, Opcode, Type, Unit};

/// Calls `visit` with each case of the sweep, in a fixed order, until it breaks.
pub fn for_each_case(mut visit: impl FnMut(Case) -> ControlFlow<()>) -> ControlFlow<()> {
    for is_script in [false, true] {
        let base = base(is_script);
        for instruction in Opcode::ALL.iter().flat_map(|&opcode| instructions(&base, opcode)) {
            let deepest = match instruction.opcode {
                _ if is_script => 1,
                Opcode::VecSwap => 3,
                _ => 2,
            };
            for_each_stack(deepest, &mut |stack| {
                with_and_without_room(&base, stack, instruction, &mut visit)
            })?;
        }
    }
    ControlFlow::Continue(())
}

/// Every stack of at most so many of the kinds.
fn for_each_stack(deepest: usize, visit: Visit) -> ControlFlow<()> {
    let kinds = if deepest > 2 { kinds_for_swap() } else { kinds() };
    extend(&kinds, deepest, &mut vec![], visit)
}

type Visit<'a> = &'a mut dyn FnMut(&[Type]) -> ControlFlow<()>;

/// The stack itself, and every one that has up to so many more on it.
fn extend(kinds: &[Type], more: usize, stack: &mut Vec<Type>, visit: Visit) -> ControlFlow<()> {
    visit(stack)?;
    if more > 0 {
        for kind in kinds {
            stack.push(kind.clone());
            extend(kinds, more - 1, stack, visit)?;
            stack.pop();
        }
    }
    ControlFlow::Continue(())
}

/// The stack is put from locals; the instruction stands after it.
fn with_and_without_room(
    base: &Unit,
    stack: &[Type],
    instruction: Instruction,
    visit: &mut impl FnMut(Case) -> ControlFlow<()>,
) -> ControlFlow<()> {
    let mut unit = base.clone();
    let locals = &mut unit.signatures[LOCALS];
    *locals = [stack, locals].concat();
    let put = |local| Instruction::indexed(Opcode::MoveLoc, local as u16);
    unit.code = (0..stack.len()).map(put).chain([instruction]).collect();
    unit.list_one_block();
    let bytes = unit.write();
    visit(Case { unit: bytes.clone(), area: 1_024 })?;
    visit(Case { unit: bytes, area: stack.iter().map(weight).sum() })
}

fn weight(a_type: &Type) -> usize {
    let mut bytes = vec![];
    a_type.write(&mut bytes);
    bytes.len() + 2
}

/// The opcode with each operand that differs: every index of its table, the first one past it and the last of all.
fn instructions(base: &Unit, opcode: Opcode) -> Vec<Instruction> {
    let past = table_length(base, opcode) as u16;
    let indexes = (0..=past).chain([u16::MAX]);
    match opcode.form() {
        Form::Plain | Form::Offset | Form::Integer(_) => vec![Instruction::plain(opcode)],
        Form::Local => (0..7).map(|local| Instruction::indexed(opcode, local)).collect(),
        Form::Index => indexes.map(|index| Instruction::indexed(opcode, index)).collect(),
        Form::Counted => {
            let counted =
                |index| [0, 1, 2, 3, u64::MAX].map(|count| Instruction::counted(opcode, index, count));
            [0, 1, 4, past].into_iter().flat_map(counted).collect()
        }
    }
}

/// How many entries the table has that the opcode's index names.
fn table_length(unit: &Unit, opcode: Opcode) -> usize {
    use Opcode::*;
    match opcode {
        LdConst => unit.constants.len(),
        Call => unit.function_handles.len(),
        CallGeneric => unit.function_instantiations.len(),
        MutBorrowField | ImmBorrowField => unit.field_handles.len(),
        MutBorrowFieldGeneric | ImmBorrowFieldGeneric => unit.field_instantiations.len(),
        Pack | Unpack | MutBorrowGlobal | ImmBorrowGlobal | Exists | MoveFrom | MoveTo => {
            unit.struct_definitions.len()
        }
        PackGeneric
        | UnpackGeneric
        | MutBorrowGlobalGeneric
        | ImmBorrowGlobalGeneric
        | ExistsGeneric
        | MoveFromGeneric
        | MoveToGeneric => unit.struct_instantiations.len(),
        _ => unit.signatures.len(),
    }
}
