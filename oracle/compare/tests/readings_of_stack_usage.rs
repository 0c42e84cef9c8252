//! The readings of document 01 (docs/DECISIONS.md) about stack usage, as the Rust answers them.
mod common;
use common::usage_of;
use compare::rows::{bare, indexed, plain, with_locals};
use unit::tables::Instantiation;
use unit::{Instruction, Opcode, Unit};

fn empty() -> Unit {
    bare(false, vec![plain(Opcode::Nop)])
}

/// The instruction between as many loads as it pops and as many pops as it pushes.
fn balanced(pops: usize, instruction: Instruction, pushes: usize) -> Vec<Instruction> {
    let around = |opcode, count| vec![plain(opcode); count];
    [around(Opcode::LdTrue, pops), vec![instruction], around(Opcode::Pop, pushes)].concat()
}

#[test]
fn reading_10_what_is_looked_up() {
    use Opcode::*;
    for opcode in [Call, CallGeneric, Pack, PackGeneric, Unpack, UnpackGeneric] {
        assert_eq!(usage_of(&empty(), vec![indexed(opcode, 0)]), "11 k 0", "{opcode:?}");
    }
    for (opcode, pops, pushes) in [
        (LdConst, 0, 1),
        (MoveLoc, 0, 1),
        (ImmBorrowLoc, 0, 1),
        (Exists, 1, 1),
        (MoveFromGeneric, 1, 1),
        (MutBorrowFieldGeneric, 1, 1),
        (MoveTo, 2, 0),
        (VecPack, 0, 1),
        (VecUnpack, 1, 0),
        (VecSwap, 3, 0),
    ] {
        let code = balanced(pops, indexed(opcode, 77), pushes);
        assert_eq!(usage_of(&empty(), code), "0 n 0", "{opcode:?}");
    }
}

#[test]
fn reading_10_type_arguments_are_not_looked_up() {
    let mut unit = with_locals(vec![], vec![plain(Opcode::Nop)]);
    unit.function_instantiations = vec![Instantiation { of: 0, arguments: 77 }];
    unit.struct_instantiations = vec![Instantiation { of: 0, arguments: 77 }];
    assert_eq!(usage_of(&unit, balanced(1, indexed(Opcode::CallGeneric, 0), 0)), "0 n 0");
    assert_eq!(usage_of(&unit, balanced(1, indexed(Opcode::PackGeneric, 0), 1)), "0 n 0");
    assert_eq!(usage_of(&unit, balanced(1, indexed(Opcode::UnpackGeneric, 0), 1)), "0 n 0");
}

#[test]
fn reading_11_a_native_struct_has_no_fields() {
    let unit = with_locals(vec![], vec![plain(Opcode::Nop)]);
    assert_eq!(usage_of(&unit, balanced(0, indexed(Opcode::Pack, 2), 1)), "0 n 0");
    assert_eq!(usage_of(&unit, balanced(1, indexed(Opcode::Unpack, 2), 0)), "0 n 0");
}

#[test]
fn reading_12_which_instructions_are_16_in_a_script() {
    use Opcode::*;
    let script = bare(true, vec![plain(Nop)]);
    for opcode in [Pack, PackGeneric, Unpack, UnpackGeneric] {
        assert_eq!(usage_of(&script, vec![indexed(opcode, 0)]), "16 n 0", "{opcode:?}");
    }
    for opcode in [MutBorrowField, ImmBorrowFieldGeneric, MutBorrowGlobal, Exists, MoveFrom] {
        assert_eq!(usage_of(&script, balanced(1, indexed(opcode, 0), 1)), "0 n 0", "{opcode:?}");
    }
}

#[test]
fn reading_13_pops_come_before_the_height() {
    let unpack = |count| Instruction::counted(Opcode::VecUnpack, 0, count);
    assert_eq!(usage_of(&empty(), vec![unpack(u64::MAX)]), "14 k 0");
    let load = || plain(Opcode::LdTrue);
    // The height is 2^64 - 1: a pop makes room for a push.
    assert_eq!(usage_of(&empty(), vec![load(), unpack(u64::MAX), plain(Opcode::Not)]), "15 k 0");
    assert_eq!(usage_of(&empty(), vec![load(), unpack(u64::MAX), load()]), "13 k 0");
    assert_eq!(usage_of(&empty(), vec![load(), load(), unpack(u64::MAX)]), "13 k 0");
    let take_all = Instruction::counted(Opcode::VecPack, 0, u64::MAX);
    assert_eq!(usage_of(&empty(), vec![load(), unpack(u64::MAX), take_all, plain(Opcode::Pop)]), "0 n 0");
}
