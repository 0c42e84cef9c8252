//! The readings of document 01 (docs/DECISIONS.md) about types, as the Rust answers them: the order of refusals within an instruction.
mod common;
use common::{says, types_of};
use compare::case::Call;
use compare::rows::{bare, holding, indexed, plain, with_locals, K, N, S};
use unit::tables::{Block, FieldHandle, FunctionHandle, Instantiation, StructDefinition};
use unit::{Instruction, Opcode, Type, Unit};

/// The type pass on one instruction over a stack; its offset is the stack's length.
fn on(stack: &[Type], instruction: Instruction) -> String {
    says(Call::Types, &holding(stack.to_vec(), instruction))
}

/// The same with changed tables.
fn on_with(change: impl Fn(&mut Unit), stack: &[Type], instruction: Instruction) -> String {
    let mut unit = holding(stack.to_vec(), instruction);
    change(&mut unit);
    says(Call::Types, &unit)
}

/// A script with those locals as the stack.
fn in_script(stack: &[Type], instruction: Instruction) -> String {
    let strip = |unit: &mut Unit| {
        unit.is_script = true;
        unit.struct_definitions.clear();
        unit.field_handles.clear();
    };
    on_with(strip, stack, instruction)
}

fn instantiate(unit: &mut Unit, of: u16, arguments: u16) {
    unit.struct_instantiations.push(Instantiation { of, arguments });
}

#[test]
fn reading_14_native_structs() {
    assert_eq!(on(&[], indexed(Opcode::Unpack, 2)), "10 i 0");
    assert_eq!(on(&[S], indexed(Opcode::Unpack, 2)), "25 i 1");
    assert_eq!(on(&[N], indexed(Opcode::Unpack, 2)), "24 i 1");
    assert_eq!(on(&[], indexed(Opcode::Pack, 2)), "24 i 0");
}

#[test]
fn reading_15_borrow_field() {
    use Opcode::*;
    assert_eq!(on(&[S.reference()], indexed(MutBorrowField, 9)), "18 i 1");
    assert_eq!(on(&[S.mutable()], indexed(MutBorrowField, 9)), "11 i 1");
    assert_eq!(on(&[S], indexed(ImmBorrowField, 9)), "11 i 1");
    assert_eq!(on(&[S], indexed(ImmBorrowField, 0)), "18 i 1");
    assert_eq!(in_script(&[S], indexed(MutBorrowField, 0)), "18 i 1");
    assert_eq!(in_script(&[S.mutable()], indexed(MutBorrowField, 0)), "16 n 0");
    assert_eq!(in_script(&[S], indexed(ImmBorrowField, 0)), "16 n 0");
    assert_eq!(in_script(&[], indexed(ImmBorrowField, 0)), "10 i 0");
    for opcode in [MutBorrowFieldGeneric, ImmBorrowFieldGeneric] {
        assert_eq!(in_script(&[], indexed(opcode, 0)), "16 n 0");
        assert_eq!(on(&[], indexed(opcode, 0)), "11 i 0");
        let no_signature =
            |unit: &mut Unit| unit.field_instantiations = vec![Instantiation { of: 0, arguments: 9 }];
        assert_eq!(on_with(no_signature, &[], indexed(opcode, 0)), "11 i 0");
        let no_handle =
            |unit: &mut Unit| unit.field_instantiations = vec![Instantiation { of: 9, arguments: 1 }];
        assert_eq!(on_with(no_handle, &[], indexed(opcode, 0)), "10 i 0");
    }
    let no_field = |unit: &mut Unit| unit.field_handles[1] = FieldHandle { owner: 2, field: 99 };
    assert_eq!(on_with(no_field, &[N.reference()], indexed(ImmBorrowField, 1)), "19 i 1");
}

#[test]
fn reading_16_global_storage() {
    use Opcode::*;
    for opcode in [MutBorrowGlobalGeneric, ImmBorrowGlobalGeneric] {
        assert_eq!(in_script(&[], indexed(opcode, 0)), "16 n 0");
        assert_eq!(on(&[], indexed(opcode, 0)), "11 i 0");
        assert_eq!(on_with(|unit| instantiate(unit, 9, 9), &[], indexed(opcode, 0)), "11 i 0");
        assert_eq!(on_with(|unit| instantiate(unit, 9, 1), &[], indexed(opcode, 0)), "10 i 0");
        assert_eq!(on_with(|unit| instantiate(unit, 9, 1), &[Type::Bool], indexed(opcode, 0)), "21 i 1");
        assert_eq!(on_with(|unit| instantiate(unit, 9, 1), &[Type::Address], indexed(opcode, 0)), "11 i 1");
    }
    for opcode in [ExistsGeneric, MoveFromGeneric, MoveToGeneric, PackGeneric, UnpackGeneric] {
        assert_eq!(in_script(&[], indexed(opcode, 0)), "16 n 0", "{opcode:?}");
        for (of, arguments) in [(9, 1), (0, 9)] {
            assert_eq!(on_with(|unit| instantiate(unit, of, arguments), &[], indexed(opcode, 0)), "11 i 0");
        }
    }
    for opcode in [MutBorrowGlobal, ImmBorrowGlobal] {
        assert_eq!(in_script(&[], indexed(opcode, 0)), "10 i 0");
        assert_eq!(in_script(&[Type::Bool], indexed(opcode, 0)), "21 i 1");
        assert_eq!(in_script(&[Type::Address], indexed(opcode, 0)), "16 n 0");
    }
    // Key is tested before the pop.
    assert_eq!(on(&[], indexed(Exists, 0)), "26 i 0");
    assert_eq!(on(&[], indexed(Exists, 1)), "10 i 0");
    assert_eq!(on(&[], indexed(MoveFrom, 0)), "27 i 0");
    assert_eq!(on(&[], indexed(MoveTo, 0)), "29 i 0");
}

#[test]
fn reading_17_vectors() {
    use Opcode::*;
    let vector = || Type::U8.vector().mutable();
    assert_eq!(on(&[vector(), Type::U64, Type::U8], indexed(VecSwap, 9)), "31 i 3");
    assert_eq!(on(&[vector(), Type::U8, Type::U64], indexed(VecSwap, 9)), "31 i 3");
    assert_eq!(on(&[vector(), Type::U64, Type::U64], indexed(VecSwap, 9)), "11 i 3");
    for opcode in [VecLen, VecPopBack, VecUnpack] {
        assert_eq!(on(&[], indexed(opcode, 9)), "10 i 0", "{opcode:?}");
        assert_eq!(on(&[Type::Bool], indexed(opcode, 9)), "11 i 1", "{opcode:?}");
    }
    assert_eq!(on(&[vector()], indexed(VecPushBack, 9)), "10 i 1");
    assert_eq!(on(&[vector(), Type::Bool], indexed(VecPushBack, 9)), "11 i 2");
    for opcode in [VecImmBorrow, VecMutBorrow, VecPack] {
        assert_eq!(on(&[], indexed(opcode, 9)), "11 i 0", "{opcode:?}");
        // An empty signature has no element type.
        assert_eq!(on(&[], indexed(opcode, 0)), "11 i 0", "{opcode:?}");
    }
}

#[test]
fn reading_18_st_loc_pops_first() {
    assert_eq!(on(&[], indexed(Opcode::StLoc, 9)), "10 i 0");
    assert_eq!(on(&[Type::U8], indexed(Opcode::StLoc, 9)), "11 i 1");
}

#[test]
fn reading_19_eq_asks_the_top_operand() {
    for opcode in [Opcode::Eq, Opcode::Neq] {
        assert_eq!(on(&[Type::U8, Type::Struct(9)], plain(opcode)), "11 i 2");
        assert_eq!(on(&[Type::Struct(9), Type::U8], plain(opcode)), "46 i 2");
        assert_eq!(on(&[K, K], plain(opcode)), "46 i 2");
    }
}

#[test]
fn reading_20_no_look_inside_a_reference() {
    assert_eq!(on(&[Type::Struct(9).reference()], plain(Opcode::Pop)), "0 n 0");
    assert_eq!(on(&[Type::Struct(9)], plain(Opcode::Pop)), "11 i 1");
}

#[test]
fn reading_21_a_call_looks_its_returns_up_last() {
    let handles = |parameters, returns| {
        move |unit: &mut Unit| unit.function_handles = vec![FunctionHandle { parameters, returns }]
    };
    assert_eq!(on_with(handles(9, 9), &[], indexed(Opcode::Call, 0)), "11 i 0");
    assert_eq!(on_with(handles(1, 9), &[], indexed(Opcode::Call, 0)), "10 i 0");
    assert_eq!(on_with(handles(1, 9), &[Type::Bool], indexed(Opcode::Call, 0)), "23 i 1");
    assert_eq!(on_with(handles(1, 9), &[Type::U8], indexed(Opcode::Call, 0)), "11 i 1");
}

#[test]
fn a_parameter_is_instantiated_after_its_pop_and_before_it_is_compared() {
    let names_parameter = |unit: &mut Unit| unit.signatures[1] = vec![Type::TypeParameter(0)];
    assert_eq!(on_with(names_parameter, &[], indexed(Opcode::Call, 0)), "10 i 0");
    assert_eq!(on_with(names_parameter, &[Type::Bool], indexed(Opcode::Call, 0)), "11 i 1");
}

#[test]
fn pack_and_unpack_instantiate_every_field_first() {
    let names_parameter = |unit: &mut Unit| {
        unit.struct_definitions[0] =
            StructDefinition { handle: 0, fields: Some(vec![Type::TypeParameter(0), Type::U8]) }
    };
    assert_eq!(on_with(names_parameter, &[], indexed(Opcode::Pack, 0)), "11 i 0");
    assert_eq!(on_with(names_parameter, &[], indexed(Opcode::Unpack, 0)), "10 i 0");
    assert_eq!(on_with(names_parameter, &[Type::U8], indexed(Opcode::Unpack, 0)), "25 i 1");
    assert_eq!(on_with(names_parameter, &[S], indexed(Opcode::Unpack, 0)), "11 i 1");
}

#[test]
fn abilities_walk_the_arguments_before_lengths_are_compared() {
    let two = |second| Type::StructInstantiation(3, vec![Type::U8, second]);
    assert_eq!(on(&[two(Type::U8)], plain(Opcode::Pop)), "17 n 0");
    assert_eq!(on(&[two(Type::Struct(9))], plain(Opcode::Pop)), "11 i 1");
    assert_eq!(on(&[two(Type::TypeParameter(0))], plain(Opcode::Pop)), "11 i 1");
}

#[test]
fn reading_26_positions_in_repeated_blocks() {
    let mut unit = bare(false, vec![plain(Opcode::LdTrue), plain(Opcode::Pop), plain(Opcode::Pop)]);
    unit.blocks = vec![Block { first: 0, last: 1 }, Block { first: 0, last: 1 }, Block { first: 1, last: 2 }];
    assert_eq!(says(Call::Types, &unit), "10 i 1");
    assert_eq!(says(Call::StackUsage, &unit), "14 k 1");
}

#[test]
fn reading_27_a_scripts_ret_uses_its_return_signature() {
    let mut script = bare(true, vec![plain(Opcode::LdTrue), plain(Opcode::Ret)]);
    script.signatures.push(vec![Type::Bool]);
    script.function.returns = 1;
    assert_eq!(says(Call::Both, &script), "0 n 0");
    script.signatures[1] = vec![Type::U8];
    assert_eq!(says(Call::Both, &script), "36 i 1");
    script.function.returns = 0;
    assert_eq!(says(Call::Both, &script), "15 k 0");
}

#[test]
fn reading_28_ret_leaves_the_rest_of_the_stack() {
    assert_eq!(on(&[Type::U8, Type::Bool], plain(Opcode::Ret)), "0 n 0");
}

#[test]
fn reading_29_no_arguments_are_not_an_empty_list() {
    let empty_list = Type::StructInstantiation(0, vec![]);
    assert_eq!(on(&[empty_list.clone(), S], plain(Opcode::Eq)), "46 i 2");
    assert_eq!(on(&[empty_list], indexed(Opcode::Unpack, 0)), "25 i 1");
    let by_empty_signature = |unit: &mut Unit| instantiate(unit, 0, 0);
    assert_eq!(on_with(by_empty_signature, &[S], indexed(Opcode::UnpackGeneric, 0)), "0 n 0");
}

#[test]
fn reading_30_the_blocks_share_one_stack() {
    let mut unit = bare(false, vec![plain(Opcode::LdTrue), plain(Opcode::Pop)]);
    unit.blocks = vec![Block { first: 0, last: 0 }, Block { first: 1, last: 1 }];
    assert_eq!(says(Call::StackUsage, &unit), "15 k 0");
    assert_eq!(says(Call::Types, &unit), "0 n 0");
}

#[test]
fn a_block_is_walked_past_ret_and_abort() {
    let unit = with_locals(vec![], vec![plain(Opcode::Nop)]);
    let code = vec![plain(Opcode::LdU64), plain(Opcode::Abort), plain(Opcode::Branch), plain(Opcode::Pop)];
    assert_eq!(types_of(&unit, code), "10 i 3");
}
