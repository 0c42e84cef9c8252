//! The readings of document 01 (docs/DECISIONS.md) about room: what is weighed, and how 12 stands to 11 and 10. The Rust has no area;
//! its own stack is weighed.
mod common;
use common::says_with;
use compare::case::Call;
use compare::rows::{bare, holding, in_one_block, indexed, plain, with_locals};
use unit::tables::{FunctionHandle, Instantiation, StructDefinition};
use unit::{Instruction, Opcode, Type, Unit};

fn types_within(area: usize, unit: &Unit) -> String {
    says_with(Call::Types, unit, area)
}

/// A module whose function handle 0 has those parameters and returns, instantiated with those arguments.
fn calling(parameters: Vec<Type>, returns: Vec<Type>, arguments: Vec<Type>, stack: Vec<Type>) -> Unit {
    let mut unit = holding(stack, indexed(Opcode::CallGeneric, 0));
    unit.function_handles = vec![FunctionHandle { parameters: 5, returns: 6 }];
    unit.function_instantiations = vec![Instantiation { of: 0, arguments: 7 }];
    unit.signatures.extend([parameters, returns, arguments]);
    unit
}

/// A type of that many bytes, 4 or more.
fn long(bytes: usize) -> Type {
    Type::StructInstantiation(0, vec![Type::U8; bytes - 4])
}

#[test]
fn reading_22_only_what_is_pushed_is_weighed() {
    // The parameter is of 4 + 2 * 100 bytes when it is compared; the area holds the u8 on the stack.
    let twice = Type::StructInstantiation(0, vec![Type::TypeParameter(0); 2]);
    let unit = calling(vec![twice], vec![], vec![long(100)], vec![Type::U8]);
    assert_eq!(types_within(3, &unit), "23 i 1");
    assert_eq!(types_within(2, &unit), "12 i 0");
}

#[test]
fn reading_23_pushes_are_weighed_one_by_one() {
    let past = Type::TypeParameter(1);
    let unit = calling(vec![], vec![long(10), past.clone()], vec![Type::U8], vec![]);
    assert_eq!(types_within(11, &unit), "12 i 0");
    assert_eq!(types_within(12, &unit), "11 i 0");
    let unit = calling(vec![], vec![past, long(10)], vec![Type::U8], vec![]);
    assert_eq!(types_within(0, &unit), "11 i 0");
    // The pops have freed their weight: 5 bytes for the struct, then 3 and 3.
    let mut unit = holding(vec![Type::Struct(0)], indexed(Opcode::Unpack, 0));
    unit.struct_definitions[0] = StructDefinition { handle: 0, fields: Some(vec![Type::U8, Type::U8]) };
    assert_eq!(types_within(5, &unit), "12 i 1");
    assert_eq!(types_within(6, &unit), "0 n 0");
    // In Unpack every field's 11 comes before any 12.
    unit.struct_definitions[0] =
        StructDefinition { handle: 0, fields: Some(vec![long(100), Type::TypeParameter(0)]) };
    assert_eq!(types_within(5, &unit), "11 i 1");
}

#[test]
fn reading_24_an_11_in_a_type_comes_before_its_12() {
    let mut arguments = vec![Type::TypeParameter(0); 20];
    arguments.push(Type::TypeParameter(1));
    let returns = vec![Type::StructInstantiation(0, arguments)];
    let unit = calling(vec![], returns, vec![long(50)], vec![]);
    assert_eq!(types_within(10, &unit), "11 i 0");
}

#[test]
fn reading_25_huge_counts() {
    let vector = Type::U8.vector();
    let unpack = |count| Instruction::counted(Opcode::VecUnpack, 1, count);
    for area in [4, 100, 65_535] {
        assert_eq!(types_within(area, &holding(vec![vector.clone()], unpack(u64::MAX))), "12 i 1");
    }
    assert_eq!(types_within(9, &holding(vec![vector.clone()], unpack(3))), "0 n 0");
    assert_eq!(types_within(8, &holding(vec![vector], unpack(3))), "12 i 1");
    assert_eq!(types_within(100, &holding(vec![Type::Bool.vector()], unpack(u64::MAX))), "31 i 1");
    let pack = |index| Instruction::counted(Opcode::VecPack, index, u64::MAX);
    assert_eq!(types_within(100, &holding(vec![Type::U8], pack(1))), "10 i 1");
    assert_eq!(types_within(100, &holding(vec![Type::U8], pack(9))), "11 i 1");
}

#[test]
fn vec_pack_does_not_compare() {
    let mut unit = holding(vec![Type::Bool], Instruction::counted(Opcode::VecPack, 3, 1));
    unit.code.push(indexed(Opcode::StLoc, 1));
    unit.signatures[4].push(Type::U64.vector());
    unit.blocks[0].last = 2;
    assert_eq!(types_within(100, &unit), "0 n 0");
}

#[test]
fn a_full_area_takes_no_more() {
    let unit = bare(false, vec![plain(Opcode::LdTrue); 3]);
    assert_eq!(types_within(9, &unit), "0 n 0");
    assert_eq!(types_within(8, &unit), "12 i 2");
    assert_eq!(types_within(0, &unit), "12 i 0");
    // A refusal that needs no push is given with no area at all.
    let code = vec![plain(Opcode::Pop)];
    assert_eq!(types_within(0, &in_one_block(with_locals(vec![], vec![plain(Opcode::Nop)]), code)), "10 i 0");
}
