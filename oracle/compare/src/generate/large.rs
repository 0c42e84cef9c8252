//! Large units, of which a run has few: long code, many blocks, wide lists, types that grow by substitution, and units
//! about as long as a unit may be. Substituted types are kept to some hundred thousand tokens: the Rust builds them.
use super::blocks::between_rests;
use super::program::Program;
use super::tables::{push_signature, tables};
use super::types::{Scope, SELDOM};
use crate::rng::Rng;
use unit::tables::*;
use unit::{Instruction, Opcode, Type, Unit, LONGEST_UNIT};

pub fn large(rng: &mut Rng) -> Vec<u8> {
    let mut unit = tables(rng, SELDOM);
    match rng.below(6) {
        0 => long_code(rng, &mut unit),
        1 => many_blocks(rng, &mut unit),
        2 => wide_struct(rng, &mut unit),
        3 => grown_type(rng, &mut unit),
        4 => deep_stack(rng, &mut unit),
        _ => return about_longest(rng, &mut unit),
    }
    unit.write()
}

fn long_code(rng: &mut Rng, unit: &mut Unit) {
    let chosen = rng.between(100, 600);
    Program::new(rng, unit, SELDOM).write(chosen);
    unit.list_one_block();
}

/// Thousands of blocks over a short code.
fn many_blocks(rng: &mut Rng, unit: &mut Unit) {
    let rests = Program::new(rng, unit, SELDOM).write(12);
    let blocks = between_rests(&rests, unit.code.len() as u16);
    unit.blocks = (0..rng.between(300, 3_000)).map(|_| *rng.pick(&blocks)).collect();
}

/// A struct of up to 255 parameters with as many arguments, or one more or fewer, packed, borrowed and popped.
fn wide_struct(rng: &mut Rng, unit: &mut Unit) {
    unit.is_script = false;
    let parameters = rng.between(200, 255);
    let handle = unit.struct_handles.len() as u16;
    unit.struct_handles
        .push(StructHandle { abilities: 15, phantom: (0..parameters).map(|_| rng.once_in(9)).collect() });
    let arguments = parameters + rng.below(8) / 6 - rng.below(8) / 6;
    let scope = Scope { handles: &[], parameters: 0, odd: SELDOM };
    let types: Vec<Type> = (0..arguments.min(255)).map(|_| scope.value(rng, 2)).collect();
    let arguments = push_signature(unit, types.clone());
    let field = Type::TypeParameter(rng.below(parameters + 2) as u16);
    unit.struct_definitions.push(StructDefinition { handle, fields: Some(vec![field; rng.between(1, 40)]) });
    let of = (unit.struct_definitions.len() - 1) as u16;
    unit.struct_instantiations.push(Instantiation { of, arguments });
    use_struct(unit, Type::StructInstantiation(handle, types));
}

/// Unpacks and packs the last instantiation, and pops, copies and reads the struct.
fn use_struct(unit: &mut Unit, struct_type: Type) {
    let index = (unit.struct_instantiations.len() - 1) as u16;
    unit.function.parameters = 0;
    unit.function.locals = push_signature(unit, vec![struct_type]);
    let local = |opcode| Instruction::indexed(opcode, 0);
    unit.code = vec![
        local(Opcode::MoveLoc),
        Instruction::indexed(Opcode::UnpackGeneric, index),
        Instruction::indexed(Opcode::PackGeneric, index),
        Instruction::plain(Opcode::Pop),
        local(Opcode::ImmBorrowLoc),
        Instruction::plain(Opcode::ReadRef),
        local(Opcode::CopyLoc),
        Instruction::plain(Opcode::Eq),
    ];
    unit.list_one_block();
}

/// A field whose type names a long type argument many times: compared and pushed, and at times it names one that is
/// not there, early or late.
fn grown_type(rng: &mut Rng, unit: &mut Unit) {
    unit.is_script = false;
    let mut long = Type::U8;
    for _ in 0..rng.between(1, 4) {
        long = Type::StructInstantiation(0, vec![long; rng.between(1, 7)]);
    }
    let mut names = vec![Type::TypeParameter(0); rng.between(1, 200)];
    if rng.once_in(3) {
        let at = rng.below(names.len());
        names[at] = Type::TypeParameter(1);
    }
    let field = Type::StructInstantiation(0, names);
    let handle = unit.struct_handles.len() as u16;
    unit.struct_handles.push(StructHandle { abilities: 15, phantom: vec![rng.once_in(2)] });
    unit.struct_definitions
        .push(StructDefinition { handle, fields: Some(vec![field.clone(); rng.between(1, 3)]) });
    let of = (unit.struct_definitions.len() - 1) as u16;
    let arguments = push_signature(unit, vec![long.clone()]);
    unit.struct_instantiations.push(Instantiation { of, arguments });
    if rng.once_in(2) {
        return call_returning(rng, unit, field, arguments);
    }
    use_struct(unit, Type::StructInstantiation(handle, vec![long]));
}

/// A call that returns several grown types.
fn call_returning(rng: &mut Rng, unit: &mut Unit, a_type: Type, arguments: u16) {
    let returns = push_signature(unit, vec![a_type; rng.between(1, 4)]);
    unit.function_handles.push(FunctionHandle { parameters: 0, returns });
    let of = (unit.function_handles.len() - 1) as u16;
    unit.function_instantiations.push(Instantiation { of, arguments });
    let index = (unit.function_instantiations.len() - 1) as u16;
    unit.function.parameters = 0;
    unit.function.locals = 0;
    unit.code = vec![Instruction::indexed(Opcode::CallGeneric, index)];
    unit.list_one_block();
}

/// A stack of thousands of entries, and one that VecUnpack makes.
fn deep_stack(rng: &mut Rng, unit: &mut Unit) {
    let element = Scope::of_function(unit, SELDOM).value(rng, 2);
    let signature = push_signature(unit, vec![element.clone()]);
    unit.function.parameters = push_signature(unit, vec![element.vector(), Type::U64]);
    unit.function.locals = 0;
    let loads = rng.between(100, 3_000);
    unit.code = vec![Instruction::plain(Opcode::LdTrue); loads];
    unit.code.push(Instruction::indexed(Opcode::MoveLoc, 0));
    unit.code.push(Instruction::counted(Opcode::VecUnpack, signature, rng.below(25_000) as u64));
    unit.code.push(Instruction::counted(Opcode::VecPack, signature, rng.below(30_000) as u64));
    unit.list_one_block();
}

/// A unit of 32,764 to 32,772 bytes, padded with Nop.
fn about_longest(rng: &mut Rng, unit: &mut Unit) -> Vec<u8> {
    Program::new(rng, unit, SELDOM).write(6);
    unit.blocks = vec![Block { first: 0, last: rng.below(unit.code.len()) as u16 }];
    let length = rng.between(LONGEST_UNIT - 4, LONGEST_UNIT + 4);
    let padding = length - unit.write().len();
    unit.code.extend(vec![Instruction::plain(Opcode::Nop); padding]);
    unit.write()
}
