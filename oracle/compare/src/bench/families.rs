//! The families of units that are timed: generated ones, and one unit each of those that are made to be slow.
use super::generated;
use super::used::only_used;
use crate::case::Case;
use crate::rows::{bare, in_one_block, indexed, plain, USUAL_AREA};
use unit::tables::*;
use unit::{Instruction, Opcode, Type, Unit, LONGEST_AREA, LONGEST_UNIT};

/// Units that are timed together.
pub struct Family {
    pub name: &'static str,
    pub cases: Vec<Case>,
}

/// All families. Every unit is accepted by both passes.
pub fn families() -> Vec<Family> {
    vec![
        family("small", generated::small()),
        lent("small, area 1,024", 1_024, generated::small()),
        family("small, only what is used", with_only_used(generated::small())),
        family("medium", generated::medium()),
        family("medium, only what is used", with_only_used(generated::medium())),
        family("largest", generated::largest()),
        family("3,000 CallGeneric of 64 types", vec![calls()]),
        family("10,000 CopyLoc of the last of 200 locals", vec![copies()]),
        family("500 CopyLoc and Pop of a struct of 32 levels", vec![deep_copies()]),
        lent("21,000 entries by VecUnpack, area 65,535", LONGEST_AREA, vec![unpacks()]),
        family("3,000 blocks that all overlap", vec![overlapping()]),
        family("2,000 Call of u64 to u64", vec![short_calls()]),
        family("1,500 Pack and Unpack of two fields", vec![packs()]),
        family("100 bytes of Nops", vec![nops(100)]),
        family("32,768 bytes of Nops", vec![nops(LONGEST_UNIT)]),
        family("32,768 bytes of minimal records", vec![minimal_records()]),
    ]
}

/// The units without the entries of their tables that nothing uses.
fn with_only_used(units: Vec<Unit>) -> Vec<Unit> {
    units.iter().map(only_used).collect()
}

/// Units with the usual area.
fn family(name: &'static str, units: Vec<Unit>) -> Family {
    lent(name, USUAL_AREA, units)
}

/// Units with an area of that length.
fn lent(name: &'static str, area: usize, units: Vec<Unit>) -> Family {
    let case = |unit: &Unit| Case { unit: unit.write(), area };
    Family { name, cases: units.iter().map(case).collect() }
}

/// Calls of a function that takes and returns 64 times `S<T0, T1, T2, T3>`, each taking what the one before returned.
fn calls() -> Unit {
    const WIDTH: usize = 64;
    let generic = Type::StructInstantiation(0, (0..4).map(Type::TypeParameter).collect());
    let arguments = vec![Type::U64.vector(); 4];
    let local = Type::StructInstantiation(0, arguments.clone());
    let tables = Unit {
        struct_handles: vec![StructHandle { abilities: 7, phantom: vec![false; 4] }],
        signatures: vec![vec![], vec![generic; WIDTH], arguments, vec![local]],
        function_handles: vec![FunctionHandle { parameters: 1, returns: 1 }],
        function_instantiations: vec![Instantiation { of: 0, arguments: 2 }],
        function: Function { locals: 3, ..Function::default() },
        ..Unit::default()
    };
    let mut code = vec![indexed(Opcode::CopyLoc, 0); WIDTH];
    code.extend(vec![indexed(Opcode::CallGeneric, 0); 3_000]);
    code.extend(vec![plain(Opcode::Pop); WIDTH]);
    code.push(plain(Opcode::Ret));
    in_one_block(tables, code)
}

/// A u64 behind 199 locals of longer types, copied and popped.
fn copies() -> Unit {
    let mut locals = vec![Type::U64.vector().vector().vector(); 199];
    locals.push(Type::U64);
    let mut code = [indexed(Opcode::CopyLoc, 199), plain(Opcode::Pop)].repeat(10_000);
    code.push(plain(Opcode::Ret));
    in_one_block(with_local_types(locals), code)
}

/// A struct of 15,142 bytes, copied and popped: 29 structs of one argument around one of 58, each of them a struct of 255
/// u8. A search for its abilities that passed each argument a second time would pass most of those bytes 31 times more.
fn deep_copies() -> Unit {
    let leaves = Type::StructInstantiation(0, vec![Type::U8; 255]);
    let wide = Type::StructInstantiation(1, vec![leaves; 58]);
    let deep = (0..29).fold(wide, |inside, _| Type::StructInstantiation(2, vec![inside]));
    let copied_and_dropped = |parameters| StructHandle { abilities: 3, phantom: vec![false; parameters] };
    let mut tables = with_local_types(vec![deep]);
    tables.struct_handles = [255, 58, 1].map(copied_and_dropped).to_vec();
    let mut code = [indexed(Opcode::CopyLoc, 0), plain(Opcode::Pop)].repeat(500);
    code.push(plain(Opcode::Ret));
    in_one_block(tables, code)
}

/// A vector of u8 taken apart and put together again: 21,000 entries weigh 63,000.
fn unpacks() -> Unit {
    const ENTRIES: u64 = 21_000;
    let mut tables = with_local_types(vec![Type::U8.vector()]);
    tables.signatures.push(vec![Type::U8]);
    let code = vec![
        indexed(Opcode::MoveLoc, 0),
        Instruction::counted(Opcode::VecUnpack, 2, ENTRIES),
        Instruction::counted(Opcode::VecPack, 2, ENTRIES),
        plain(Opcode::Pop),
        plain(Opcode::Ret),
    ];
    in_one_block(tables, code)
}

/// Blocks from somewhere in the first half of 400 instructions to somewhere in the second.
fn overlapping() -> Unit {
    const BLOCKS: u16 = 3_000;
    let addition = [Opcode::LdU64, Opcode::LdU64, Opcode::Add, Opcode::Pop].map(plain);
    let mut unit = bare(false, addition.repeat(100));
    let block = |number: u16| {
        let cut = 4 * (number % 50);
        Block { first: cut, last: 399 - cut }
    };
    unit.blocks = (0..BLOCKS).map(block).collect();
    unit
}

/// A u64 loaded, handed to a function that returns one, and popped.
fn short_calls() -> Unit {
    let tables = Unit {
        signatures: vec![vec![], vec![Type::U64]],
        function_handles: vec![FunctionHandle { parameters: 1, returns: 1 }],
        ..Unit::default()
    };
    let call = [plain(Opcode::LdU64), indexed(Opcode::Call, 0), plain(Opcode::Pop)];
    in_one_block(tables, call.repeat(2_000))
}

/// A struct of a u64 and a bool, put together, taken apart, and its fields popped.
fn packs() -> Unit {
    let tables = Unit {
        struct_handles: vec![StructHandle { abilities: 7, phantom: vec![] }],
        signatures: vec![vec![]],
        struct_definitions: vec![StructDefinition { handle: 0, fields: Some(vec![Type::U64, Type::Bool]) }],
        ..Unit::default()
    };
    let pack = [
        plain(Opcode::LdU64),
        plain(Opcode::LdTrue),
        indexed(Opcode::Pack, 0),
        indexed(Opcode::Unpack, 0),
        plain(Opcode::Pop),
        plain(Opcode::Pop),
    ];
    in_one_block(tables, pack.repeat(1_500))
}

/// A unit of that many bytes, all Nops but for what every unit has.
fn nops(bytes: usize) -> Unit {
    let other_bytes = bare(false, vec![plain(Opcode::Nop)]).write().len() - 1;
    bare(false, vec![plain(Opcode::Nop); bytes - other_bytes])
}

/// Signatures of nothing and constants of a primitive type, two bytes each, as many of either as fit.
fn minimal_records() -> Unit {
    let unit = bare(false, vec![plain(Opcode::Ret)]);
    let count = (LONGEST_UNIT - unit.write().len()) / 4;
    Unit { signatures: vec![vec![]; count], constants: vec![Type::Bool; count], ..unit }
}

/// Tables with those locals, as signature 1, and a signature of nothing, which the function takes and returns.
fn with_local_types(locals: Vec<Type>) -> Unit {
    Unit {
        signatures: vec![vec![], locals],
        function: Function { locals: 1, ..Function::default() },
        ..Unit::default()
    }
}
