//! Document 01's table of verdicts: each row's example as a unit, with the call, the verdict and its place. The names
//! S, K and N are the table's; stacks have their top last.
use crate::case::{Call, Case};
use unit::tables::*;
use unit::{Instruction, Opcode, Position, Type, Unit, Verdict, LONGEST_AREA, LONGEST_UNIT};

/// An example: what is asked, and what is due.
pub struct Row {
    pub call: Call,
    pub case: Case,
    pub due: Verdict,
}

/// The area of document 01's program `verdict`.
pub const USUAL_AREA: usize = 16_384;

pub const S: Type = Type::Struct(0);
pub const K: Type = Type::Struct(1);
pub const N: Type = Type::Struct(2);

/// Document 01's listing: LdTrue, Pop, Ret.
pub const LISTING: [u8; 22] = [
    0x01, 0x11, 0x00, 0x19, 0x00, 0x00, 0x00, 0x00, 0x00, 0x00, 0x00, 0x1A, 0x00, 0x00, 0x02, 0x00, 0x1B,
    0x03, 0x00, 0x0C, 0x00, 0x01,
];

/// Rows 0 to 46, in order.
pub fn rows() -> Vec<Row> {
    let mut rows = reading_rows();
    rows.extend(unit_rows());
    rows.extend(struct_rows());
    rows.extend(operand_rows());
    rows
}

fn reading_rows() -> Vec<Row> {
    let listing = LISTING.to_vec();
    let bad_block = [&LISTING[..14], &[0x03], &LISTING[15..]].concat();
    let deep = [vec![0x01, 0x11, 0x01], vec![0x07; 32], vec![0x01]].concat();
    vec![
        row(Call::Both, listing.clone(), USUAL_AREA, Verdict::ACCEPTED),
        unread(vec![0; LONGEST_UNIT + 1], 1, 0),
        unread(vec![0x01], 2, 1),
        unread(vec![0x05], 3, 0),
        unread(vec![0x01, 0x1B], 4, 1),
        unread(vec![0x01, 0x10, 0x10], 5, 2),
        unread(deep, 6, 35),
        unread(bad_block, 7, 11),
        unread([&LISTING[..], &[0x00]].concat(), 8, 22),
        row(Call::Read, listing, LONGEST_AREA + 1, Verdict::at_byte(9, 0)),
    ]
}

/// Rows 10 to 17.
fn unit_rows() -> Vec<Row> {
    let no_room = Verdict { number: 12, position: Position::Instruction(0) };
    let two_arguments = Type::StructInstantiation(3, vec![Type::U8, Type::U8]);
    vec![
        ill_typed(bare(false, vec![plain(Opcode::Pop)]), 10, 0),
        ill_typed(bare(false, vec![indexed(Opcode::MoveLoc, 0)]), 11, 0),
        row(Call::Both, LISTING.to_vec(), 2, no_room),
        unbalanced(
            vec![
                plain(Opcode::LdTrue),
                Instruction::counted(Opcode::VecUnpack, 0, u64::MAX),
                plain(Opcode::LdTrue),
            ],
            13,
        ),
        unbalanced(vec![plain(Opcode::Pop)], 14),
        unbalanced(vec![plain(Opcode::LdTrue)], 15),
        nowhere(bare(true, vec![indexed(Opcode::Pack, 0)]), 16),
        nowhere(holding(vec![two_arguments], plain(Opcode::Pop)), 17),
    ]
}

/// Rows 18 to 30: fields, globals, calls and structs. Definitions 0, 1 and 2 are those of S, K and N.
fn struct_rows() -> Vec<Row> {
    use Opcode::*;
    let signer = Type::Signer.reference();
    vec![
        on(vec![Type::U8], indexed(MutBorrowField, 0), 18),
        on(vec![N.reference()], indexed(ImmBorrowField, 1), 19),
        local(vec![Type::U8.reference()], indexed(ImmBorrowLoc, 0), 20),
        on(vec![Type::Bool], indexed(ImmBorrowGlobal, 1), 21),
        on(vec![Type::Address], indexed(ImmBorrowGlobal, 0), 22),
        on(vec![Type::Bool], indexed(Call, 0), 23),
        on(vec![], indexed(Pack, 2), 24),
        on(vec![Type::U8], indexed(Unpack, 0), 25),
        on(vec![Type::Bool], indexed(Exists, 1), 26),
        on(vec![Type::Address], indexed(MoveFrom, 0), 27),
        on(vec![Type::U64], indexed(MoveFrom, 1), 28),
        on(vec![signer, S], indexed(MoveTo, 0), 29),
        on(vec![Type::Signer, K], indexed(MoveTo, 1), 30),
    ]
}

/// Rows 31 to 46.
fn operand_rows() -> Vec<Row> {
    use Opcode::*;
    let u8_into_bool = vec![indexed(MoveLoc, 0), indexed(StLoc, 1)];
    vec![
        on(vec![Type::Bool], indexed(VecLen, 1), 31),
        on(vec![K], plain(Pop), 32),
        on(vec![Type::U8], plain(BrTrue), 33),
        ill_typed(with_locals(vec![Type::U8, Type::Bool], u8_into_bool), 34, 1),
        on(vec![Type::U8], plain(Abort), 35),
        on(vec![Type::U8], plain(Ret), 36),
        on(vec![Type::U8.reference()], plain(FreezeRef), 37),
        local(vec![K], indexed(CopyLoc, 0), 38),
        on(vec![K.reference()], plain(ReadRef), 39),
        on(vec![Type::U8], plain(ReadRef), 40),
        on(vec![Type::U8, Type::U8.reference()], plain(WriteRef), 41),
        on(vec![K, K.mutable()], plain(WriteRef), 42),
        on(vec![Type::Bool, Type::U8.mutable()], plain(WriteRef), 43),
        on(vec![Type::Bool], plain(CastU8), 44),
        on(vec![Type::U8], plain(Not), 45),
        on(vec![Type::U8, Type::Bool], plain(Eq), 46),
    ]
}

// ── rows ──

fn row(call: Call, unit: Vec<u8>, area: usize, due: Verdict) -> Row {
    Row { call, case: Case { unit, area }, due }
}

fn unread(unit: Vec<u8>, number: u8, at: usize) -> Row {
    row(Call::Read, unit, USUAL_AREA, Verdict::at_byte(number, at))
}

fn unbalanced(code: Vec<Instruction>, number: u8) -> Row {
    let due = Verdict { number, position: Position::BlockStart(0) };
    row(Call::StackUsage, bare(false, code).write(), USUAL_AREA, due)
}

fn ill_typed(unit: Unit, number: u8, at: u16) -> Row {
    row(Call::Types, unit.write(), USUAL_AREA, Verdict { number, position: Position::Instruction(at) })
}

/// The type pass refuses it, and names no place.
fn nowhere(unit: Unit, number: u8) -> Row {
    row(Call::Types, unit.write(), USUAL_AREA, Verdict { number, position: Position::None })
}

/// The type pass refuses the instruction on that stack.
fn on(stack: Vec<Type>, instruction: Instruction, number: u8) -> Row {
    let at = stack.len() as u16;
    ill_typed(holding(stack, instruction), number, at)
}

/// The type pass refuses the instruction, which stands alone, with those locals.
fn local(locals: Vec<Type>, instruction: Instruction, number: u8) -> Row {
    ill_typed(with_locals(locals, vec![instruction]), number, 0)
}

// ── units ──

pub fn plain(opcode: Opcode) -> Instruction {
    Instruction::plain(opcode)
}

pub fn indexed(opcode: Opcode, index: u16) -> Instruction {
    Instruction::indexed(opcode, index)
}

/// The listing with other code, in one block, in a module or a script.
pub fn bare(is_script: bool, code: Vec<Instruction>) -> Unit {
    in_one_block(Unit { is_script, signatures: vec![vec![]], ..Unit::default() }, code)
}

/// The unit with that code, in one block.
pub fn in_one_block(unit: Unit, code: Vec<Instruction>) -> Unit {
    let mut unit = Unit { code, ..unit };
    unit.list_one_block();
    unit
}

/// The instruction on a stack that is put from locals, in the tables below.
pub fn holding(stack: Vec<Type>, instruction: Instruction) -> Unit {
    let put = (0..stack.len() as u16).map(|at| indexed(Opcode::MoveLoc, at));
    let code = put.chain([instruction]).collect();
    with_locals(stack, code)
}

/// A module with S and K, which declare a u8, the native N, and a struct of one parameter; signatures of nothing, u8,
/// bool and u64; a function f(u8); the first fields of S and N. Its function returns a bool and has those locals.
pub fn with_locals(locals: Vec<Type>, code: Vec<Instruction>) -> Unit {
    let handle = |abilities, phantom| StructHandle { abilities, phantom };
    let definition = |handle, fields| StructDefinition { handle, fields };
    let tables = Unit {
        struct_handles: vec![handle(7, vec![]), handle(8, vec![]), handle(7, vec![]), handle(7, vec![false])],
        signatures: vec![vec![], vec![Type::U8], vec![Type::Bool], vec![Type::U64], locals],
        function_handles: vec![FunctionHandle { parameters: 1, returns: 0 }],
        struct_definitions: vec![
            definition(0, Some(vec![Type::U8])),
            definition(1, Some(vec![Type::U8])),
            definition(2, None),
        ],
        field_handles: vec![FieldHandle { owner: 0, field: 0 }, FieldHandle { owner: 2, field: 0 }],
        function: Function { parameters: 0, returns: 2, locals: 4, abilities: vec![] },
        ..Unit::default()
    };
    in_one_block(tables, code)
}
