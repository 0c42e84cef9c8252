//! One change to a good unit: an operand, an instruction, a type, an index, an ability set, a block.
use super::types::{primitive, Scope, OFTEN};
use crate::rng::Rng;
use unit::tables::*;
use unit::{Form, Instruction, Opcode, Type, Unit};

/// Changes one thing, where there is something to change.
pub fn change(rng: &mut Rng, unit: &mut Unit) {
    match rng.below(16) {
        0..=4 => change_operand(rng, unit),
        5 | 6 => change_code(rng, unit),
        7..=10 => change_type(rng, unit),
        11 => change_struct(rng, unit),
        12 | 13 => change_index(rng, unit),
        14 => change_function(rng, unit),
        _ => change_block(rng, unit),
    }
}

/// Changes several things of the tables: one index in six, and at times the last instruction's, a type, a struct or the
/// function.
pub fn spoil_tables(rng: &mut Rng, unit: &mut Unit) {
    for index in indexes(unit) {
        if rng.once_in(6) {
            *index = any_index(rng, *index);
        }
    }
    match rng.below(8) {
        0 | 1 => change_type(rng, unit),
        2 => change_struct(rng, unit),
        3 => change_function(rng, unit),
        4 | 5 => {
            if let Some(last) = unit.code.last_mut() {
                last.index = any_index(rng, last.index) % 256;
            }
        }
        _ => (),
    }
}

// ── code ──

fn change_operand(rng: &mut Rng, unit: &mut Unit) {
    let Some(at) = rng.index(unit.code.len()) else { return };
    let instruction = &mut unit.code[usize::from(at)];
    match instruction.opcode.form() {
        Form::Counted if rng.once_in(2) => instruction.count = any_count(rng, instruction.count),
        Form::Index | Form::Counted | Form::Offset => instruction.index = any_index(rng, instruction.index),
        Form::Local => instruction.index = any_index(rng, instruction.index) % 256,
        Form::Integer(_) | Form::Plain => *instruction = any_instruction(rng),
    }
}

/// A neighbour of the index, a small one, or any.
fn any_index(rng: &mut Rng, index: u16) -> u16 {
    match rng.below(8) {
        0 | 1 => index.wrapping_add(1),
        2 => index.wrapping_sub(1),
        3 | 4 => rng.word() as u16,
        _ => rng.below(8) as u16,
    }
}

/// A neighbour of the count, a small one, one that fills an area, or one near 2^64.
fn any_count(rng: &mut Rng, count: u64) -> u64 {
    match rng.below(6) {
        0 => count.wrapping_add(1),
        1 => count.wrapping_sub(1),
        2 => rng.below(300) as u64,
        3 => rng.below(70_000) as u64,
        4 => u64::MAX - rng.below(4) as u64,
        _ => rng.below(5) as u64,
    }
}

/// Any opcode with small operands.
pub fn any_instruction(rng: &mut Rng) -> Instruction {
    let opcode = *rng.pick(Opcode::ALL);
    Instruction::counted(opcode, rng.below(6) as u16, rng.below(4) as u64)
}

fn change_code(rng: &mut Rng, unit: &mut Unit) {
    let Some(at) = rng.index(unit.code.len()) else { return };
    let at = usize::from(at);
    match rng.below(5) {
        0 => unit.code[at] = any_instruction(rng),
        1 => unit.code[at].opcode = opcode_of_form(rng, unit.code[at].opcode.form()),
        2 => unit.code.swap(at, at.saturating_sub(1)),
        // The blocks stay as they are: the code under them moves.
        3 => drop(unit.code.remove(at)),
        _ => unit.code.insert(at, any_instruction(rng)),
    }
}

fn opcode_of_form(rng: &mut Rng, form: Form) -> Opcode {
    let alike: Vec<Opcode> = Opcode::ALL.iter().copied().filter(|opcode| opcode.form() == form).collect();
    *rng.pick(&alike)
}

// ── types ──

fn change_type(rng: &mut Rng, unit: &mut Unit) {
    let any = Scope { handles: &unit.struct_handles, parameters: 3, odd: OFTEN }.any(rng);
    let mut types: Vec<&mut Type> = unit.signatures.iter_mut().flatten().collect();
    types.extend(unit.struct_definitions.iter_mut().filter_map(|def| def.fields.as_mut()).flatten());
    types.extend(unit.constants.iter_mut());
    if types.is_empty() {
        return;
    }
    let at = rng.below(types.len());
    let part = some_part(rng, types.swap_remove(at));
    let old = std::mem::replace(part, Type::Bool);
    *part = changed_type(rng, old, any);
}

/// The type or one inside it.
fn some_part<'a>(rng: &mut Rng, a_type: &'a mut Type) -> &'a mut Type {
    let parts = match a_type {
        Type::Vector(_) | Type::Reference(_) | Type::MutableReference(_) => 1,
        Type::StructInstantiation(_, own) => own.len(),
        _ => 0,
    };
    if parts == 0 || rng.once_in(2) {
        return a_type;
    }
    match a_type {
        Type::Vector(inner) | Type::Reference(inner) | Type::MutableReference(inner) => some_part(rng, inner),
        Type::StructInstantiation(_, own) => {
            let at = rng.below(parts);
            some_part(rng, &mut own[at])
        }
        _ => unreachable!("a leaf has no parts"),
    }
}

fn changed_type(rng: &mut Rng, old: Type, any: Type) -> Type {
    match (rng.below(8), old) {
        (0, old) => old.reference(),
        (1, old) => old.vector(),
        (2 | 3, Type::Reference(inner)) => inner.mutable(),
        (2 | 3, Type::MutableReference(inner)) => inner.reference(),
        (2 | 3, Type::Struct(handle)) => Type::StructInstantiation(handle, vec![]),
        (2 | 3, Type::TypeParameter(index)) => Type::TypeParameter(index + 1),
        (2, Type::StructInstantiation(handle, own)) => Type::StructInstantiation(handle + 1, own),
        (3, Type::StructInstantiation(handle, mut own)) => {
            own.push(primitive(rng));
            Type::StructInstantiation(handle, own)
        }
        (4, Type::StructInstantiation(handle, mut own)) => {
            own.pop();
            Type::StructInstantiation(handle, own)
        }
        (5, old) if rng.once_in(4) => deepened(rng, old),
        _ => any,
    }
}

/// The type under so many vectors and references that it nests 32 levels or about that.
fn deepened(rng: &mut Rng, old: Type) -> Type {
    let wrappers = rng.between(27, 32);
    (0..wrappers).fold(old, |inner, _| match rng.below(8) {
        0 => inner.reference(),
        1 => Type::StructInstantiation(0, vec![inner]),
        _ => inner.vector(),
    })
}

// ── tables ──

fn change_struct(rng: &mut Rng, unit: &mut Unit) {
    let Some(at) = rng.index(unit.struct_handles.len()) else { return };
    let handle = &mut unit.struct_handles[usize::from(at)];
    match rng.below(4) {
        0 => handle.abilities ^= 1 << rng.below(4),
        1 => handle.abilities = rng.below(20) as u8,
        2 => handle.phantom.push(rng.once_in(2)),
        _ => drop(handle.phantom.pop()),
    }
    if let (true, Some(at)) = (rng.once_in(2), rng.index(unit.struct_definitions.len())) {
        change_fields(rng, &mut unit.struct_definitions[usize::from(at)].fields);
    }
}

fn change_fields(rng: &mut Rng, fields: &mut Option<Vec<Type>>) {
    match fields {
        Some(list) if rng.once_in(2) => list.push(primitive(rng)),
        Some(list) if rng.once_in(2) => drop(list.pop()),
        Some(_) => *fields = None,
        None => *fields = Some(vec![]),
    }
}

/// One index of one record.
fn change_index(rng: &mut Rng, unit: &mut Unit) {
    let mut indexes = indexes(unit);
    if !indexes.is_empty() {
        let at = rng.below(indexes.len());
        *indexes[at] = any_index(rng, *indexes[at]);
    }
}

/// Every index of every record but `19`.
fn indexes(unit: &mut Unit) -> Vec<&mut u16> {
    let mut indexes: Vec<&mut u16> = vec![];
    let insts =
        [&mut unit.function_instantiations, &mut unit.struct_instantiations, &mut unit.field_instantiations];
    for Instantiation { of, arguments } in insts.into_iter().flatten() {
        indexes.extend([of, arguments]);
    }
    for FunctionHandle { parameters, returns } in &mut unit.function_handles {
        indexes.extend([parameters, returns]);
    }
    for FieldHandle { owner, field } in &mut unit.field_handles {
        indexes.extend([owner, field]);
    }
    indexes.extend(unit.struct_definitions.iter_mut().map(|definition| &mut definition.handle));
    indexes
}

fn change_function(rng: &mut Rng, unit: &mut Unit) {
    let signatures = unit.signatures.len();
    let function = &mut unit.function;
    match rng.below(6) {
        0 => function.returns = rng.below(signatures + 1) as u16,
        1 => function.parameters = rng.below(signatures) as u16,
        2 => function.locals = rng.below(signatures) as u16,
        3 => drop(function.abilities.pop()),
        4 => function.abilities.iter_mut().for_each(|set| *set = rng.below(17) as u8),
        _ => make_script(rng, unit),
    }
}

/// The same code in a script, which has no `14` to `17`.
fn make_script(rng: &mut Rng, unit: &mut Unit) {
    unit.is_script = true;
    if !rng.once_in(16) {
        unit.struct_definitions.clear();
        unit.struct_instantiations.clear();
        unit.field_handles.clear();
        unit.field_instantiations.clear();
    }
}

fn change_block(rng: &mut Rng, unit: &mut Unit) {
    let Some(at) = rng.index(unit.blocks.len()) else { return };
    let count = unit.code.len();
    let block = &mut unit.blocks[usize::from(at)];
    match rng.below(4) {
        0 => block.first = rng.below(count + 2) as u16,
        1 => block.last = rng.below(count + 2) as u16,
        2 => block.last = any_index(rng, block.last),
        _ => *block = Block { first: block.last, last: block.first },
    }
}
