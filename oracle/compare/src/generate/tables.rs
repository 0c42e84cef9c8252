//! Random tables of every kind that fit each other: what is named is there, and instantiations have as many arguments
//! as are wanted.
use super::types::{parameters_of, Scope, COPY, DROP, KEY, STORE};
use crate::rng::Rng;
use unit::tables::*;
use unit::{Type, Unit};

/// A unit with all tables and no code: what its code may name is there. One type in `odd` has something wrong.
pub fn tables(rng: &mut Rng, odd: usize) -> Unit {
    let mut unit = Unit { is_script: rng.once_in(8), ..Unit::default() };
    unit.signatures.push(vec![]);
    unit.function.abilities = (0..rng.below(4)).map(|_| ability_set(rng)).collect();
    unit.struct_handles = (0..rng.between(1, 6)).map(|_| struct_handle(rng)).collect();
    unit.constants = (0..rng.below(4)).map(|_| Scope::of_function(&unit, odd).any(rng)).collect();
    add_functions(rng, &mut unit, odd);
    if !unit.is_script {
        add_structs(rng, &mut unit, odd);
        add_fields(rng, &mut unit, odd);
    }
    let returns = (0..rng.below(4)).map(|_| Scope::of_function(&unit, odd).any(rng)).collect();
    unit.function.returns = push_signature(&mut unit, returns);
    unit
}

fn ability_set(rng: &mut Rng) -> u8 {
    match rng.below(8) {
        0..=2 => COPY | DROP | STORE,
        3 | 4 => COPY | DROP | STORE | KEY,
        5 => KEY,
        _ => rng.below(16) as u8,
    }
}

fn struct_handle(rng: &mut Rng) -> StructHandle {
    let parameters = if rng.once_in(2) { 0 } else { rng.between(1, 3) };
    StructHandle { abilities: ability_set(rng), phantom: (0..parameters).map(|_| rng.once_in(4)).collect() }
}

/// A signature of exactly so many type arguments.
fn add_arguments(rng: &mut Rng, unit: &mut Unit, odd: usize, count: usize) -> u16 {
    let scope = Scope::of_function(unit, odd);
    let types: Vec<Type> = (0..count).map(|_| scope.value(rng, 3)).collect();
    push_signature(unit, types)
}

pub fn push_signature(unit: &mut Unit, types: Vec<Type>) -> u16 {
    unit.signatures.push(types);
    (unit.signatures.len() - 1) as u16
}

/// Function handles, half of them generic, and instantiations of some.
fn add_functions(rng: &mut Rng, unit: &mut Unit, odd: usize) {
    for _ in 0..rng.below(8).min(3) {
        let parameters = rng.below(2) * rng.below(4);
        let mut signature = |most| {
            let scope = Scope { handles: &unit.struct_handles, parameters, odd };
            let types = (0..rng.below(most)).map(|_| scope.any(rng)).collect();
            push_signature(unit, types)
        };
        let handle = FunctionHandle { parameters: signature(4), returns: signature(3) };
        unit.function_handles.push(handle);
    }
    for _ in 0..rng.below(6).min(2) {
        let Some(of) = rng.index(unit.function_handles.len()) else { continue };
        let handle = unit.function_handles[usize::from(of)];
        let wanted =
            [handle.parameters, handle.returns].map(|at| parameters_of(&unit.signatures[usize::from(at)]));
        let arguments = add_arguments(rng, unit, odd, wanted[0].max(wanted[1]));
        unit.function_instantiations.push(Instantiation { of, arguments });
    }
}

/// Struct definitions, and an instantiation of each that has parameters.
fn add_structs(rng: &mut Rng, unit: &mut Unit, odd: usize) {
    for handle in 0..unit.struct_handles.len() as u16 {
        if rng.once_in(8) {
            continue;
        }
        let scope = Scope {
            handles: &unit.struct_handles,
            parameters: unit.struct_handles[usize::from(handle)].phantom.len(),
            odd,
        };
        let fields = (0..rng.below(4)).map(|_| scope.value(rng, 2)).collect();
        let fields = if rng.once_in(8) { None } else { Some(fields) };
        unit.struct_definitions.push(StructDefinition { handle, fields });
    }
    for of in 0..unit.struct_definitions.len() as u16 {
        let parameters = parameters_of_definition(unit, of);
        if parameters > 0 || rng.once_in(4) {
            let arguments = add_arguments(rng, unit, odd, parameters);
            unit.struct_instantiations.push(Instantiation { of, arguments });
        }
    }
}

fn parameters_of_definition(unit: &Unit, definition: u16) -> usize {
    let handle = unit.struct_definitions[usize::from(definition)].handle;
    unit.struct_handles[usize::from(handle)].phantom.len()
}

/// A field handle for a field of each definition, of a native one too, and instantiations of them.
fn add_fields(rng: &mut Rng, unit: &mut Unit, odd: usize) {
    for owner in 0..unit.struct_definitions.len() as u16 {
        let count = unit.struct_definitions[usize::from(owner)].fields.as_ref().map_or(1, Vec::len);
        if let Some(field) = rng.index(count) {
            unit.field_handles.push(FieldHandle { owner, field });
        }
    }
    for of in 0..unit.field_handles.len() as u16 {
        let parameters = parameters_of_definition(unit, unit.field_handles[usize::from(of)].owner);
        if parameters > 0 || rng.once_in(4) {
            let arguments = add_arguments(rng, unit, odd, parameters);
            unit.field_instantiations.push(Instantiation { of, arguments });
        }
    }
}
