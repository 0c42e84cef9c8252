//! A unit's tables as a `CompiledModule` or a `CompiledScript`.
use crate::bytecode::signature_token;
use crate::file_format::*;
use unit::tables as from;
use unit::{Type, Unit};

/// A unit has no modules and no names; every index to them is 0 and nothing looks it up.
const NAMELESS: (ModuleHandleIndex, IdentifierIndex) = (ModuleHandleIndex(0), IdentifierIndex(0));

pub fn module(unit: &Unit) -> CompiledModule {
    CompiledModule {
        struct_handles: struct_handles(unit),
        function_handles: function_handles(unit),
        field_handles: each(&unit.field_handles, |handle| FieldHandle {
            owner: StructDefinitionIndex(handle.owner),
            field: handle.field,
        }),
        struct_def_instantiations: each(&unit.struct_instantiations, |inst| StructDefInstantiation {
            def: StructDefinitionIndex(inst.of),
            type_parameters: SignatureIndex(inst.arguments),
        }),
        function_instantiations: function_instantiations(unit),
        field_instantiations: each(&unit.field_instantiations, |inst| FieldInstantiation {
            handle: FieldHandleIndex(inst.of),
            type_parameters: SignatureIndex(inst.arguments),
        }),
        signatures: signatures(unit),
        constant_pool: constants(unit),
        struct_defs: each(&unit.struct_definitions, struct_definition),
        ..CompiledModule::default()
    }
}

pub fn script(unit: &Unit) -> CompiledScript {
    CompiledScript {
        struct_handles: struct_handles(unit),
        function_handles: function_handles(unit),
        function_instantiations: function_instantiations(unit),
        signatures: signatures(unit),
        constant_pool: constants(unit),
        ..CompiledScript::default()
    }
}

/// The handle of the unit's function: its signatures and the abilities of its type parameters.
pub fn function_handle(unit: &Unit) -> FunctionHandle {
    let (module, name) = NAMELESS;
    FunctionHandle {
        module,
        name,
        parameters: SignatureIndex(unit.function.parameters),
        return_: SignatureIndex(unit.function.returns),
        type_parameters: each(&unit.function.abilities, |&byte| ability_set(byte)),
    }
}

pub fn signatures(unit: &Unit) -> SignaturePool {
    each(&unit.signatures, |types| Signature(each(types, signature_token)))
}

fn each<A, B>(table: &[A], make: impl FnMut(&A) -> B) -> Vec<B> {
    table.iter().map(make).collect()
}

fn ability_set(byte: u8) -> AbilitySet {
    AbilitySet::from_u8(byte).expect("the reader lets no other byte pass")
}

fn struct_handles(unit: &Unit) -> Vec<StructHandle> {
    let (module, name) = NAMELESS;
    let parameter = |&is_phantom: &bool| StructTypeParameter { constraints: AbilitySet::EMPTY, is_phantom };
    each(&unit.struct_handles, |handle| StructHandle {
        module,
        name,
        abilities: ability_set(handle.abilities),
        type_parameters: each(&handle.phantom, parameter),
    })
}

fn function_handles(unit: &Unit) -> Vec<FunctionHandle> {
    let (module, name) = NAMELESS;
    each(&unit.function_handles, |handle| FunctionHandle {
        module,
        name,
        parameters: SignatureIndex(handle.parameters),
        return_: SignatureIndex(handle.returns),
        type_parameters: vec![],
    })
}

fn function_instantiations(unit: &Unit) -> Vec<FunctionInstantiation> {
    each(&unit.function_instantiations, |inst| FunctionInstantiation {
        handle: FunctionHandleIndex(inst.of),
        type_parameters: SignatureIndex(inst.arguments),
    })
}

fn constants(unit: &Unit) -> ConstantPool {
    each(&unit.constants, |a_type| Constant { type_: signature_token(a_type), data: vec![] })
}

fn struct_definition(definition: &from::StructDefinition) -> StructDefinition {
    let field = |a_type: &Type| FieldDefinition {
        name: NAMELESS.1,
        signature: TypeSignature(signature_token(a_type)),
    };
    StructDefinition {
        struct_handle: StructHandleIndex(definition.handle),
        field_information: match &definition.fields {
            None => StructFieldInformation::Native,
            Some(fields) => StructFieldInformation::Declared(each(fields, field)),
        },
    }
}
