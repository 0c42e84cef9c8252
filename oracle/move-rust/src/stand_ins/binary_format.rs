//! Stand-ins for modules of `move_binary_format`: plain look-ups into the tables of a module or a script. A look-up
//! past a table panics, as the repository's does in a release build.
use crate::file_format::*;
use crate::stand_ins::core_types::{account_address::AccountAddress, identifier::Identifier};
use std::fmt;

/// The kinds of indexes that errors.rs and file_format.rs name.
#[derive(Clone, Copy, Debug, PartialEq, Eq, PartialOrd, Ord, Hash)]
pub enum IndexKind {
    ModuleHandle,
    StructHandle,
    FunctionHandle,
    FieldHandle,
    FriendDeclaration,
    StructDefInstantiation,
    FunctionInstantiation,
    FieldInstantiation,
    StructDefinition,
    FunctionDefinition,
    FieldDefinition,
    Signature,
    Identifier,
    AddressIdentifier,
    ConstantPool,
    LocalPool,
    CodeDefinition,
    TypeParameter,
    MemberCount,
}

impl fmt::Display for IndexKind {
    fn fmt(&self, f: &mut fmt::Formatter) -> fmt::Result {
        fmt::Debug::fmt(self, f)
    }
}

#[derive(Clone, Copy, Debug, PartialEq, Eq)]
pub enum SignatureTokenKind {
    Reference,
    MutableReference,
    Value,
}

pub mod internals {
    pub trait ModuleIndex {
        const KIND: super::IndexKind;
        fn into_index(self) -> usize;
    }
}

pub mod file_format_common {
    pub const VERSION_MAX: u32 = 5;
}

pub mod access {
    use super::{internals::ModuleIndex, *};

    /// Declares tables: each as a slice, and its entry at an index.
    macro_rules! tables {
        ($($table:ident: $item:ty, $at:ident($index:ty);)*) => {
            $(
                fn $table(&self) -> &[$item];

                fn $at(&self, index: $index) -> &$item {
                    &self.$table()[index.into_index()]
                }
            )*
        };
    }

    /// Gives tables that are fields of the same name.
    macro_rules! fields {
        ($($table:ident: $item:ty;)*) => {
            $(
                fn $table(&self) -> &[$item] {
                    &self.$table
                }
            )*
        };
    }

    /// The tables that modules and scripts both have.
    macro_rules! shared_tables {
        () => {
            tables! {
                module_handles: ModuleHandle, module_handle_at(ModuleHandleIndex);
                struct_handles: StructHandle, struct_handle_at(StructHandleIndex);
                function_handles: FunctionHandle, function_handle_at(FunctionHandleIndex);
                function_instantiations: FunctionInstantiation, function_instantiation_at(FunctionInstantiationIndex);
                signatures: Signature, signature_at(SignatureIndex);
                identifiers: Identifier, identifier_at(IdentifierIndex);
                address_identifiers: AccountAddress, address_identifier_at(AddressIdentifierIndex);
                constant_pool: Constant, constant_at(ConstantPoolIndex);
            }

            fn version(&self) -> u32;
        };
    }

    macro_rules! shared_fields {
        () => {
            fields! {
                module_handles: ModuleHandle;
                struct_handles: StructHandle;
                function_handles: FunctionHandle;
                function_instantiations: FunctionInstantiation;
                signatures: Signature;
                identifiers: Identifier;
                address_identifiers: AccountAddress;
                constant_pool: Constant;
            }

            fn version(&self) -> u32 {
                self.version
            }
        };
    }

    pub trait ScriptAccess {
        shared_tables! {}
    }

    pub trait ModuleAccess {
        shared_tables! {}

        tables! {
            field_handles: FieldHandle, field_handle_at(FieldHandleIndex);
            struct_instantiations: StructDefInstantiation, struct_instantiation_at(StructDefInstantiationIndex);
            field_instantiations: FieldInstantiation, field_instantiation_at(FieldInstantiationIndex);
            struct_defs: StructDefinition, struct_def_at(StructDefinitionIndex);
            function_defs: FunctionDefinition, function_def_at(FunctionDefinitionIndex);
        }

        fn friend_decls(&self) -> &[ModuleHandle];
        fn self_handle_idx(&self) -> ModuleHandleIndex;

        fn self_handle(&self) -> &ModuleHandle {
            self.module_handle_at(self.self_handle_idx())
        }
    }

    impl ScriptAccess for CompiledScript {
        shared_fields! {}
    }

    impl ModuleAccess for CompiledModule {
        shared_fields! {}

        fields! {
            field_handles: FieldHandle;
            field_instantiations: FieldInstantiation;
            struct_defs: StructDefinition;
            function_defs: FunctionDefinition;
            friend_decls: ModuleHandle;
        }

        fn struct_instantiations(&self) -> &[StructDefInstantiation] {
            &self.struct_def_instantiations
        }

        fn self_handle_idx(&self) -> ModuleHandleIndex {
            self.self_module_handle_idx
        }
    }
}
