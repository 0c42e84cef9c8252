//! The tables of a unit: document 01's section "Unit", a table for each record.
use crate::{Instruction, Type};

/// `10`: an ability byte, and whether each parameter is phantom.
#[derive(Clone, PartialEq, Eq, Debug)]
pub struct StructHandle {
    pub abilities: u8,
    pub phantom: Vec<bool>,
}

/// `12`: two signature indexes.
#[derive(Clone, Copy, PartialEq, Eq, Debug)]
pub struct FunctionHandle {
    pub parameters: u16,
    pub returns: u16,
}

/// `13`, `15` and `17`: what is instantiated (function handle, struct definition, field handle), and the signature of
/// its type arguments.
#[derive(Clone, Copy, PartialEq, Eq, Debug)]
pub struct Instantiation {
    pub of: u16,
    pub arguments: u16,
}

/// `14`: a struct handle, and the field types; none where the struct is native.
#[derive(Clone, PartialEq, Eq, Debug)]
pub struct StructDefinition {
    pub handle: u16,
    pub fields: Option<Vec<Type>>,
}

/// `16`: a struct definition and the place of a field in it.
#[derive(Clone, Copy, PartialEq, Eq, Debug)]
pub struct FieldHandle {
    pub owner: u16,
    pub field: u16,
}

/// `19`: three signature indexes, and the abilities of the type parameters.
#[derive(Clone, PartialEq, Eq, Debug, Default)]
pub struct Function {
    pub parameters: u16,
    pub returns: u16,
    pub locals: u16,
    pub abilities: Vec<u8>,
}

/// `1A`: the first and the last instruction.
#[derive(Clone, Copy, PartialEq, Eq, Debug)]
pub struct Block {
    pub first: u16,
    pub last: u16,
}

/// A unit that was read, or that is to be written.
#[derive(Clone, PartialEq, Eq, Debug, Default)]
pub struct Unit {
    pub is_script: bool,
    pub struct_handles: Vec<StructHandle>,
    pub signatures: Vec<Vec<Type>>,
    pub function_handles: Vec<FunctionHandle>,
    pub function_instantiations: Vec<Instantiation>,
    pub struct_definitions: Vec<StructDefinition>,
    pub struct_instantiations: Vec<Instantiation>,
    pub field_handles: Vec<FieldHandle>,
    pub field_instantiations: Vec<Instantiation>,
    pub constants: Vec<Type>,
    pub function: Function,
    pub blocks: Vec<Block>,
    pub code: Vec<Instruction>,
}

impl Unit {
    /// Lists one block over the whole code, which is not empty.
    pub fn list_one_block(&mut self) {
        self.blocks = vec![Block { first: 0, last: (self.code.len() - 1) as u16 }];
    }
}
