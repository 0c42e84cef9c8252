//! What each instruction takes and leaves where it is accepted, with operands that the tables have.
use super::program::Program;
use super::types::{instantiate, instantiate_each, integer, materialize, COPY, DROP, KEY};
use unit::{Instruction, Opcode, Type};

/// An instruction, the types that it takes off the stack, the last on top, and those that it leaves.
pub struct Effect {
    pub instruction: Instruction,
    pub takes: Vec<Type>,
    pub leaves: Vec<Type>,
}

impl Effect {
    fn of(opcode: Opcode, takes: Vec<Type>, leaves: Vec<Type>) -> Effect {
        Effect { instruction: Instruction::plain(opcode), takes, leaves }
    }

    fn at(self, index: u16) -> Effect {
        Effect { instruction: Instruction { index, ..self.instruction }, ..self }
    }
}

/// A struct definition with its type arguments: the struct's type and its fields, none where it is native.
struct Found {
    struct_type: Type,
    fields: Option<Vec<Type>>,
}

impl Program<'_> {
    /// An accepted use of the opcode; none where the tables have nothing for it.
    pub fn effect(&mut self, opcode: Opcode) -> Option<Effect> {
        use Opcode::*;
        match opcode {
            Call | CallGeneric => self.call(opcode),
            Pack | PackGeneric | Unpack | UnpackGeneric => self.pack(opcode),
            MutBorrowField | MutBorrowFieldGeneric | ImmBorrowField | ImmBorrowFieldGeneric => {
                self.field(opcode)
            }
            MutBorrowGlobal
            | MutBorrowGlobalGeneric
            | ImmBorrowGlobal
            | ImmBorrowGlobalGeneric
            | Exists
            | ExistsGeneric
            | MoveFrom
            | MoveFromGeneric
            | MoveTo
            | MoveToGeneric => self.global(opcode),
            VecPack | VecLen | VecImmBorrow | VecMutBorrow | VecPushBack | VecPopBack | VecUnpack
            | VecSwap => Some(self.vector(opcode)),
            LdConst | CopyLoc | MoveLoc | StLoc | MutBorrowLoc | ImmBorrowLoc => self.local(opcode),
            _ => Some(self.plain(opcode)),
        }
    }

    /// Instructions that name nothing.
    fn plain(&mut self, opcode: Opcode) -> Effect {
        use Opcode::*;
        let (takes, leaves) = match opcode {
            Pop => (vec![self.some_type(DROP)], vec![]),
            Ret => (self.unit.signatures[usize::from(self.unit.function.returns)].clone(), vec![]),
            BrTrue | BrFalse => (vec![Type::Bool], vec![]),
            LdU8 => (vec![], vec![Type::U8]),
            LdU64 => (vec![], vec![Type::U64]),
            LdU128 => (vec![], vec![Type::U128]),
            LdTrue | LdFalse => (vec![], vec![Type::Bool]),
            CastU8 => (vec![integer(self.rng)], vec![Type::U8]),
            CastU64 => (vec![integer(self.rng)], vec![Type::U64]),
            CastU128 => (vec![integer(self.rng)], vec![Type::U128]),
            ReadRef | WriteRef | FreezeRef => self.through_reference(opcode),
            Or | And => (vec![Type::Bool, Type::Bool], vec![Type::Bool]),
            Not => (vec![Type::Bool], vec![Type::Bool]),
            Eq | Neq => (vec![self.some_type(DROP); 2], vec![Type::Bool]),
            Lt | Gt | Le | Ge => (vec![integer(self.rng); 2], vec![Type::Bool]),
            Abort => (vec![Type::U64], vec![]),
            Shl | Shr => {
                let shifted = integer(self.rng);
                (vec![shifted.clone(), Type::U8], vec![shifted])
            }
            Add | Sub | Mul | Mod | Div | BitOr | BitAnd | Xor => {
                let operand = integer(self.rng);
                (vec![operand.clone(); 2], vec![operand])
            }
            _ => (vec![], vec![]),
        };
        Effect::of(opcode, takes, leaves)
    }

    fn through_reference(&mut self, opcode: Opcode) -> (Vec<Type>, Vec<Type>) {
        match opcode {
            Opcode::ReadRef => {
                let value = self.some_value(COPY);
                (vec![self.some_reference(value.clone())], vec![value])
            }
            Opcode::WriteRef => {
                let value = self.some_value(DROP);
                (vec![value.clone(), value.mutable()], vec![])
            }
            _ => {
                let value = self.some_value(0);
                (vec![value.clone().mutable()], vec![value.reference()])
            }
        }
    }

    /// Instructions on a local or a constant.
    fn local(&mut self, opcode: Opcode) -> Option<Effect> {
        if opcode == Opcode::LdConst {
            let index = self.rng.index(self.unit.constants.len())?;
            let constant = self.unit.constants[usize::from(index)].clone();
            return Some(Effect::of(opcode, vec![], vec![constant]).at(index));
        }
        let held = match opcode {
            Opcode::CopyLoc => self.some_type(COPY),
            Opcode::MutBorrowLoc | Opcode::ImmBorrowLoc => self.some_value(0),
            _ => self.some_type(0),
        };
        let (takes, leaves) = match opcode {
            Opcode::StLoc => (vec![held.clone()], vec![]),
            Opcode::MutBorrowLoc => (vec![], vec![held.clone().mutable()]),
            Opcode::ImmBorrowLoc => (vec![], vec![held.clone().reference()]),
            _ => (vec![], vec![held.clone()]),
        };
        Some(Effect::of(opcode, takes, leaves).at(self.local_of(&held)))
    }

    fn call(&mut self, opcode: Opcode) -> Option<Effect> {
        let (index, function, arguments) = if opcode == Opcode::Call {
            let index = self.rng.index(self.unit.function_handles.len())?;
            (index, index, vec![])
        } else {
            let index = self.rng.index(self.unit.function_instantiations.len())?;
            let inst = self.unit.function_instantiations[usize::from(index)];
            (index, inst.of, self.unit.signatures.get(usize::from(inst.arguments))?.clone())
        };
        let handle = *self.unit.function_handles.get(usize::from(function))?;
        let takes = self.filled_in(handle.parameters, &arguments)?;
        let leaves = self.filled_in(handle.returns, &arguments)?;
        Some(Effect::of(opcode, takes, leaves).at(index))
    }

    /// A definition, or an instantiation of one, by chance, with its index.
    fn some_struct(&mut self, generic: bool) -> Option<(u16, Found)> {
        if !generic {
            let index = self.rng.index(self.unit.struct_definitions.len())?;
            return Some((index, self.found(index, &[])?));
        }
        let index = self.rng.index(self.unit.struct_instantiations.len())?;
        let inst = self.unit.struct_instantiations[usize::from(index)];
        let arguments = self.unit.signatures.get(usize::from(inst.arguments))?;
        Some((index, self.found(inst.of, arguments)?))
    }

    fn found(&self, definition: u16, arguments: &[Type]) -> Option<Found> {
        let definition = self.unit.struct_definitions.get(usize::from(definition))?;
        let fields = match &definition.fields {
            Some(fields) => Some(instantiate_each(fields, arguments)?),
            None => None,
        };
        Some(Found { struct_type: materialize(definition.handle, arguments), fields })
    }

    fn pack(&mut self, opcode: Opcode) -> Option<Effect> {
        let generic = matches!(opcode, Opcode::PackGeneric | Opcode::UnpackGeneric);
        let (index, Found { struct_type, fields }) = self.some_struct(generic)?;
        let fields = if self.careless { fields.unwrap_or_default() } else { fields? };
        let (takes, leaves) = match opcode {
            Opcode::Pack | Opcode::PackGeneric => (fields, vec![struct_type]),
            _ => (vec![struct_type], fields),
        };
        Some(Effect::of(opcode, takes, leaves).at(index))
    }

    fn field(&mut self, opcode: Opcode) -> Option<Effect> {
        let (index, of, arguments) = match opcode {
            Opcode::MutBorrowField | Opcode::ImmBorrowField => {
                let index = self.rng.index(self.unit.field_handles.len())?;
                (index, index, vec![])
            }
            _ => {
                let index = self.rng.index(self.unit.field_instantiations.len())?;
                let inst = self.unit.field_instantiations[usize::from(index)];
                (index, inst.of, self.unit.signatures.get(usize::from(inst.arguments))?.clone())
            }
        };
        let handle = *self.unit.field_handles.get(usize::from(of))?;
        let owner = self.unit.struct_definitions.get(usize::from(handle.owner))?;
        let owner_type = materialize(owner.handle, &arguments);
        let field = match &owner.fields {
            Some(fields) => instantiate(fields.get(usize::from(handle.field))?, &arguments)?,
            None if self.careless => Type::U64,
            None => return None,
        };
        let (takes, leaves) = match opcode {
            Opcode::MutBorrowField | Opcode::MutBorrowFieldGeneric => (owner_type.mutable(), field.mutable()),
            _ => (self.some_reference(owner_type), field.reference()),
        };
        Some(Effect::of(opcode, vec![takes], vec![leaves]).at(index))
    }

    /// Instructions on global storage, which want a struct with key.
    fn global(&mut self, opcode: Opcode) -> Option<Effect> {
        use Opcode::*;
        let generic = matches!(
            opcode,
            MutBorrowGlobalGeneric | ImmBorrowGlobalGeneric | ExistsGeneric | MoveFromGeneric | MoveToGeneric
        );
        let (index, Found { struct_type, .. }) = self.some_struct(generic)?;
        if !self.has(&struct_type, KEY) {
            return None;
        }
        let (takes, leaves) = match opcode {
            MutBorrowGlobal | MutBorrowGlobalGeneric => (vec![Type::Address], vec![struct_type.mutable()]),
            ImmBorrowGlobal | ImmBorrowGlobalGeneric => (vec![Type::Address], vec![struct_type.reference()]),
            Exists | ExistsGeneric => (vec![Type::Address], vec![Type::Bool]),
            MoveFrom | MoveFromGeneric => (vec![Type::Address], vec![struct_type]),
            _ => (vec![Type::Signer.reference(), struct_type], vec![]),
        };
        Some(Effect::of(opcode, takes, leaves).at(index))
    }

    fn vector(&mut self, opcode: Opcode) -> Effect {
        use Opcode::*;
        let (index, element) = self.element();
        let vector = element.clone().vector();
        let count = self.rng.below(4);
        let (takes, leaves) = match opcode {
            VecPack => ((0..count).map(|_| self.some_type(0)).collect(), vec![vector]),
            VecUnpack => (vec![vector], vec![element; count]),
            VecLen => (vec![self.some_reference(vector)], vec![Type::U64]),
            VecImmBorrow => (vec![self.some_reference(vector), Type::U64], vec![element.reference()]),
            VecMutBorrow => (vec![vector.mutable(), Type::U64], vec![element.mutable()]),
            VecPushBack => (vec![vector.mutable(), element], vec![]),
            VecPopBack => (vec![vector.mutable()], vec![element]),
            _ => (vec![vector.mutable(), Type::U64, Type::U64], vec![]),
        };
        let counted = if matches!(opcode, VecPack | VecUnpack) { count as u64 } else { 0 };
        Effect { instruction: Instruction::counted(opcode, index, counted), takes, leaves }
    }
}
