//! Units with nothing in their tables but what the function and the code use, as a compiler writes them: the generator
//! fills tables of every kind whatever the code names.
use std::collections::HashMap;
use unit::tables::*;
use unit::{Instruction, Opcode, Type, Unit};

/// The unit without the entries that are not used. What is left is numbered anew, in the order of its first use.
pub fn only_used(unit: &Unit) -> Unit {
    let function = &unit.function;
    let mut used = Used::new(unit);
    used.to.function = Function {
        parameters: used.signature(function.parameters),
        returns: used.signature(function.returns),
        locals: used.signature(function.locals),
        abilities: function.abilities.clone(),
    };
    used.to.code = unit.code.iter().map(|instruction| used.instruction(instruction)).collect();
    used.to
}

/// The tables that an index may name.
#[derive(Clone, Copy, PartialEq, Eq, Hash)]
enum Table {
    StructHandle,
    Signature,
    FunctionHandle,
    FunctionInstantiation,
    StructDefinition,
    StructInstantiation,
    FieldHandle,
    FieldInstantiation,
    Constant,
}

/// The table that an opcode's index names; none where it names a local or an offset, or where there is no index.
fn table_of(opcode: Opcode) -> Option<Table> {
    use Opcode::*;
    Some(match opcode {
        LdConst => Table::Constant,
        Call => Table::FunctionHandle,
        CallGeneric => Table::FunctionInstantiation,
        Pack | Unpack | MutBorrowGlobal | ImmBorrowGlobal | Exists | MoveFrom | MoveTo => {
            Table::StructDefinition
        }
        PackGeneric
        | UnpackGeneric
        | MutBorrowGlobalGeneric
        | ImmBorrowGlobalGeneric
        | ExistsGeneric
        | MoveFromGeneric
        | MoveToGeneric => Table::StructInstantiation,
        MutBorrowField | ImmBorrowField => Table::FieldHandle,
        MutBorrowFieldGeneric | ImmBorrowFieldGeneric => Table::FieldInstantiation,
        VecPack | VecLen | VecImmBorrow | VecMutBorrow | VecPushBack | VecPopBack | VecUnpack | VecSwap => {
            Table::Signature
        }
        _ => return None,
    })
}

/// What was taken over so far.
struct Used<'a> {
    from: &'a Unit,
    to: Unit,
    /// The new numbers.
    numbers: HashMap<(Table, u16), u16>,
}

impl<'a> Used<'a> {
    fn new(from: &'a Unit) -> Used<'a> {
        let to = Unit { is_script: from.is_script, blocks: from.blocks.clone(), ..Unit::default() };
        Used { from, to, numbers: HashMap::new() }
    }

    /// The new number of an entry, which is made the first time it is asked for.
    fn entry<T>(
        &mut self,
        table: Table,
        old: u16,
        rows: fn(&mut Unit) -> &mut Vec<T>,
        made: impl FnOnce(&mut Self, &'a Unit, usize) -> T,
    ) -> u16 {
        if let Some(new) = self.numbers.get(&(table, old)) {
            return *new;
        }
        let entry = made(self, self.from, usize::from(old));
        let rows = rows(&mut self.to);
        let new = u16::try_from(rows.len()).expect("there are no more than there were");
        rows.push(entry);
        self.numbers.insert((table, old), new);
        new
    }

    fn instruction(&mut self, instruction: &Instruction) -> Instruction {
        let old = instruction.index;
        let index = match table_of(instruction.opcode) {
            None => old,
            Some(Table::StructHandle) => self.struct_handle(old),
            Some(Table::Signature) => self.signature(old),
            Some(Table::FunctionHandle) => self.function_handle(old),
            Some(Table::FunctionInstantiation) => self.entry(
                Table::FunctionInstantiation,
                old,
                |to| &mut to.function_instantiations,
                |used, from, at| {
                    let Instantiation { of, arguments } = from.function_instantiations[at];
                    Instantiation { of: used.function_handle(of), arguments: used.signature(arguments) }
                },
            ),
            Some(Table::StructDefinition) => self.struct_definition(old),
            Some(Table::StructInstantiation) => self.entry(
                Table::StructInstantiation,
                old,
                |to| &mut to.struct_instantiations,
                |used, from, at| {
                    let Instantiation { of, arguments } = from.struct_instantiations[at];
                    Instantiation { of: used.struct_definition(of), arguments: used.signature(arguments) }
                },
            ),
            Some(Table::FieldHandle) => self.field_handle(old),
            Some(Table::FieldInstantiation) => self.entry(
                Table::FieldInstantiation,
                old,
                |to| &mut to.field_instantiations,
                |used, from, at| {
                    let Instantiation { of, arguments } = from.field_instantiations[at];
                    Instantiation { of: used.field_handle(of), arguments: used.signature(arguments) }
                },
            ),
            Some(Table::Constant) => self.entry(
                Table::Constant,
                old,
                |to| &mut to.constants,
                |used, from, at| used.ty(&from.constants[at]),
            ),
        };
        Instruction { index, ..*instruction }
    }

    fn signature(&mut self, old: u16) -> u16 {
        self.entry(
            Table::Signature,
            old,
            |to| &mut to.signatures,
            |used, from, at| used.types(&from.signatures[at]),
        )
    }

    fn function_handle(&mut self, old: u16) -> u16 {
        self.entry(
            Table::FunctionHandle,
            old,
            |to| &mut to.function_handles,
            |used, from, at| {
                let FunctionHandle { parameters, returns } = from.function_handles[at];
                FunctionHandle { parameters: used.signature(parameters), returns: used.signature(returns) }
            },
        )
    }

    fn struct_definition(&mut self, old: u16) -> u16 {
        self.entry(
            Table::StructDefinition,
            old,
            |to| &mut to.struct_definitions,
            |used, from, at| {
                let StructDefinition { handle, fields } = &from.struct_definitions[at];
                let fields = fields.as_ref().map(|fields| used.types(fields));
                StructDefinition { handle: used.struct_handle(*handle), fields }
            },
        )
    }

    fn field_handle(&mut self, old: u16) -> u16 {
        self.entry(
            Table::FieldHandle,
            old,
            |to| &mut to.field_handles,
            |used, from, at| {
                let FieldHandle { owner, field } = from.field_handles[at];
                FieldHandle { owner: used.struct_definition(owner), field }
            },
        )
    }

    /// A handle past the table, which an accepted unit may name behind a reference, stays as it is.
    fn struct_handle(&mut self, old: u16) -> u16 {
        if self.from.struct_handles.len() <= usize::from(old) {
            return old;
        }
        self.entry(
            Table::StructHandle,
            old,
            |to| &mut to.struct_handles,
            |_, from, at| from.struct_handles[at].clone(),
        )
    }

    fn types(&mut self, types: &[Type]) -> Vec<Type> {
        types.iter().map(|each| self.ty(each)).collect()
    }

    fn ty(&mut self, old: &Type) -> Type {
        match old {
            Type::Vector(inner) => self.ty(inner).vector(),
            Type::Struct(handle) => Type::Struct(self.struct_handle(*handle)),
            Type::StructInstantiation(handle, arguments) => {
                Type::StructInstantiation(self.struct_handle(*handle), self.types(arguments))
            }
            Type::Reference(inner) => self.ty(inner).reference(),
            Type::MutableReference(inner) => self.ty(inner).mutable(),
            leaf => leaf.clone(),
        }
    }
}
