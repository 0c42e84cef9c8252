//! Instructions: one opcode byte, numbered in the order of the Rust's `Bytecode`, and its operands.

/// What follows an opcode.
#[derive(Clone, Copy, PartialEq, Eq, Debug)]
pub enum Form {
    Plain,
    /// A code offset, u16.
    Offset,
    /// A local, u8.
    Local,
    /// A table index, u16.
    Index,
    /// A loaded integer of so many bytes.
    Integer(usize),
    /// A table index, u16, and a count, u64.
    Counted,
}

/// The opcodes, their numbers and their forms, from one list.
macro_rules! opcodes {
    ($($name:ident $form:expr,)*) => {
        #[derive(Clone, Copy, PartialEq, Eq, Debug)]
        #[repr(u8)]
        pub enum Opcode { $($name,)* }

        impl Opcode {
            /// Every opcode, at its number.
            pub const ALL: &'static [Opcode] = &[$(Opcode::$name,)*];

            pub fn form(self) -> Form {
                use Form::*;
                match self { $(Opcode::$name => $form,)* }
            }
        }
    };
}

opcodes! {
    Pop Plain, Ret Plain, BrTrue Offset, BrFalse Offset, Branch Offset,
    LdU8 Integer(1), LdU64 Integer(8), LdU128 Integer(16),
    CastU8 Plain, CastU64 Plain, CastU128 Plain,
    LdConst Index, LdTrue Plain, LdFalse Plain,
    CopyLoc Local, MoveLoc Local, StLoc Local,
    Call Index, CallGeneric Index, Pack Index, PackGeneric Index, Unpack Index, UnpackGeneric Index,
    ReadRef Plain, WriteRef Plain, FreezeRef Plain,
    MutBorrowLoc Local, ImmBorrowLoc Local,
    MutBorrowField Index, MutBorrowFieldGeneric Index, ImmBorrowField Index, ImmBorrowFieldGeneric Index,
    MutBorrowGlobal Index, MutBorrowGlobalGeneric Index, ImmBorrowGlobal Index, ImmBorrowGlobalGeneric Index,
    Add Plain, Sub Plain, Mul Plain, Mod Plain, Div Plain, BitOr Plain, BitAnd Plain, Xor Plain,
    Or Plain, And Plain, Not Plain, Eq Plain, Neq Plain, Lt Plain, Gt Plain, Le Plain, Ge Plain,
    Abort Plain, Nop Plain,
    Exists Index, ExistsGeneric Index, MoveFrom Index, MoveFromGeneric Index, MoveTo Index, MoveToGeneric Index,
    Shl Plain, Shr Plain,
    VecPack Counted, VecLen Index, VecImmBorrow Index, VecMutBorrow Index, VecPushBack Index, VecPopBack Index,
    VecUnpack Counted, VecSwap Index,
}

impl Opcode {
    /// The opcode of a byte, or none.
    pub fn of(byte: u8) -> Option<Opcode> {
        Opcode::ALL.get(usize::from(byte)).copied()
    }
}

/// An opcode and its operands; those that its form has not are 0.
#[derive(Clone, Copy, PartialEq, Eq, Debug)]
pub struct Instruction {
    pub opcode: Opcode,
    /// The code offset, the local (under 256) or the table index.
    pub index: u16,
    pub count: u64,
    /// The loaded integer.
    pub value: u128,
}

impl Instruction {
    pub fn plain(opcode: Opcode) -> Instruction {
        Instruction { opcode, index: 0, count: 0, value: 0 }
    }

    pub fn indexed(opcode: Opcode, index: u16) -> Instruction {
        Instruction { index, ..Instruction::plain(opcode) }
    }

    pub fn counted(opcode: Opcode, index: u16, count: u64) -> Instruction {
        Instruction { count, ..Instruction::indexed(opcode, index) }
    }

    /// Appends the instruction's bytes.
    pub fn write(&self, out: &mut Vec<u8>) {
        out.push(self.opcode as u8);
        match self.opcode.form() {
            Form::Plain => (),
            Form::Offset | Form::Index => out.extend(self.index.to_le_bytes()),
            Form::Local => out.push(u8::try_from(self.index).expect("a local is a byte")),
            Form::Integer(width) => out.extend(&self.value.to_le_bytes()[..width]),
            Form::Counted => {
                out.extend(self.index.to_le_bytes());
                out.extend(self.count.to_le_bytes());
            }
        }
    }
}
