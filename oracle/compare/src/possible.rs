//! Which numbers each opcode can give, read off the Rust: what coverage is measured against. A pair that is met and
//! does not stand here would be a mistake in this list or in the walk.
use crate::case::Call;
use crate::coverage::Pair;
use unit::Opcode;

/// Every refusal that an opcode can give, in either pass.
pub fn pairs() -> Vec<Pair> {
    let of = |call, opcode, numbers: &[u8]| -> Vec<Pair> {
        numbers.iter().map(|&number| Pair { call, opcode, number }).collect()
    };
    let both = |&opcode| {
        [of(Call::StackUsage, opcode, of_stack_usage(opcode)), of(Call::Types, opcode, of_types(opcode))]
    };
    Opcode::ALL.iter().flat_map(both).flatten().collect()
}

/// The numbers of the type pass, beside 0.
pub fn of_types(opcode: Opcode) -> &'static [u8] {
    use Opcode::*;
    match opcode {
        Pop => &[10, 11, 17, 32],
        Ret => &[10, 36],
        BrTrue | BrFalse => &[10, 33],
        Branch | Nop => &[],
        LdU8 | LdU64 | LdU128 | LdTrue | LdFalse => &[12],
        LdConst | MoveLoc => &[11, 12],
        CopyLoc => &[11, 12, 17, 38],
        StLoc => &[10, 11, 34],
        MutBorrowLoc | ImmBorrowLoc => &[11, 12, 20],
        Call | CallGeneric => &[10, 11, 12, 23],
        Pack | PackGeneric => &[10, 11, 12, 16, 24],
        Unpack | UnpackGeneric => &[10, 11, 12, 16, 24, 25],
        ReadRef => &[10, 11, 17, 39, 40],
        WriteRef => &[10, 11, 17, 41, 42, 43],
        FreezeRef => &[10, 37],
        MutBorrowField | MutBorrowFieldGeneric | ImmBorrowField | ImmBorrowFieldGeneric => {
            &[10, 11, 12, 16, 18, 19]
        }
        // A plain struct's abilities are its handle's: 17 takes type arguments.
        MutBorrowGlobal | ImmBorrowGlobal => &[10, 11, 12, 16, 21, 22],
        MutBorrowGlobalGeneric | ImmBorrowGlobalGeneric => &[10, 11, 12, 16, 17, 21, 22],
        Exists => &[10, 11, 16, 26],
        ExistsGeneric => &[10, 11, 16, 17, 26],
        MoveFrom => &[10, 11, 12, 16, 27, 28],
        MoveFromGeneric => &[10, 11, 12, 16, 17, 27, 28],
        MoveTo => &[10, 11, 16, 29, 30],
        MoveToGeneric => &[10, 11, 16, 17, 29, 30],
        CastU8 | CastU64 | CastU128 | Add | Sub | Mul | Mod | Div | BitOr | BitAnd | Xor | Shl | Shr | Lt
        | Gt | Le | Ge => &[10, 44],
        Or | And | Not => &[10, 45],
        Eq | Neq => &[10, 11, 17, 46],
        Abort => &[10, 35],
        VecPack => &[10, 11, 12],
        VecUnpack => &[10, 11, 12, 31],
        VecLen | VecImmBorrow | VecMutBorrow | VecPushBack | VecPopBack | VecSwap => &[10, 11, 31],
    }
}

/// The numbers of stack usage, beside 0 and beside 15, which no single instruction gives.
pub fn of_stack_usage(opcode: Opcode) -> &'static [u8] {
    use Opcode::*;
    match opcode {
        Branch | Nop => &[],
        LdU8 | LdU64 | LdU128 | LdConst | LdTrue | LdFalse | CopyLoc | MoveLoc | MutBorrowLoc
        | ImmBorrowLoc => &[13],
        Call | CallGeneric => &[11, 13, 14],
        Pack | PackGeneric | Unpack | UnpackGeneric => &[11, 13, 14, 16],
        VecPack | VecUnpack => &[13, 14],
        _ => &[14],
    }
}
