//! Verdicts: a number of document 01's table and a position.
use std::fmt;

/// Where a refusal points.
#[derive(Clone, Copy, PartialEq, Eq, Debug)]
pub enum Position {
    None,
    Byte(u16),
    BlockStart(u16),
    Instruction(u16),
}

/// What a public call answers.
#[derive(Clone, Copy, PartialEq, Eq, Debug)]
pub struct Verdict {
    pub number: u8,
    pub position: Position,
}

/// The numbers that have no status code in the Rust; 14 to 46 are the Rust's.
pub mod number {
    pub const TOO_LONG: u8 = 1;
    pub const SHORT: u8 = 2;
    pub const COMMAND: u8 = 3;
    pub const ORDER: u8 = 4;
    pub const VALUE: u8 = 5;
    pub const DEPTH: u8 = 6;
    pub const BLOCK: u8 = 7;
    pub const TRAILING: u8 = 8;
    pub const AREA: u8 = 9;
    pub const EMPTY_STACK: u8 = 10;
    pub const OUT_OF_TABLE: u8 = 11;
    pub const NO_ROOM: u8 = 12;
    pub const HEIGHT: u8 = 13;
}

/// The names of document 01's table, at their numbers.
pub const NAMES: [&str; 47] = [
    "accepted",
    "TOO_LONG",
    "SHORT",
    "COMMAND",
    "ORDER",
    "VALUE",
    "DEPTH",
    "BLOCK",
    "TRAILING",
    "AREA",
    "EMPTY_STACK",
    "OUT_OF_TABLE",
    "NO_ROOM",
    "HEIGHT",
    "NEGATIVE_STACK_SIZE_WITHIN_BLOCK",
    "POSITIVE_STACK_SIZE_AT_BLOCK_END",
    "INVALID_OPERATION_IN_SCRIPT",
    "VERIFIER_INVARIANT_VIOLATION",
    "BORROWFIELD_TYPE_MISMATCH_ERROR",
    "BORROWFIELD_BAD_FIELD_ERROR",
    "BORROWLOC_REFERENCE_ERROR",
    "BORROWGLOBAL_TYPE_MISMATCH_ERROR",
    "BORROWGLOBAL_WITHOUT_KEY_ABILITY",
    "CALL_TYPE_MISMATCH_ERROR",
    "PACK_TYPE_MISMATCH_ERROR",
    "UNPACK_TYPE_MISMATCH_ERROR",
    "EXISTS_WITHOUT_KEY_ABILITY_OR_BAD_ARGUMENT",
    "MOVEFROM_WITHOUT_KEY_ABILITY",
    "MOVEFROM_TYPE_MISMATCH_ERROR",
    "MOVETO_WITHOUT_KEY_ABILITY",
    "MOVETO_TYPE_MISMATCH_ERROR",
    "TYPE_MISMATCH",
    "POP_WITHOUT_DROP_ABILITY",
    "BR_TYPE_MISMATCH_ERROR",
    "STLOC_TYPE_MISMATCH_ERROR",
    "ABORT_TYPE_MISMATCH_ERROR",
    "RET_TYPE_MISMATCH_ERROR",
    "FREEZEREF_TYPE_MISMATCH_ERROR",
    "COPYLOC_WITHOUT_COPY_ABILITY",
    "READREF_WITHOUT_COPY_ABILITY",
    "READREF_TYPE_MISMATCH_ERROR",
    "WRITEREF_NO_MUTABLE_REFERENCE_ERROR",
    "WRITEREF_WITHOUT_DROP_ABILITY",
    "WRITEREF_TYPE_MISMATCH_ERROR",
    "INTEGER_OP_TYPE_MISMATCH_ERROR",
    "BOOLEAN_OP_TYPE_MISMATCH_ERROR",
    "EQUALITY_OP_TYPE_MISMATCH_ERROR",
];

impl Verdict {
    pub const ACCEPTED: Verdict = Verdict { number: 0, position: Position::None };

    pub fn accepts(self) -> bool {
        self == Verdict::ACCEPTED
    }

    /// A refusal of the reader.
    pub fn at_byte(number: u8, at: usize) -> Verdict {
        // A unit that is read has at most 32,768 bytes, so every place in it fits.
        Verdict { number, position: Position::Byte(at as u16) }
    }

    /// The letter that is printed for the position.
    pub fn letter(self) -> u8 {
        match self.position {
            Position::None => b'n',
            Position::Byte(_) => b'b',
            Position::BlockStart(_) => b'k',
            Position::Instruction(_) => b'i',
        }
    }

    /// The place that is printed for the position.
    pub fn place(self) -> u16 {
        match self.position {
            Position::None => 0,
            Position::Byte(at) | Position::BlockStart(at) | Position::Instruction(at) => at,
        }
    }

    /// The form in which the port answers: number, letter and place from the low bits up.
    pub fn packed(self) -> u64 {
        u64::from(self.number) | u64::from(self.letter()) << 8 | u64::from(self.place()) << 16
    }
}

/// Number, letter and place, as document 01 prints a verdict.
impl fmt::Display for Verdict {
    fn fmt(&self, f: &mut fmt::Formatter) -> fmt::Result {
        write!(f, "{} {} {}", self.number, self.letter() as char, self.place())
    }
}
