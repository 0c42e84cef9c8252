//! The statuses of document 01's table of verdicts.

macro_rules! statuses {
    ($($variant:ident = $number:literal $name:literal,)*) => {
        /// Whether a unit is accepted, or why it is refused: 1 to 13 have document 01's own names, 14 to 46 those of the Rust's `StatusCode`.
        #[derive(Clone, Copy, Debug, PartialEq, Eq, Hash, PartialOrd, Ord)]
        #[repr(u8)]
        pub enum Status {
            $(#[doc = concat!($number, ": ", $name)] $variant = $number,)*
        }

        impl Status {
            /// All of them, each at its number.
            pub const ALL: [Status; 47] = [$(Status::$variant,)*];

            /// The table's name.
            pub const fn name(self) -> &'static str {
                match self {
                    $(Status::$variant => $name,)*
                }
            }
        }
    };
}

statuses! {
    Accepted = 0 "accepted",
    TooLong = 1 "TOO_LONG",
    Short = 2 "SHORT",
    Command = 3 "COMMAND",
    Order = 4 "ORDER",
    Value = 5 "VALUE",
    Depth = 6 "DEPTH",
    Block = 7 "BLOCK",
    Trailing = 8 "TRAILING",
    Area = 9 "AREA",
    EmptyStack = 10 "EMPTY_STACK",
    OutOfTable = 11 "OUT_OF_TABLE",
    NoRoom = 12 "NO_ROOM",
    Height = 13 "HEIGHT",
    NegativeStackSizeWithinBlock = 14 "NEGATIVE_STACK_SIZE_WITHIN_BLOCK",
    PositiveStackSizeAtBlockEnd = 15 "POSITIVE_STACK_SIZE_AT_BLOCK_END",
    InvalidOperationInScript = 16 "INVALID_OPERATION_IN_SCRIPT",
    VerifierInvariantViolation = 17 "VERIFIER_INVARIANT_VIOLATION",
    BorrowfieldTypeMismatchError = 18 "BORROWFIELD_TYPE_MISMATCH_ERROR",
    BorrowfieldBadFieldError = 19 "BORROWFIELD_BAD_FIELD_ERROR",
    BorrowlocReferenceError = 20 "BORROWLOC_REFERENCE_ERROR",
    BorrowglobalTypeMismatchError = 21 "BORROWGLOBAL_TYPE_MISMATCH_ERROR",
    BorrowglobalWithoutKeyAbility = 22 "BORROWGLOBAL_WITHOUT_KEY_ABILITY",
    CallTypeMismatchError = 23 "CALL_TYPE_MISMATCH_ERROR",
    PackTypeMismatchError = 24 "PACK_TYPE_MISMATCH_ERROR",
    UnpackTypeMismatchError = 25 "UNPACK_TYPE_MISMATCH_ERROR",
    ExistsWithoutKeyAbilityOrBadArgument = 26 "EXISTS_WITHOUT_KEY_ABILITY_OR_BAD_ARGUMENT",
    MovefromWithoutKeyAbility = 27 "MOVEFROM_WITHOUT_KEY_ABILITY",
    MovefromTypeMismatchError = 28 "MOVEFROM_TYPE_MISMATCH_ERROR",
    MovetoWithoutKeyAbility = 29 "MOVETO_WITHOUT_KEY_ABILITY",
    MovetoTypeMismatchError = 30 "MOVETO_TYPE_MISMATCH_ERROR",
    TypeMismatch = 31 "TYPE_MISMATCH",
    PopWithoutDropAbility = 32 "POP_WITHOUT_DROP_ABILITY",
    BrTypeMismatchError = 33 "BR_TYPE_MISMATCH_ERROR",
    StlocTypeMismatchError = 34 "STLOC_TYPE_MISMATCH_ERROR",
    AbortTypeMismatchError = 35 "ABORT_TYPE_MISMATCH_ERROR",
    RetTypeMismatchError = 36 "RET_TYPE_MISMATCH_ERROR",
    FreezerefTypeMismatchError = 37 "FREEZEREF_TYPE_MISMATCH_ERROR",
    CopylocWithoutCopyAbility = 38 "COPYLOC_WITHOUT_COPY_ABILITY",
    ReadrefWithoutCopyAbility = 39 "READREF_WITHOUT_COPY_ABILITY",
    ReadrefTypeMismatchError = 40 "READREF_TYPE_MISMATCH_ERROR",
    WriterefNoMutableReferenceError = 41 "WRITEREF_NO_MUTABLE_REFERENCE_ERROR",
    WriterefWithoutDropAbility = 42 "WRITEREF_WITHOUT_DROP_ABILITY",
    WriterefTypeMismatchError = 43 "WRITEREF_TYPE_MISMATCH_ERROR",
    IntegerOpTypeMismatchError = 44 "INTEGER_OP_TYPE_MISMATCH_ERROR",
    BooleanOpTypeMismatchError = 45 "BOOLEAN_OP_TYPE_MISMATCH_ERROR",
    EqualityOpTypeMismatchError = 46 "EQUALITY_OP_TYPE_MISMATCH_ERROR",
}

impl Status {
    /// The table's number, 0 to 46.
    pub const fn number(self) -> u8 {
        self as u8
    }

    /// The status of a number.
    pub fn of_number(number: u8) -> Option<Status> {
        Status::ALL.get(usize::from(number)).copied()
    }
}
