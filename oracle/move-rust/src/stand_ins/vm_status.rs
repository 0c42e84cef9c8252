//! Stand-in for `move_core_types::vm_status`. The status codes of the two passes have document 01's numbers; the
//! others are named by code that the passes never run.
use super::core_types::language_storage::ModuleId;

#[allow(non_camel_case_types)]
#[derive(Clone, Copy, Debug, PartialEq, Eq, PartialOrd, Ord, Hash)]
#[repr(u8)]
pub enum StatusCode {
    NEGATIVE_STACK_SIZE_WITHIN_BLOCK = 14,
    POSITIVE_STACK_SIZE_AT_BLOCK_END = 15,
    INVALID_OPERATION_IN_SCRIPT = 16,
    VERIFIER_INVARIANT_VIOLATION = 17,
    BORROWFIELD_TYPE_MISMATCH_ERROR = 18,
    BORROWFIELD_BAD_FIELD_ERROR = 19,
    BORROWLOC_REFERENCE_ERROR = 20,
    BORROWGLOBAL_TYPE_MISMATCH_ERROR = 21,
    BORROWGLOBAL_WITHOUT_KEY_ABILITY = 22,
    CALL_TYPE_MISMATCH_ERROR = 23,
    PACK_TYPE_MISMATCH_ERROR = 24,
    UNPACK_TYPE_MISMATCH_ERROR = 25,
    EXISTS_WITHOUT_KEY_ABILITY_OR_BAD_ARGUMENT = 26,
    MOVEFROM_WITHOUT_KEY_ABILITY = 27,
    MOVEFROM_TYPE_MISMATCH_ERROR = 28,
    MOVETO_WITHOUT_KEY_ABILITY = 29,
    MOVETO_TYPE_MISMATCH_ERROR = 30,
    TYPE_MISMATCH = 31,
    POP_WITHOUT_DROP_ABILITY = 32,
    BR_TYPE_MISMATCH_ERROR = 33,
    STLOC_TYPE_MISMATCH_ERROR = 34,
    ABORT_TYPE_MISMATCH_ERROR = 35,
    RET_TYPE_MISMATCH_ERROR = 36,
    FREEZEREF_TYPE_MISMATCH_ERROR = 37,
    COPYLOC_WITHOUT_COPY_ABILITY = 38,
    READREF_WITHOUT_COPY_ABILITY = 39,
    READREF_TYPE_MISMATCH_ERROR = 40,
    WRITEREF_NO_MUTABLE_REFERENCE_ERROR = 41,
    WRITEREF_WITHOUT_DROP_ABILITY = 42,
    WRITEREF_TYPE_MISMATCH_ERROR = 43,
    INTEGER_OP_TYPE_MISMATCH_ERROR = 44,
    BOOLEAN_OP_TYPE_MISMATCH_ERROR = 45,
    EQUALITY_OP_TYPE_MISMATCH_ERROR = 46,
    EXECUTED = 200,
    ABORTED = 201,
    LINKER_ERROR = 202,
}

#[derive(Clone, Copy, Debug, PartialEq, Eq)]
pub enum StatusType {
    Verification,
    Execution,
}

impl StatusCode {
    pub fn status_type(self) -> StatusType {
        match self {
            StatusCode::EXECUTED | StatusCode::ABORTED => StatusType::Execution,
            _ => StatusType::Verification,
        }
    }
}

#[derive(Clone, Debug, PartialEq, Eq)]
pub enum AbortLocation {
    Module(ModuleId),
    Script,
}

#[derive(Clone, Debug, PartialEq, Eq)]
pub enum VMStatus {
    Executed,
    Error(StatusCode),
    MoveAbort(AbortLocation, u64),
    ExecutionFailure { status_code: StatusCode, location: AbortLocation, function: u16, code_offset: u16 },
}
