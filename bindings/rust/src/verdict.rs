//! What a call answers, and how it is taken from the number that the library gives.
use crate::Status;
use std::fmt;

/// What a verdict is about.
#[derive(Clone, Copy, Debug, PartialEq, Eq, Hash)]
pub enum Position {
    /// Nothing: the unit is accepted, or the Rust names no place.
    None,
    /// A byte of the unit.
    Byte(u16),
    /// The first instruction of a block.
    BlockStart(u16),
    /// An instruction.
    Instruction(u16),
}

/// The answer of each call.
#[derive(Clone, Copy, Debug, PartialEq, Eq, Hash)]
pub struct Verdict {
    pub status: Status,
    pub position: Position,
}

impl Verdict {
    /// Whether the unit passed.
    pub fn is_accepted(self) -> bool {
        self.status == Status::Accepted
    }

    /// Takes the library's answer apart: the number in bits 0 to 7, the letter in 8 to 15, the place in 16 to 31. None where it is no answer.
    pub(crate) fn of_packed(packed: u64) -> Option<Verdict> {
        let [number, letter, low, high, 0, 0, 0, 0] = packed.to_le_bytes() else { return None };
        let place = u16::from_le_bytes([low, high]);
        let position = match letter {
            b'n' if place == 0 => Position::None,
            b'b' => Position::Byte(place),
            b'k' => Position::BlockStart(place),
            b'i' => Position::Instruction(place),
            _ => return None,
        };
        Some(Verdict { status: Status::of_number(number)?, position })
    }
}

/// The letter and the place, as `n 0`.
impl fmt::Display for Position {
    fn fmt(&self, f: &mut fmt::Formatter<'_>) -> fmt::Result {
        match self {
            Position::None => write!(f, "n 0"),
            Position::Byte(place) => write!(f, "b {place}"),
            Position::BlockStart(place) => write!(f, "k {place}"),
            Position::Instruction(place) => write!(f, "i {place}"),
        }
    }
}

/// Document 01's line: number, letter and place, as `0 n 0`.
impl fmt::Display for Verdict {
    fn fmt(&self, f: &mut fmt::Formatter<'_>) -> fmt::Result {
        write!(f, "{} {}", self.status.number(), self.position)
    }
}

#[cfg(test)]
mod tests {
    use super::*;

    /// What `crates/wavgrut` packs.
    fn packed(number: u64, letter: u8, place: u64) -> u64 {
        number + 256 * u64::from(letter) + 65536 * place
    }

    #[test]
    fn an_answer_is_taken_apart_and_printed() {
        let line = |packed| Verdict::of_packed(packed).map(|verdict| verdict.to_string());
        assert_eq!(line(packed(0, b'n', 0)).as_deref(), Some("0 n 0"));
        assert_eq!(line(packed(8, b'b', 32767)).as_deref(), Some("8 b 32767"));
        assert_eq!(line(packed(15, b'k', 256)).as_deref(), Some("15 k 256"));
        assert_eq!(line(packed(46, b'i', 65535)).as_deref(), Some("46 i 65535"));
    }

    #[test]
    fn what_is_no_answer_is_not_taken() {
        for wrong in
            [0, packed(47, b'n', 0), packed(0, b'x', 0), packed(0, b'n', 1), 1 << 32 | packed(0, b'n', 0)]
        {
            assert_eq!(Verdict::of_packed(wrong), None, "{wrong:#x}");
        }
    }

    #[test]
    fn each_status_is_at_its_number() {
        for (number, status) in Status::ALL.into_iter().enumerate() {
            assert_eq!(usize::from(status.number()), number);
        }
        assert_eq!(Status::of_number(46).map(Status::name), Some("EQUALITY_OP_TYPE_MISMATCH_ERROR"));
        assert_eq!(Status::of_number(47), None);
    }
}
