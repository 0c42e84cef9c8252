//! Asks a subject about a case and compares everything that document 01 promises: the verdict of each of the four
//! calls, the area afterwards, the unit unchanged, and nothing written beside either.
use crate::case::{Call, Case};
use crate::oracle::Answers;
use crate::rng::Rng;
use crate::subject::Subject;
use std::fmt;
use unit::verdict::number::AREA;
use unit::Verdict;

/// Bytes kept before and after what is lent, to see a write beside it.
const GUARD: usize = 64;
const GUARD_BYTE: u8 = 0xA5;
/// The longest area that is lent at all, some past the longest that is accepted.
const MOST_AREA: usize = 66_000;

/// What was found otherwise than expected.
pub struct Difference {
    pub call: Call,
    pub expected: Verdict,
    pub what: String,
}

impl fmt::Display for Difference {
    fn fmt(&self, f: &mut fmt::Formatter) -> fmt::Result {
        write!(f, "{:?}: the Rust says {}, {}", self.call, self.expected, self.what)
    }
}

/// Lends bytes to a subject, with guards around them, and looks at them afterwards. It is kept from case to case.
pub struct Checker {
    seed: u64,
    rng: Rng,
    /// What areas hold before a call.
    junk: Vec<u8>,
    unit: Vec<u8>,
    area: Vec<u8>,
}

impl Checker {
    pub fn new(seed: u64) -> Checker {
        let mut rng = Rng::of_case(seed, u64::MAX);
        let mut junk: Vec<u8> = (0..2 * MOST_AREA).map(|_| rng.byte()).collect();
        // Beside random bytes some that look like a stack: a type of one byte and its length.
        junk.extend((0..MOST_AREA).map(|at| [0x02, 0x01, 0x00][at % 3]));
        Checker { seed, rng, junk, unit: vec![], area: vec![] }
    }

    /// All four calls, and one of them again with something else in the area. The case's number decides what the areas
    /// hold.
    pub fn check(
        &mut self,
        number: u64,
        case: &Case,
        answers: &Answers,
        subject: &mut dyn Subject,
    ) -> Result<(), Difference> {
        self.rng = Rng::of_case(self.seed, number);
        let again = *self.rng.pick(&Call::ALL);
        for call in Call::ALL.into_iter().chain([again]) {
            let expected = answers.to(call);
            let found = self.ask(case, call, expected, subject);
            found.map_err(|what| Difference { call, expected, what })?;
        }
        Ok(())
    }

    fn ask(
        &mut self,
        case: &Case,
        call: Call,
        expected: Verdict,
        subject: &mut dyn Subject,
    ) -> Result<(), String> {
        let at = self.rng.below(self.junk.len() - case.area);
        let before = &self.junk[at..at + case.area];
        lend(&mut self.unit, &case.unit);
        lend(&mut self.area, before);
        let got = subject.judge(call, lent(&mut self.unit), lent(&mut self.area));
        if got != expected.packed() {
            return Err(format!("the port says {}", shown(got)));
        }
        if lent(&mut self.unit) != case.unit {
            return Err("the port changed the unit".to_string());
        }
        let as_promised = match expected.number {
            AREA => lent(&mut self.area) == before,
            _ => lent(&mut self.area).iter().all(|&byte| byte == 0),
        };
        if !as_promised {
            return Err("the port left something else in the area than is promised".to_string());
        }
        if !guarded(&self.unit) || !guarded(&self.area) {
            return Err("the port wrote beside what it was lent".to_string());
        }
        Ok(())
    }
}

/// The bytes with guards around them.
fn lend(buffer: &mut Vec<u8>, bytes: &[u8]) {
    buffer.clear();
    buffer.extend([GUARD_BYTE; GUARD]);
    buffer.extend_from_slice(bytes);
    buffer.extend([GUARD_BYTE; GUARD]);
}

fn lent(buffer: &mut [u8]) -> &mut [u8] {
    let end = buffer.len() - GUARD;
    &mut buffer[GUARD..end]
}

fn guarded(buffer: &[u8]) -> bool {
    let (front, back) = (&buffer[..GUARD], &buffer[buffer.len() - GUARD..]);
    front.iter().chain(back).all(|&byte| byte == GUARD_BYTE)
}

/// A packed answer as document 01 prints it; whole where it has bits that mean nothing.
fn shown(packed: u64) -> String {
    let (number, letter, place) = (packed & 0xFF, (packed >> 8) as u8 as char, packed >> 16 & 0xFFFF);
    if packed >> 32 == 0 && letter.is_ascii_graphic() {
        format!("{number} {letter} {place}")
    } else {
        format!("{packed:#x}")
    }
}
