//! Shows that the comparison would notice: it is run against subjects with one fault each. Most are faults in the
//! passes and in the reader (`move-rust-faulty`); the rest are in how the passes are asked, in the answers, and in what
//! is left behind.
use crate::case::{Call, Case};
use crate::check::Checker;
use crate::generate;
use crate::oracle;
use crate::subject::Subject;
use move_rust_faulty::{faults::FAULTS, read, switch, Loaded};
use unit::verdict::number::*;
use unit::{Position, Unit, Verdict, LONGEST_AREA, LONGEST_UNIT};

/// Runs the comparison against each fault, on up to `count` cases, and prints which were noticed. The answer is how
/// many were, and how many there are.
pub fn run(count: u64, seed: u64) -> (usize, usize) {
    let in_passes = FAULTS.iter().enumerate().map(|(number, fault)| (fault.what, Faulty::pass(number)));
    let around = AROUND.iter().map(|&(what, fault)| (what, Faulty::around(fault)));
    let all: Vec<(&str, Faulty)> = in_passes.chain(around).collect();
    let total = all.len();
    assert!(
        noticed(&mut Faulty { pass: usize::MAX, around: None }, count.min(10_000), seed).is_none(),
        "no fault, yet a difference"
    );
    let mut found = 0;
    for (what, mut faulty) in all {
        match noticed(&mut faulty, count, seed) {
            Some((case, difference)) => {
                found += 1;
                println!("found at case {case:>6}: {what}\n                      {difference}");
            }
            None => println!("NOT FOUND           : {what}"),
        }
    }
    println!("{found} of {total} faults found within {count} units each");
    (found, total)
}

/// The first case at which the subject differs, and how.
fn noticed(faulty: &mut Faulty, count: u64, seed: u64) -> Option<(u64, String)> {
    switch::choose(faulty.pass);
    let mut checker = Checker::new(seed);
    (0..count).find_map(|number| {
        let case = generate::case(seed, number);
        let difference = checker.check(number, &case, &oracle::answers(&case), faulty).err()?;
        Some((number, difference.to_string()))
    })
}

/// A port that is the Rust with one fault.
struct Faulty {
    /// The fault that is switched on in the passes.
    pass: usize,
    around: Option<Around>,
}

/// Faults around the passes.
#[derive(Clone, Copy, PartialEq, Eq)]
enum Around {
    // in how the passes are asked
    FirstBlockOnly,
    BlocksSorted,
    StackCleared,
    TypesFirst,
    AreaLessOne,
    LaterReturnFirst,
    // in the answer
    LongestUnitRefused,
    LongestAreaRefused,
    ShortAtLastByte,
    BlockAtNext,
    DepthBefore,
    ScriptAtInstruction,
    UsageAtInstruction,
    HeightWraps,
    BitsAbove,
    AreaDecides,
    // in what is left behind
    AreaNotZeroed,
    RefusedAreaZeroed,
    UnitChanged,
    BesideArea,
}

const AROUND: &[(&str, Around)] = &[
    ("the passes judge the first block and wave the rest by", Around::FirstBlockOnly),
    ("blocks are judged in the order of their first instruction", Around::BlocksSorted),
    ("the stack is cleared between blocks", Around::StackCleared),
    ("both asks types first", Around::TypesFirst),
    ("one byte of the area is not used", Around::AreaLessOne),
    ("a later return's 11 comes before an earlier one's 12", Around::LaterReturnFirst),
    ("a unit of 32,768 bytes is TOO_LONG", Around::LongestUnitRefused),
    ("an area of 65,535 bytes is AREA", Around::LongestAreaRefused),
    ("SHORT is placed at the last byte", Around::ShortAtLastByte),
    ("BLOCK is placed at the record after the bad one", Around::BlockAtNext),
    ("DEPTH is placed at level 32", Around::DepthBefore),
    ("16 of the type pass is placed at an instruction", Around::ScriptAtInstruction),
    ("11 of stack usage is placed at an instruction", Around::UsageAtInstruction),
    ("HEIGHT is not refused", Around::HeightWraps),
    ("the answer has bits above its place", Around::BitsAbove),
    ("what the area held decides", Around::AreaDecides),
    ("the last byte of the area is not zeroed", Around::AreaNotZeroed),
    ("an area that is too long is zeroed", Around::RefusedAreaZeroed),
    ("a byte of the unit is changed", Around::UnitChanged),
    ("the byte before the area is zeroed", Around::BesideArea),
];

impl Faulty {
    fn pass(number: usize) -> Faulty {
        Faulty { pass: number, around: None }
    }

    fn around(fault: Around) -> Faulty {
        Faulty { pass: usize::MAX, around: Some(fault) }
    }

    fn has(&self, fault: Around) -> bool {
        self.around == Some(fault)
    }

    /// The verdict of a call, with the fault where it is one of the passes, of the reader or of asking.
    fn verdict(&self, call: Call, case: &Case) -> Verdict {
        let mut unit = match oracle::read(case, read::read) {
            Ok(unit) => unit,
            Err(refusal) => return refusal,
        };
        if self.has(Around::FirstBlockOnly) {
            unit.blocks.truncate(1);
        }
        if self.has(Around::BlocksSorted) {
            unit.blocks.sort_by_key(|block| block.first);
        }
        let usage = Loaded::new(&unit).stack_usage();
        let types = self.types(&unit, case.area);
        if self.has(Around::TypesFirst) && call == Call::Both && !types.accepts() {
            return types;
        }
        oracle::four(usage, types)[call as usize]
    }

    fn types(&self, unit: &Unit, area: usize) -> Verdict {
        if self.has(Around::StackCleared) {
            let alone =
                |block| Loaded::new(&Unit { blocks: vec![block], ..unit.clone() }).types(area).verdict;
            let refused = unit.blocks.iter().map(|&block| alone(block)).find(|verdict| !verdict.accepts());
            return refused.unwrap_or(Verdict::ACCEPTED);
        }
        let area = if self.has(Around::AreaLessOne) { area.saturating_sub(1) } else { area };
        let loaded = Loaded::new(unit);
        let verdict = loaded.types(area).verdict;
        if self.has(Around::LaterReturnFirst) && verdict.number == NO_ROOM {
            let with_room = loaded.types(LONGEST_AREA).verdict;
            if with_room.position == verdict.position {
                return with_room;
            }
        }
        verdict
    }

    /// The verdict with the fault where it is one of the answer.
    fn answered(&self, call: Call, case: &Case, verdict: Verdict) -> Verdict {
        let Some(around) = self.around else { return verdict };
        let place = usize::from(verdict.place());
        match (around, verdict.number) {
            (Around::LongestUnitRefused, _) if case.unit.len() == LONGEST_UNIT => {
                Verdict::at_byte(TOO_LONG, 0)
            }
            (Around::LongestAreaRefused, _) if case.area == LONGEST_AREA => Verdict::at_byte(AREA, 0),
            (Around::ShortAtLastByte, SHORT) => Verdict::at_byte(SHORT, place.saturating_sub(1)),
            (Around::BlockAtNext, BLOCK) => Verdict::at_byte(BLOCK, place + 5),
            (Around::DepthBefore, DEPTH) => Verdict::at_byte(DEPTH, place - 1),
            (Around::ScriptAtInstruction, 16) if call == Call::Types => {
                Verdict { position: Position::Instruction(0), ..verdict }
            }
            (Around::UsageAtInstruction, OUT_OF_TABLE) if call == Call::StackUsage => {
                Verdict { position: Position::Instruction(verdict.place()), ..verdict }
            }
            (Around::HeightWraps, HEIGHT) => Verdict { number: 15, ..verdict },
            _ => verdict,
        }
    }
}

impl Subject for Faulty {
    fn judge(&mut self, call: Call, unit: &mut [u8], area: &mut [u8]) -> u64 {
        let case = Case { unit: unit.to_vec(), area: area.len() };
        let mut verdict = self.answered(call, &case, self.verdict(call, &case));
        if self.has(Around::AreaDecides) && area.len() > 600 && area[600] == 7 {
            verdict = Verdict::ACCEPTED;
        }
        if verdict.number != AREA || self.has(Around::RefusedAreaZeroed) {
            let end = area.len() - usize::from(self.has(Around::AreaNotZeroed) && !area.is_empty());
            area[..end].fill(0);
        }
        if self.has(Around::UnitChanged) {
            unit.iter_mut().take(1).for_each(|byte| *byte ^= 1);
        }
        if self.has(Around::BesideArea) {
            // SAFETY: the checker keeps guards around the area; this writes to one.
            unsafe { *area.as_mut_ptr().sub(1) = 0 };
        }
        verdict.packed() | u64::from(self.has(Around::BitsAbove)) << 40
    }
}
