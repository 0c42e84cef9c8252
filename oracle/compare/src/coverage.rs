//! What a run met: how often each number was given by each call, and by each opcode in each pass.
use crate::case::Call;
use crate::oracle::{Answers, Passes};
use crate::possible;
use unit::verdict::NAMES;
use unit::{Instruction, Opcode};

const NUMBERS: usize = NAMES.len();
const OPCODES: usize = Opcode::ALL.len();

pub struct Coverage {
    /// By call and number.
    calls: [[u64; NUMBERS]; 4],
    /// By opcode and number; 0 is an instruction that was walked.
    usage: [[u64; NUMBERS]; OPCODES],
    types: [[u64; NUMBERS]; OPCODES],
}

impl Default for Coverage {
    fn default() -> Self {
        Coverage { calls: [[0; NUMBERS]; 4], usage: [[0; NUMBERS]; OPCODES], types: [[0; NUMBERS]; OPCODES] }
    }
}

/// An opcode that gave a number in a pass.
#[derive(Clone, Copy, PartialEq, Eq, Debug)]
pub struct Pair {
    pub call: Call,
    pub opcode: Opcode,
    pub number: u8,
}

impl Coverage {
    pub fn note_numbers(&mut self, answers: &Answers) {
        for call in Call::ALL {
            let number = answers.to(call).number;
            assert!(can_give(call, number), "{call:?} gives {number}: can_give or the walk is wrong");
            self.calls[call as usize][usize::from(number)] += 1;
        }
    }

    pub fn note_pairs(&mut self, passes: &Passes) {
        for Pair { call, opcode, number } in refused_pairs(passes) {
            self.of_pass(call)[opcode as usize][usize::from(number)] += 1;
        }
        for instruction in walked(passes).take(passes.types.steps) {
            self.types[instruction.opcode as usize][0] += 1;
        }
        if passes.usage.accepts() {
            for instruction in walked(passes) {
                self.usage[instruction.opcode as usize][0] += 1;
            }
        }
    }

    fn of_pass(&mut self, call: Call) -> &mut [[u64; NUMBERS]; OPCODES] {
        match call {
            Call::StackUsage => &mut self.usage,
            _ => &mut self.types,
        }
    }

    /// Numbers by call. A dash is a number that the call can't give.
    pub fn print_numbers(&self) {
        println!("{:>3} {:>10} {:>10} {:>10} {:>10}  name", "no", "read", "usage", "types", "both");
        for (number, name) in NAMES.iter().enumerate() {
            let count = |call: Call| match self.calls[call as usize][number] {
                0 if !can_give(call, number as u8) => "-".to_string(),
                count => count.to_string(),
            };
            let [read, usage, types, both] = Call::ALL.map(count);
            println!("{number:>3} {read:>10} {usage:>10} {types:>10} {both:>10}  {name}");
        }
    }

    /// Whether every number was met in every call that can give it.
    pub fn met_every_number(&self) -> bool {
        let met = |call: Call, number: usize| {
            self.calls[call as usize][number] > 0 || !can_give(call, number as u8)
        };
        Call::ALL.into_iter().all(|call| (0..NUMBERS).all(|number| met(call, number)))
    }

    /// Numbers by opcode and pass, and which of the possible pairs were not met.
    pub fn print_pairs(&self) {
        println!("opcode, then number:count in the type pass | in stack usage");
        let mut missing = vec![];
        for &opcode in Opcode::ALL {
            let types = row(&self.types[opcode as usize], possible::of_types(opcode));
            let usage = row(&self.usage[opcode as usize], possible::of_stack_usage(opcode));
            println!("{:>22}  {} | {}", format!("{opcode:?}"), types.text, usage.text);
            missing.extend(types.missing.iter().map(|number| format!("{opcode:?} {number} (types)")));
            missing.extend(usage.missing.iter().map(|number| format!("{opcode:?} {number} (stack usage)")));
        }
        let possible =
            |&opcode| possible::of_types(opcode).len() + possible::of_stack_usage(opcode).len() + 2;
        let total: usize = Opcode::ALL.iter().map(possible).sum();
        println!("pairs met: {} of {total} that can be", total - missing.len());
        if !missing.is_empty() {
            println!("not met: {}", missing.join(", "));
        }
    }
}

/// A line of the table of pairs.
struct Row {
    text: String,
    missing: Vec<u8>,
}

fn row(counts: &[u64; NUMBERS], possible: &[u8]) -> Row {
    let met = |number: &u8| counts[usize::from(*number)] > 0;
    let due = |number: &u8| *number == 0 || possible.contains(number);
    let all: Vec<u8> = (0..NUMBERS as u8).collect();
    if let Some(number) = all.iter().find(|number| met(number) && !due(number)) {
        panic!("number {number} was met at an opcode that is held not to give it: possible.rs or the walk is wrong");
    }
    let shown = all.iter().filter(|number| met(number));
    Row {
        text: shown
            .map(|&number| format!("{number}:{}", counts[usize::from(number)]))
            .collect::<Vec<_>>()
            .join(" "),
        missing: all.iter().copied().filter(|number| due(number) && !met(number)).collect(),
    }
}

/// The opcodes at which the passes refused.
pub fn refused_pairs(passes: &Passes) -> Vec<Pair> {
    let mut pairs = vec![];
    if let Some(offset) = passes.loaded.stack_usage_culprit(passes.usage) {
        let opcode = passes.unit.code[usize::from(offset)].opcode;
        pairs.push(Pair { call: Call::StackUsage, opcode, number: passes.usage.number });
    }
    if !passes.types.verdict.accepts() {
        let refused = walked(passes).nth(passes.types.steps).expect("a refusal has its instruction");
        pairs.push(Pair { call: Call::Types, opcode: refused.opcode, number: passes.types.verdict.number });
    }
    pairs
}

/// The instructions of the listed blocks, in the order of the walk.
fn walked(passes: &Passes) -> impl Iterator<Item = &Instruction> {
    let code = &passes.unit.code;
    passes.unit.blocks.iter().flat_map(move |block| &code[usize::from(block.first)..=usize::from(block.last)])
}

/// The numbers that document 01 lets a call give. A unit that stack usage accepts is never EMPTY_STACK, so `both` is
/// not either.
pub fn can_give(call: Call, number: u8) -> bool {
    match call {
        Call::Read => number <= 9,
        Call::StackUsage => number <= 9 || matches!(number, 11 | 13..=16),
        Call::Types => !matches!(number, 13..=15),
        Call::Both => number != 10,
    }
}
