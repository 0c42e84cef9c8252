//! Records a sample of the Rust's answers for a program that replays them with no Rust at hand.
//!
//! Two files beside each other, a case to a case and to a line:
//! - `stdin`: a byte for the call (0 read, 1 stack usage, 2 types, 3 both), the area's length and the unit's length as
//!   u32, little-endian, and the unit;
//! - `stdout`: number, letter and place, as document 01 prints them.
use crate::case::{Call, Case};
use crate::coverage::{refused_pairs, Pair};
use crate::generate;
use crate::oracle::{self, Answers};
use crate::possible;
use crate::rows;
use std::collections::HashMap;
use std::path::Path;
use std::{fs, io};
use unit::Verdict;

/// How many units are generated in each round of gathering.
const UNITS_IN_A_ROUND: u64 = 200_000;
/// What the replaying program has room for.
const LONGEST_STDIN: usize = 262_144;
/// Units up to this length are recorded where they show what is wanted, so that many fit.
const SHORT: usize = 90;
/// Units up to this length are recorded where no short one shows it, longer ones only as rows of document 01's table.
const LONGEST_RECORDED: usize = 250;

/// What a recorded case shows: a call gives a number, or an opcode gives one in a pass, in a module or in a script.
#[derive(PartialEq, Eq, Hash)]
enum Kind {
    Number(u8, u8),
    Refusal(u8, u8, u8, bool),
}

/// The sample, while it is gathered.
#[derive(Default)]
struct Sample {
    stdin: Vec<u8>,
    stdout: String,
    count: usize,
    kinds: HashMap<Kind, usize>,
}

/// Writes a sample of `count` cases, or a few more, to the folder: the rows of document 01's table, then generated units, in rounds
/// that keep one case of each kind, then two, then four and so on, until there are enough. What no short unit shows is
/// looked for among longer ones after the first round.
pub fn record(count: usize, seed: u64, folder: &Path) -> io::Result<()> {
    let mut sample = Sample::default();
    for row in rows::rows() {
        let answers = oracle::answers(&row.case);
        sample.add(row.call, &row.case, answers.to(row.call));
    }
    sample.gather(seed, 1, SHORT, count);
    sample.gather(seed, 1, LONGEST_RECORDED, count);
    let mut of_each_kind = 2;
    while sample.count < count {
        sample.gather(seed + of_each_kind as u64, of_each_kind, SHORT, count);
        of_each_kind *= 2;
    }
    if sample.stdin.len() > LONGEST_STDIN {
        let problem =
            format!("{} bytes, and the replaying program reads {LONGEST_STDIN}", sample.stdin.len());
        return Err(io::Error::new(io::ErrorKind::InvalidInput, problem));
    }
    fs::create_dir_all(folder)?;
    fs::write(folder.join("stdin"), &sample.stdin)?;
    fs::write(folder.join("stdout"), &sample.stdout)?;
    println!("{} cases of {} kinds, {} bytes", sample.count, sample.kinds.len(), sample.stdin.len());
    println!("opcodes without a refusal that they can give: {:?}", sample.missing());
    Ok(())
}

impl Sample {
    /// A round: cases of kinds of which there are fewer than `of_each_kind`, in units of up to `longest` bytes, until
    /// there are `count` in all.
    fn gather(&mut self, seed: u64, of_each_kind: usize, longest: usize, count: usize) {
        for number in 0..UNITS_IN_A_ROUND {
            if self.count >= count {
                return;
            }
            let case = generate::case(seed, number);
            if case.unit.len() <= longest {
                self.consider(&case, &oracle::answers(&case), of_each_kind);
            }
        }
    }

    /// Adds those calls of the case that show something wanted.
    fn consider(&mut self, case: &Case, answers: &Answers, of_each_kind: usize) {
        let pairs = answers.passes.as_ref().map_or(vec![], refused_pairs);
        for call in Call::ALL {
            let verdict = answers.to(call);
            let mut kinds = vec![Kind::Number(call as u8, verdict.number)];
            let of_call = |pair: &&Pair| pair.call == call;
            kinds.extend(pairs.iter().filter(of_call).map(|pair| kind_of(pair, case.unit[0] == 0x02)));
            if kinds.iter().any(|kind| self.kinds.get(kind).copied().unwrap_or(0) < of_each_kind) {
                kinds.into_iter().for_each(|kind| *self.kinds.entry(kind).or_default() += 1);
                self.add(call, case, verdict);
            }
        }
    }

    /// What no recorded case shows, of what an opcode can give in a module or in a script.
    fn missing(&self) -> Vec<Pair> {
        let recorded =
            |pair: &Pair| [false, true].iter().any(|&script| self.kinds.contains_key(&kind_of(pair, script)));
        possible::pairs().into_iter().filter(|pair| !recorded(pair)).collect()
    }

    fn add(&mut self, call: Call, case: &Case, verdict: Verdict) {
        self.stdin.push(call as u8);
        self.stdin.extend((case.area as u32).to_le_bytes());
        self.stdin.extend((case.unit.len() as u32).to_le_bytes());
        self.stdin.extend(&case.unit);
        self.stdout += &format!("{verdict}\n");
        self.count += 1;
    }
}

fn kind_of(pair: &Pair, is_script: bool) -> Kind {
    Kind::Refusal(pair.call as u8, pair.opcode as u8, pair.number, is_script)
}
