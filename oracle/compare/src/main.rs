//! The command line: see `usage`.
use compare::case::{Call, Case};
use compare::run::{self, Source};
use compare::{faults, generate, oracle, record};
use std::path::Path;
use std::process::ExitCode;

fn usage() -> ExitCode {
    eprintln!(
        "compare N SEED [--coverage]          the port against the Rust on N generated units, to the first difference
compare sweep [--coverage]           the same on every opcode over small stacks of every kind of type
compare survey N SEED | survey sweep the Rust alone: what the cases meet
compare record N SEED FOLDER         a sample of N of the Rust's answers, for replay
compare faults N SEED                how many of the faults, put in one at a time, are noticed within N units
compare show SEED NUMBER             one generated case: the unit, its tables and the four verdicts
compare judge AREA HEX               the four verdicts of the Rust on a unit
compare bench [MILLISECONDS]         the time of the port and of the Rust, by families of units, each measured so long (300)"
    );
    ExitCode::from(2)
}

fn main() -> ExitCode {
    let words: Vec<String> = std::env::args().skip(1).collect();
    let words: Vec<&str> = words.iter().map(String::as_str).collect();
    command(&words).unwrap_or_else(usage)
}

/// Runs the command; none where the words are not one.
fn command(words: &[&str]) -> Option<ExitCode> {
    let (words, with_pairs) = match words {
        [words @ .., "--coverage"] => (words, true),
        words => (words, false),
    };
    Some(match words {
        ["sweep"] => compare_port(Source::Sweep, with_pairs),
        ["survey", "sweep"] => exit(run::survey(Source::Sweep)),
        ["survey", count, seed] => exit(run::survey(generated(count, seed)?)),
        ["record", count, seed, folder] => record(count.parse().ok()?, seed.parse().ok()?, folder),
        ["faults", count, seed] => {
            let (found, total) = faults::run(count.parse().ok()?, seed.parse().ok()?);
            exit(found == total)
        }
        ["show", seed, number] => show(&generate::case(seed.parse().ok()?, number.parse().ok()?)),
        ["judge", area, hex] => show(&Case { unit: bytes_of(hex)?, area: area.parse().ok()? }),
        ["bench", rest @ ..] => compare::bench::command(rest)?,
        [count, seed] => compare_port(generated(count, seed)?, with_pairs),
        _ => return None,
    })
}

fn generated(count: &str, seed: &str) -> Option<Source> {
    Some(Source::Generated { count: count.parse().ok()?, seed: seed.parse().ok()? })
}

fn exit(well: bool) -> ExitCode {
    if well {
        ExitCode::SUCCESS
    } else {
        ExitCode::FAILURE
    }
}

#[cfg(port)]
fn compare_port(source: Source, with_pairs: bool) -> ExitCode {
    exit(run::compare(source, &mut compare::subject::Port, with_pairs))
}

#[cfg(not(port))]
fn compare_port(_: Source, _: bool) -> ExitCode {
    eprintln!("no port was linked: libwavgrut.a is not in the folder WAVGRUT_LIB");
    ExitCode::from(2)
}

fn record(count: usize, seed: u64, folder: &str) -> ExitCode {
    match record::record(count, seed, Path::new(folder)) {
        Ok(()) => ExitCode::SUCCESS,
        Err(error) => {
            eprintln!("{folder}: {error}");
            ExitCode::FAILURE
        }
    }
}

fn show(case: &Case) -> ExitCode {
    println!("unit {}\narea {}", case.hex(), case.area);
    let answers = oracle::answers(case);
    if let Some(passes) = &answers.passes {
        println!("{:#?}", passes.unit);
    }
    for call in Call::ALL {
        println!("{call:?}: {}", answers.to(call));
    }
    ExitCode::SUCCESS
}

fn bytes_of(hex: &str) -> Option<Vec<u8>> {
    let digits = |at| hex.get(at..at + 2).and_then(|two| u8::from_str_radix(two, 16).ok());
    (0..hex.len()).step_by(2).map(digits).collect()
}
