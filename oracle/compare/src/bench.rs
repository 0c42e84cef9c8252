//! The benchmark: the port and the Rust in one process, on the same units, which both accept.
//!
//! Four things are timed. The port's `both` and `read` are whole calls: the area's zeroing is in them, and the reading.
//! The Rust's passes alone walk the listed blocks of structures and views that were made before, with no panic caught
//! and no stack weighed. The Rust with reading makes those structures and views from the unit's bytes each time, by
//! the reader of `unit`.
#[cfg(port)]
mod families;
#[cfg(port)]
mod generated;
#[cfg(port)]
mod timing;
#[cfg(port)]
mod used;

use std::process::ExitCode;
use std::time::Duration;

/// What a measurement takes, if nothing else is asked for, in milliseconds.
const USUAL_MILLISECONDS: u64 = 300;

/// Runs `bench [MILLISECONDS]`; none where the words are not that.
pub fn command(words: &[&str]) -> Option<ExitCode> {
    let milliseconds = match words {
        [] => USUAL_MILLISECONDS,
        [milliseconds] => milliseconds.parse().ok()?,
        _ => return None,
    };
    Some(run(Duration::from_millis(milliseconds)))
}

#[cfg(not(port))]
fn run(_: Duration) -> ExitCode {
    eprintln!("no port was linked: libwavgrut.a is not in the folder WAVGRUT_LIB");
    ExitCode::from(2)
}

#[cfg(port)]
fn run(measurement: Duration) -> ExitCode {
    linked::run(measurement)
}

#[cfg(port)]
mod linked {
    use super::families::{families, Family};
    use super::timing::best;
    use crate::case::{Call, Case};
    use crate::oracle;
    use crate::subject::{Port, Subject};
    use move_rust::{Loaded, Viewed};
    use std::hint::black_box;
    use std::process::ExitCode;
    use std::time::Duration;
    use unit::Verdict;

    /// The sums over the units of a family.
    struct Sizes {
        units: usize,
        bytes: usize,
        instructions: usize,
        /// The instructions that a pass walks: those of all listed blocks.
        walked: usize,
    }

    /// Times every family and prints a row for each. A unit that is not accepted by both ends the run.
    pub fn run(measurement: Duration) -> ExitCode {
        print_head();
        for family in families() {
            match sizes(&family) {
                Ok(sizes) => print_row(family.name, &sizes, time(&family.cases, measurement)),
                Err(problem) => {
                    println!("{}: {problem}", family.name);
                    return ExitCode::FAILURE;
                }
            }
        }
        ExitCode::SUCCESS
    }

    // ── the units ──

    /// Checks every unit of the family and counts what it has.
    fn sizes(family: &Family) -> Result<Sizes, String> {
        let mut sizes = Sizes { units: family.cases.len(), bytes: 0, instructions: 0, walked: 0 };
        for case in &family.cases {
            let answers = oracle::answers(case);
            for call in Call::ALL {
                check_call(case, call, answers.to(call))?;
            }
            let passes = answers.passes.expect("a unit that is accepted was read");
            if !passes.loaded.viewed().accepts() {
                return Err("the walks that are timed do not accept the unit".into());
            }
            sizes.bytes += case.unit.len();
            sizes.instructions += passes.unit.code.len();
            sizes.walked += passes.types.steps;
        }
        Ok(sizes)
    }

    /// The Rust and the port must accept alike.
    fn check_call(case: &Case, call: Call, due: Verdict) -> Result<(), String> {
        let answer = Port.judge(call, &mut case.unit.clone(), &mut vec![0xFF; case.area]);
        if due.accepts() && answer == due.packed() {
            return Ok(());
        }
        Err(format!(
            "{call:?}: the Rust says {due}, the port {answer:#x}\narea {}\nunit {}",
            case.area,
            case.hex()
        ))
    }

    // ── timing ──

    /// Nanoseconds for all units of a family once: the port's both, its read, the Rust's passes alone, the Rust with
    /// reading.
    fn time(cases: &[Case], measurement: Duration) -> [f64; 4] {
        let loaded: Vec<Loaded> = cases.iter().map(load).collect();
        let viewed: Vec<Viewed> = loaded.iter().map(Loaded::viewed).collect();
        let area = cases.iter().map(|case| case.area).max().unwrap_or(0);
        let (mut for_both, mut for_read) = (vec![0; area], vec![0; area]);
        let mut units: Vec<Case> = cases.to_vec();
        let mut units_again = units.clone();
        best(
            [
                &mut || ask_port(Call::Both, &mut units, &mut for_both),
                &mut || ask_port(Call::Read, &mut units_again, &mut for_read),
                &mut || viewed.iter().for_each(|each| assert!(black_box(each).accepts())),
                &mut || cases.iter().for_each(|case| assert!(load(black_box(case)).viewed().accepts())),
            ],
            measurement,
        )
    }

    fn load(case: &Case) -> Loaded {
        Loaded::new(&unit::read(&case.unit).expect("the unit was checked"))
    }

    fn ask_port(call: Call, units: &mut [Case], area: &mut [u8]) {
        for case in units {
            let answer = Port.judge(call, &mut case.unit, &mut area[..case.area]);
            assert_eq!(answer, Verdict::ACCEPTED.packed());
        }
    }

    // ── the table ──

    fn print_head() {
        println!(
            "Nanoseconds per unit, and in brackets per instruction walked; sizes are means over the units.\n"
        );
        println!(
            "| Family | Units | Bytes | Instructions | Walked | Port both | Port read | Rust passes alone \
             | Rust with reading | Rust passes alone / port both | Rust with reading / port both |"
        );
        println!("|---|{}", "---:|".repeat(10));
    }

    fn print_row(name: &str, sizes: &Sizes, times: [f64; 4]) {
        let units = sizes.units as f64;
        let mean = |sum: usize| format!("{:.0}", sum as f64 / units);
        let walked = sizes.walked.max(1) as f64;
        let cells = times.map(|sum| format!("{:.0} ({:.1})", sum / units, sum / walked));
        println!(
            "| {name} | {units} | {} | {} | {} | {} | {:.2} | {:.2} |",
            mean(sizes.bytes),
            mean(sizes.instructions),
            mean(sizes.walked),
            cells.join(" | "),
            times[2] / times[0],
            times[3] / times[0]
        );
    }
}
