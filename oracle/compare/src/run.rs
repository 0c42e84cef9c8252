//! The runs: over the generator's cases or the sweep's, with a subject or with the Rust alone.
use crate::case::{Call, Case};
use crate::check::Checker;
use crate::coverage::Coverage;
use crate::oracle::{self, Passes};
use crate::subject::Subject;
use crate::{generate, sweep};
use std::ops::ControlFlow;
use std::time::Instant;
use unit::LONGEST_AREA;

/// Where cases come from.
#[derive(Clone, Copy)]
pub enum Source {
    Generated { count: u64, seed: u64 },
    Sweep,
}

/// Visits the cases in order, each with its number, until `visit` breaks.
pub fn for_each_case(source: Source, mut visit: impl FnMut(u64, Case) -> ControlFlow<()>) {
    // How it ended is known to `visit`.
    let _ = match source {
        Source::Generated { count, seed } => {
            (0..count).try_for_each(|number| visit(number, generate::case(seed, number)))
        }
        Source::Sweep => {
            let mut numbers = 0..;
            sweep::for_each_case(|case| visit(numbers.next().expect("endless"), case))
        }
    };
}

/// Compares a subject with the Rust, case by case; false at the first difference, which is printed with its unit.
pub fn compare(source: Source, subject: &mut dyn Subject, with_pairs: bool) -> bool {
    let started = Instant::now();
    let mut checker = Checker::new(0);
    let mut coverage = Coverage::default();
    let (mut compared, mut same) = (0u64, true);
    for_each_case(source, |number, case| {
        let answers = oracle::answers(&case);
        if let Err(difference) = checker.check(number, &case, &answers, subject) {
            println!("case {number}, {difference}\narea {}\nunit {}", case.area, case.hex());
            same = false;
            return ControlFlow::Break(());
        }
        coverage.note_numbers(&answers);
        if let (true, Some(passes)) = (with_pairs, &answers.passes) {
            coverage.note_pairs(passes);
        }
        compared += 1;
        if compared % 1_000_000 == 0 {
            eprintln!("{compared} units, {:.0} s", started.elapsed().as_secs_f64());
        }
        ControlFlow::Continue(())
    });
    if same {
        print_coverage(&coverage, with_pairs);
        println!("{compared} units compared in {:.1} s, no difference", started.elapsed().as_secs_f64());
    }
    same
}

/// The Rust alone: what the cases meet, and whether the walks agree with the repository's own passes on the units that
/// list exactly the blocks of their control flow graph.
pub fn survey(source: Source) -> bool {
    let started = Instant::now();
    let mut coverage = Coverage::default();
    let mut totals = Totals::default();
    for_each_case(source, |number, case| {
        let answers = oracle::answers(&case);
        coverage.note_numbers(&answers);
        totals.units += 1;
        totals.bytes += case.unit.len() as u64;
        if let Some(passes) = &answers.passes {
            coverage.note_pairs(passes);
            totals.steps += passes.types.steps as u64;
            totals.deep += u64::from(answers.to(Call::Both).accepts() && passes.types.steps >= 20);
            if !agrees_with_whole(passes, &mut totals) {
                println!("case {number}: a walk differs from the repository's own pass\nunit {}", case.hex());
                return ControlFlow::Break(());
            }
        }
        ControlFlow::Continue(())
    });
    print_coverage(&coverage, true);
    totals.print(started.elapsed().as_secs_f64());
    totals.differing == 0
}

#[derive(Default)]
struct Totals {
    units: u64,
    bytes: u64,
    steps: u64,
    /// Units that both passes accept after 20 instructions or more.
    deep: u64,
    /// Units on which the walks were held to the repository's own passes.
    held: u64,
    differing: u64,
}

impl Totals {
    fn print(&self, seconds: f64) {
        let mean = |sum: u64| sum as f64 / self.units.max(1) as f64;
        println!(
            "{} units in {seconds:.1} s, {:.0} bytes and {:.1} accepted instructions each",
            self.units,
            mean(self.bytes),
            mean(self.steps)
        );
        println!("{} units of 20 instructions or more are accepted by both passes", self.deep);
        println!(
            "{} units list the blocks of their control flow graph; on {} of them a walk differs from the whole pass",
            self.held, self.differing
        );
    }
}

/// The whole passes have no area, so the walk is asked with the longest.
fn agrees_with_whole(passes: &Passes, totals: &mut Totals) -> bool {
    let Some((usage, types)) = move_rust::verify_whole(&passes.unit) else { return true };
    let walked = passes.loaded.types(LONGEST_AREA).verdict;
    let no_room = walked.number == unit::verdict::number::NO_ROOM;
    let agrees = usage.agrees(passes.usage) && (no_room || types.agrees(walked));
    totals.held += 1;
    totals.differing += u64::from(!agrees);
    agrees
}

fn print_coverage(coverage: &Coverage, with_pairs: bool) {
    coverage.print_numbers();
    if with_pairs {
        coverage.print_pairs();
    }
    let every = if coverage.met_every_number() { "every number was" } else { "not every number was" };
    println!("{every} met in every call that can give it");
}
