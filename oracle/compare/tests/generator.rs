//! The generator: the same seed and number give the same case, what is written is read back, and the walks agree with
//! the repository's own passes.
use compare::case::Call;
use compare::run::{survey, Source};
use compare::{generate, oracle, sweep};
use std::ops::ControlFlow;

#[test]
fn a_seed_and_a_number_give_one_case() {
    for number in 0..200 {
        assert_eq!(generate::case(7, number), generate::case(7, number));
    }
    assert_ne!(generate::case(7, 0).unit, generate::case(8, 0).unit);
}

#[test]
fn what_is_read_is_written_alike() {
    let mut read = 0;
    for number in 0..2_000 {
        let case = generate::case(3, number);
        if let Ok(unit) = unit::read(&case.unit) {
            assert_eq!(unit.write(), case.unit);
            read += 1;
        }
    }
    assert!(read > 1_000, "most generated units are read");
}

#[test]
fn every_unit_of_the_sweep_is_read() {
    let mut left = 20_000;
    let _ = sweep::for_each_case(|case| {
        assert!(oracle::answers(&case).to(Call::Read).accepts());
        left -= 1;
        if left > 0 {
            ControlFlow::Continue(())
        } else {
            ControlFlow::Break(())
        }
    });
}

#[test]
fn the_walks_agree_with_the_repositorys_own_passes() {
    assert!(survey(Source::Generated { count: 5_000, seed: 11 }));
}
