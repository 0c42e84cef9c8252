//! The comparison notices faults. Few units are enough for most; `compare faults 100000 1` looks for all of them.
use compare::faults;

#[test]
fn most_faults_are_noticed_within_five_hundred_units() {
    let (found, total) = faults::run(500, 1);
    assert!(found * 2 > total, "{found} of {total}");
}
