//! Document 01's table: every row's example gets its verdict, and the verdicts of the other calls are what they imply.
use compare::case::{Call, Case};
use compare::oracle::answers;
use compare::rows::{rows, LISTING};
use unit::{Position, Verdict};

#[test]
fn every_row_gets_its_verdict() {
    for (number, row) in rows().into_iter().enumerate() {
        assert_eq!(usize::from(row.due.number), number, "the rows stand in order");
        assert_eq!(answers(&row.case).to(row.call), row.due, "row {number}");
    }
    assert_eq!(rows().len(), 47);
}

#[test]
fn reading_refuses_alike_in_every_call() {
    for row in rows().into_iter().filter(|row| matches!(row.due.number, 1..=9)) {
        for call in Call::ALL {
            assert_eq!(answers(&row.case).to(call), row.due, "{call:?}, row {}", row.due.number);
        }
    }
}

#[test]
fn both_asks_stack_usage_first() {
    for row in rows().into_iter().filter(|row| matches!(row.due.number, 13..=15)) {
        assert_eq!(answers(&row.case).to(Call::Both), row.due, "row {}", row.due.number);
    }
}

#[test]
fn the_listing_needs_an_area_of_three() {
    let with_area = |area| answers(&Case { unit: LISTING.to_vec(), area });
    let no_room = Verdict { number: 12, position: Position::Instruction(0) };
    assert_eq!(with_area(2).to(Call::Types), no_room);
    assert_eq!(with_area(2).to(Call::StackUsage), Verdict::ACCEPTED);
    for area in [3, 65_535] {
        assert_eq!(with_area(area).to(Call::Both), Verdict::ACCEPTED);
    }
}
