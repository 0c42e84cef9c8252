//! The readings of document 01 (docs/DECISIONS.md) about reading: which order it refuses in.
mod common;
use common::says_of_bytes;
use compare::case::Call;
use compare::rows::{LISTING, USUAL_AREA};

fn reads(unit: &[u8]) -> String {
    says_of_bytes(Call::Read, unit.to_vec(), USUAL_AREA)
}

/// A signature of one type from byte 3 on: so many vectors, and then these bytes.
fn vectors(count: usize, rest: &[u8]) -> Vec<u8> {
    [&[0x01, 0x11, 0x01], &vec![0x07; count][..], rest].concat()
}

/// The listing up to its block, and then these bytes, from byte 11 on.
fn after_function(rest: &[u8]) -> Vec<u8> {
    [&LISTING[..11], rest].concat()
}

#[test]
fn reading_1_order_and_ends() {
    assert_eq!(says_of_bytes(Call::Read, vec![0x05; 32_769], 65_536), "9 b 0");
    assert_eq!(reads(&[0x05; 32_769]), "1 b 0");
    assert_eq!(reads(&[0x05; 32_768]), "3 b 0");
    assert_eq!(reads(&[]), "2 b 0");
    assert_eq!(reads(&after_function(&[])), "2 b 11");
    assert_eq!(reads(&[&LISTING[..14], &[0x03], &LISTING[15..], &[0x00]].concat()), "8 b 22");
}

#[test]
fn reading_2_a_number_is_judged_when_it_is_whole() {
    assert_eq!(reads(&[0x01, 0x12, 0x00]), "2 b 3");
    assert_eq!(reads(&after_function(&[0x1A, 0x00])), "2 b 13");
    assert_eq!(reads(&after_function(&[0x1B, 0x01, 0x00, 0x06, 0, 0, 0])), "2 b 18");
    assert_eq!(reads(&after_function(&[0x1B, 0x01, 0x00, 0x07, 0, 0, 0, 0, 0, 0, 0, 0])), "2 b 23");
    assert_eq!(reads(&after_function(&[0x1B, 0x01, 0x00, 0x45, 0, 0, 0])), "2 b 18");
}

#[test]
fn reading_3_each_index_of_19_is_judged_at_once() {
    let after_signature = |rest: &[u8]| reads(&[&[0x01, 0x11, 0x00, 0x19], rest].concat());
    assert_eq!(after_signature(&[0xFF]), "2 b 5");
    assert_eq!(after_signature(&[0xFF, 0xFF]), "5 b 4");
    assert_eq!(after_signature(&[0, 0, 0]), "2 b 7");
    assert_eq!(after_signature(&[0, 0, 0, 1]), "5 b 6");
    assert_eq!(after_signature(&[0, 0, 0, 0, 1, 0]), "5 b 8");
    assert_eq!(after_signature(&[0, 0, 0, 0, 0, 0, 1, 0x10]), "5 b 11");
}

#[test]
fn reading_4_the_byte_of_level_33() {
    assert_eq!(reads(&vectors(32, &[])), "2 b 35");
    assert_eq!(reads(&vectors(32, &[0x01])), "6 b 35");
    assert_eq!(reads(&vectors(32, &[0xFF])), "6 b 35");
    assert_eq!(reads(&vectors(31, &[0x0D])), "3 b 34");
    assert_eq!(reads(&vectors(31, &[0x09, 0, 0])), "2 b 37");
    assert_eq!(reads(&vectors(31, &[0x09, 0, 0, 1])), "2 b 38");
    assert_eq!(reads(&vectors(31, &[0x09, 0, 0, 1, 0xFF])), "6 b 38");
    assert_eq!(reads(&vectors(31, &[0x09, 0, 0, 0])), "2 b 38");
}

#[test]
fn reading_5_anything_after_the_code_is_trailing() {
    for byte in [0x00, 0x1A, 0x1B, 0xFF] {
        assert_eq!(reads(&[&LISTING[..], &[byte, 0xFF]].concat()), "8 b 22");
    }
}

#[test]
fn reading_6_blocks_are_judged_last() {
    let bad_block_and_instruction = [&LISTING[..14], &[0x03], &LISTING[15..21], &[0x47]].concat();
    assert_eq!(reads(&bad_block_and_instruction), "3 b 21");
    assert_eq!(reads(&after_function(&[0x1A, 0, 0, 0, 0, 0x1B, 0, 0])), "7 b 11");
    let second = [0x1A, 0, 0, 0, 0, 0x1A, 1, 0, 0, 0, 0x1B, 2, 0, 0x01, 0x01];
    assert_eq!(reads(&after_function(&second)), "7 b 16");
}

#[test]
fn reading_7_no_other_index_is_judged() {
    let pairs: Vec<u8> =
        [0x12, 0x13, 0x15, 0x16, 0x17].iter().flat_map(|&c| [c, 0xFF, 0xFF, 0xFF, 0xFF]).collect();
    let function = [0x19, 0, 0, 0, 0, 0, 0, 0];
    let code = [0x1B, 1, 0, 0x11, 0xFF, 0xFF];
    assert_eq!(reads(&[&[0x01, 0x11, 0x00], &pairs[..], &function, &code].concat()), "0 n 0");
    assert_eq!(reads(&[&[0x01, 0x11, 0x01, 0x08, 0xFF, 0xFF], &function[..], &code].concat()), "0 n 0");
}

#[test]
fn reading_8_commands_of_a_script_and_order() {
    for command in 0x14..=0x17 {
        assert_eq!(reads(&[0x02, command]), "3 b 1");
        assert_eq!(reads(&[0x02, 0x18, 0x01, command]), "3 b 3");
        assert_eq!(reads(&[0x01, 0x18, 0x01, command]), "4 b 3");
    }
    assert_eq!(reads(&after_function(&[0x19])), "4 b 11");
    assert_eq!(reads(&after_function(&[0x1A, 0, 0, 0, 0, 0x19])), "4 b 16");
    assert_eq!(reads(&[0x01, 0x1A]), "4 b 1");
    assert_eq!(reads(&[0x01, 0x0F]), "3 b 1");
    assert_eq!(reads(&[0x01, 0x1C]), "3 b 1");
}

#[test]
fn reading_9_the_reading_call_gives_9() {
    assert_eq!(says_of_bytes(Call::Read, vec![], 65_536), "9 b 0");
    assert_eq!(says_of_bytes(Call::Read, LISTING.to_vec(), 65_535), "0 n 0");
}
