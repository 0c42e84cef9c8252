//! The cases that the port's own programs judge: the oracle gives the verdicts that stand there. They are in
//! crates/verdicts/cases and in crates/replay of the repository, whose folder `crates` is that beside the oracle's or
//! the one that WAVGRUT_CRATES names.
use compare::case::{Call, Case};
use compare::oracle::answers;
use std::path::PathBuf;
use std::{env, fs};

fn read(name: &str) -> Vec<u8> {
    let beside = || PathBuf::from(env!("CARGO_MANIFEST_DIR")).join("../../crates");
    let file = env::var_os("WAVGRUT_CRATES").map_or_else(beside, PathBuf::from).join(name);
    fs::read(&file).unwrap_or_else(|error| panic!("{}: {error}", file.display()))
}

fn read_text(name: &str) -> String {
    String::from_utf8(read(name)).unwrap()
}

/// `-` for no byte, `05*9` for nine times 05, and otherwise hexadecimal.
fn unit_of(text: &str) -> Vec<u8> {
    let digits = |two: &[u8]| u8::from_str_radix(std::str::from_utf8(two).unwrap(), 16).unwrap();
    match (text, text.split_once('*')) {
        ("-", _) => vec![],
        (_, Some((byte, times))) => vec![digits(byte.as_bytes()); times.parse().unwrap()],
        (hex, None) => hex.as_bytes().chunks(2).map(digits).collect(),
    }
}

/// The verdict on a case whose call is given by its number, as it is printed.
fn says(call: usize, area: usize, unit: Vec<u8>) -> String {
    answers(&Case { unit, area }).to(Call::ALL[call]).to_string()
}

#[test]
fn the_ports_cases_have_the_oracles_verdicts() {
    for line in read_text("verdicts/cases").lines() {
        let parts: Vec<&str> = line.split('|').map(str::trim).collect();
        let [call, area, unit, due, why] = parts[..] else { panic!("not a case: {line}") };
        assert_eq!(says(call.parse().unwrap(), area.parse().unwrap(), unit_of(unit)), due, "{why}");
    }
}

#[test]
fn the_recorded_sample_has_the_oracles_verdicts() {
    let (stdin, stdout) = (read("replay/stdin"), read_text("replay/stdout"));
    let number = |bytes: &[u8]| u32::from_le_bytes(bytes.try_into().unwrap()) as usize;
    let (mut rest, mut dues) = (&stdin[..], stdout.lines());
    while let [call, head @ ..] = rest {
        let (area, length) = (number(&head[..4]), number(&head[4..8]));
        let (unit, after) = head[8..].split_at(length);
        assert_eq!(Some(says(usize::from(*call), area, unit.to_vec()).as_str()), dues.next());
        rest = after;
    }
    assert_eq!(dues.next(), None);
}
