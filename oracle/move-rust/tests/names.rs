//! Opcodes and statuses have the numbers and names that document 01 and the repository's files give them.
use std::fs;
use unit::verdict::NAMES;
use unit::Opcode;

/// The lines of an enum's body.
fn body<'a>(text: &'a str, opening: &str) -> impl Iterator<Item = &'a str> {
    let start = text.find(opening).unwrap_or_else(|| panic!("no {}", opening)) + opening.len();
    text[start..].lines().take_while(|line| *line != "}").map(str::trim).filter(|line| !line.is_empty())
}

#[test]
fn opcodes_are_numbered_in_the_order_of_bytecode() {
    let file = concat!(env!("MOVE_SRC_FOUND"), "/language/move-binary-format/src/file_format.rs");
    let text = fs::read_to_string(file).unwrap();
    let is_variant = |line: &&str| line.starts_with(|c: char| c.is_ascii_uppercase());
    let name = |line: &str| line.split(|c: char| !c.is_alphanumeric()).next().unwrap().to_string();
    let variants: Vec<String> = body(&text, "pub enum Bytecode {").filter(is_variant).map(name).collect();
    let opcodes: Vec<String> = Opcode::ALL.iter().map(|opcode| format!("{:?}", opcode)).collect();
    assert_eq!(opcodes, variants);
    assert_eq!(Opcode::ALL.len(), 71);
}

#[test]
fn statuses_have_document_01s_numbers() {
    let mut numbers = vec![];
    for line in body(include_str!("../src/stand_ins/vm_status.rs"), "pub enum StatusCode {") {
        let (name, number) = line.trim_end_matches(',').split_once(" = ").unwrap();
        let number: usize = number.parse().unwrap();
        if number < 200 {
            assert_eq!(NAMES[number], name);
            numbers.push(number);
        }
    }
    assert_eq!(numbers, (14..=46).collect::<Vec<_>>());
}
