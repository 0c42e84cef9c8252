//! Bytes that are not written by the writer: damaged copies of good units, and garbage.
use crate::rng::Rng;

/// Damages a unit's bytes in one to three places.
pub fn damage(rng: &mut Rng, bytes: &mut Vec<u8>) {
    for _ in 0..rng.between(1, 3) {
        damage_once(rng, bytes);
    }
}

fn damage_once(rng: &mut Rng, bytes: &mut Vec<u8>) {
    if bytes.is_empty() {
        return bytes.push(rng.byte());
    }
    let at = rng.below(bytes.len());
    match rng.below(8) {
        0 => bytes[at] ^= 1 << rng.below(8),
        1 => bytes[at] = rng.byte(),
        2 => bytes[at] = any_command(rng),
        3 => drop(bytes.remove(at)),
        4 => bytes.insert(at, any_command(rng)),
        5 => bytes.truncate(at),
        6 => bytes.push(any_command(rng)),
        _ => repeat_part(rng, bytes, at),
    }
}

fn repeat_part(rng: &mut Rng, bytes: &mut Vec<u8>, at: usize) {
    let end = (at + rng.between(1, 12)).min(bytes.len());
    let part = bytes[at..end].to_vec();
    bytes.splice(at..at, part);
}

/// A byte that often means something: a small number, a record's command, or one past the edge of a range.
fn any_command(rng: &mut Rng) -> u8 {
    match rng.below(8) {
        0..=2 => rng.between(0x0F, 0x1C) as u8,
        3..=5 => rng.below(0x10) as u8,
        6 => *rng.pick(&[0x46, 0x47, 0x0D, 0xFF, 0x80]),
        _ => rng.byte(),
    }
}

/// Bytes that are no unit, or one by accident.
pub fn garbage(rng: &mut Rng) -> Vec<u8> {
    let mut bytes = vec![];
    match rng.below(4) {
        0 => fill(rng, &mut bytes, Rng::byte),
        1 => {
            bytes.push(rng.between(1, 2) as u8);
            fill(rng, &mut bytes, any_command);
        }
        _ => {
            bytes.push(rng.between(1, 2) as u8);
            (0..rng.below(8)).for_each(|_| any_record(rng, &mut bytes));
            let cut = rng.below(2) * rng.below(8);
            bytes.truncate(bytes.len().saturating_sub(cut));
        }
    }
    bytes
}

fn fill(rng: &mut Rng, bytes: &mut Vec<u8>, byte: fn(&mut Rng) -> u8) {
    let length = rng.below(48);
    bytes.extend((0..length).map(|_| byte(rng)));
}

/// A record's command and a few small numbers that may be its operands.
fn any_record(rng: &mut Rng, bytes: &mut Vec<u8>) {
    let command = rng.between(0x10, 0x1B) as u8;
    bytes.push(command);
    match command {
        0x10 => bytes.extend([rng.below(17) as u8, 1, rng.below(3) as u8]),
        0x11 => {
            bytes.push(1);
            any_type(rng, bytes);
        }
        0x14 => bytes.extend([0, 0, rng.below(3) as u8, 1, 1]),
        0x18 => any_type(rng, bytes),
        0x19 => bytes.extend([0, 0, rng.below(2) as u8, 0, 0, 0, 1, rng.below(17) as u8]),
        0x1B => {
            let count = rng.below(3) as u8;
            bytes.extend([count, 0]);
            bytes.extend((0..count).map(|_| rng.below(72) as u8));
        }
        _ => bytes.extend([rng.below(3) as u8, 0, rng.below(3) as u8, 0]),
    }
}

/// Vectors, references and instantiations around a leaf, to 34 levels at times.
fn any_type(rng: &mut Rng, bytes: &mut Vec<u8>) {
    let levels = if rng.once_in(4) { rng.between(29, 34) } else { rng.below(4) };
    for _ in 0..levels {
        match rng.below(8) {
            0 => bytes.extend([0x09, 0, 0, 1]),
            1 => bytes.push(0x0A),
            _ => bytes.push(0x07),
        }
    }
    bytes.push(rng.below(0x0E) as u8);
    bytes.extend([0, 0]);
}
