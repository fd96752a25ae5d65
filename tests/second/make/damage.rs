//! Damage: byte strings made wrong, or only different, in known ways.

use super::encode;
use super::rng::Rng;
use crate::records::*;

/// Every proper prefix, the empty one first.
pub fn truncations(bytes: &[u8]) -> impl Iterator<Item = &[u8]> {
    (0..bytes.len()).map(move |length| &bytes[..length])
}

/// The bytes after one to three kinds of damage.
pub fn damaged(rng: &mut Rng, bytes: &[u8]) -> Vec<u8> {
    let mut bytes = bytes.to_vec();
    for _ in 0..rng.pick(&[1, 1, 1, 2, 3]) {
        bytes = damaged_once(rng, &bytes);
    }
    bytes
}

fn damaged_once(rng: &mut Rng, bytes: &[u8]) -> Vec<u8> {
    if bytes.is_empty() {
        return some_record(rng);
    }
    match rng.below(6) {
        0 => bytes[..rng.below(bytes.len())].to_vec(),
        1 => with_byte_changed(rng, bytes),
        2 => with_bytes_after(rng, bytes),
        _ => with_records_damaged(rng, bytes),
    }
}

fn with_byte_changed(rng: &mut Rng, bytes: &[u8]) -> Vec<u8> {
    let mut bytes = bytes.to_vec();
    let at = rng.below(bytes.len());
    bytes[at] = match rng.below(3) {
        0 => bytes[at] ^ (1 << rng.below(8)),
        1 => rng.pick(&KINDS),
        _ => rng.next() as u8,
    };
    bytes
}

fn with_bytes_after(rng: &mut Rng, bytes: &[u8]) -> Vec<u8> {
    let mut bytes = bytes.to_vec();
    match rng.below(3) {
        0 => bytes.push(rng.next() as u8),
        1 => bytes.push(END),
        _ => bytes.extend(some_record(rng)),
    }
    bytes
}

/// Swaps, puts in, takes out, doubles or changes whole records.
fn with_records_damaged(rng: &mut Rng, bytes: &[u8]) -> Vec<u8> {
    let mut records = split(bytes);
    let at = rng.below(records.len());
    match rng.below(8) {
        0 => {
            let other = rng.below(records.len());
            records.swap(at, other);
        }
        1 => {
            let next = (at + 1) % records.len();
            records.swap(at, next);
        }
        2 => records.insert(at, some_record(rng)),
        3 => {
            records.remove(at);
        }
        4 => {
            let copy = records[at].clone();
            records.insert(at, copy);
        }
        5 => {
            let moved = records.remove(at);
            records.insert(rng.below(records.len() + 1), moved);
        }
        6 => damage_some(rng, &mut records, |record| {
            record[0] == STEP && record.len() > 1
        }),
        _ => damage_some(rng, &mut records, |record| record.len() > 1),
    }
    records.concat()
}

/// Changes a number of one record among those that `suits` admits.
fn damage_some(rng: &mut Rng, records: &mut [Vec<u8>], suits: impl Fn(&[u8]) -> bool) {
    let suiting: Vec<usize> = (0..records.len()).filter(|&i| suits(&records[i])).collect();
    if suiting.is_empty() {
        return;
    }
    let record = &mut records[rng.pick(&suiting)];
    if record[0] == STEP && record.len() == 7 && rng.one_in(5) {
        // First and second exchanged: the pivot has the wrong signs then.
        record.swap(1, 3);
        record.swap(2, 4);
        return;
    }
    change_number(rng, record);
}

fn change_number(rng: &mut Rng, record: &mut [u8]) {
    let at = 1 + 2 * rng.below(record.len() / 2);
    if at + 1 >= record.len() {
        record[at] = rng.pick(&[0, 1, 2, 255]);
        return;
    }
    let number = u16::from_le_bytes([record[at], record[at + 1]]);
    let changed = match rng.below(7) {
        0 | 1 => number.wrapping_add(1),
        2 | 3 => number.wrapping_sub(1),
        // Doubled in 16 bits this number gives the same literal.
        4 => number.wrapping_add(32_768),
        5 => rng.pick(&[0, 255, 256, 257, 65_535]),
        _ => rng.below(number as usize + 8) as u16,
    };
    record[at..at + 2].copy_from_slice(&changed.to_le_bytes());
}

/// The records of a byte string; what is cut or unknown stands alone.
pub fn split(bytes: &[u8]) -> Vec<Vec<u8>> {
    let mut records = Vec::new();
    let mut rest = bytes;
    while let Some(&kind) = rest.first() {
        let body = BODY[kind as usize];
        let length = if body == NO_KIND {
            1
        } else {
            1 + body as usize
        };
        let (record, after) = rest.split_at(length.min(rest.len()));
        records.push(record.to_vec());
        rest = after;
    }
    records
}

const KINDS: [u8; 18] = [
    HEAD, START, INPUT, COIL, CONSTANT, NOT, AND, OR, RUNG, CONDITION, END, STEP, QED, SAFE,
    INVARIANT, TRACE, INPUT_ON, SCAN,
];

/// A record of any kind with mostly small numbers.
pub fn some_record(rng: &mut Rng) -> Vec<u8> {
    let kind = rng.pick(&KINDS);
    let small = |rng: &mut Rng| if rng.one_in(12) { 256 } else { rng.below(5) };
    match kind {
        CONSTANT => encode::constant(rng.pick(&[0, 0, 0, 1, 1, 1, 2, 255])),
        START => encode::start(small(rng), rng.pick(&[0, 0, 0, 1, 1, 1, 2, 255])),
        _ => {
            let numbers: Vec<usize> = (0..BODY[kind as usize] / 2).map(|_| small(rng)).collect();
            encode::record(kind, &numbers)
        }
    }
}

/// Records in no order at all, behind the opening record that gets furthest.
pub fn soup(rng: &mut Rng, opening: Vec<u8>, records: usize) -> Vec<u8> {
    let mut bytes = opening;
    for _ in 0..records {
        bytes.extend(some_record(rng));
    }
    bytes
}
