//! Records as bytes. Numbers are taken as they come, so that tests can also
//! write records that are at fault.

use crate::records::*;

pub fn record(kind: u8, numbers: &[usize]) -> Vec<u8> {
    let mut bytes = vec![kind];
    for &number in numbers {
        bytes.extend((number as u16).to_le_bytes());
    }
    bytes
}

pub fn head(inputs: usize, coils: usize, rungs: usize) -> Vec<u8> {
    record(HEAD, &[inputs, coils, rungs])
}

pub fn start(coil: usize, value: u8) -> Vec<u8> {
    let mut bytes = record(START, &[coil]);
    bytes.push(value);
    bytes
}

pub fn input(number: usize) -> Vec<u8> {
    record(INPUT, &[number])
}

pub fn coil(number: usize) -> Vec<u8> {
    record(COIL, &[number])
}

pub fn constant(value: u8) -> Vec<u8> {
    vec![CONSTANT, value]
}

pub fn rung(coil: usize) -> Vec<u8> {
    record(RUNG, &[coil])
}

pub fn end_of_sheet() -> Vec<u8> {
    vec![CONDITION, END]
}

pub fn step(first: usize, second: usize, pivot: usize) -> Vec<u8> {
    record(STEP, &[first, second, pivot])
}

pub fn input_on(input: usize) -> Vec<u8> {
    record(INPUT_ON, &[input])
}

/// A trace from the inputs of scan after scan.
pub fn trace(scans: &[Vec<bool>]) -> Vec<u8> {
    let mut bytes = vec![TRACE];
    for inputs in scans {
        for (number, _) in inputs.iter().enumerate().filter(|(_, &on)| on) {
            bytes.extend(input_on(number));
        }
        bytes.push(SCAN);
    }
    bytes.push(END);
    bytes
}
