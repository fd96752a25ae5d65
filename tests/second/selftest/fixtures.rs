//! The sheets and certificates of document 01's samples.

use second::make::{certificate, Step};

pub fn hex(text: &str) -> Vec<u8> {
    let words = text.split_whitespace().filter(|word| *word != "/");
    words
        .map(|word| u8::from_str_radix(word, 16).expect("two digits"))
        .collect()
}

const LADDER_OF_S: &str = "01 01 00 01 00 01 00 / 02 00 00 01 / 10 00 00 20 00 00";

pub fn sheet_s() -> Vec<u8> {
    with_condition("10 00 00 11 00 00 14 10 00 00 13 11 00 00 13 14 15")
}

pub fn sheet_p() -> Vec<u8> {
    with_condition("11 00 00")
}

pub fn sheet_n() -> Vec<u8> {
    with_condition("11 00 00 13")
}

fn with_condition(condition: &str) -> Vec<u8> {
    hex(&format!("{LADDER_OF_S} / {condition} 21 / 2F"))
}

pub fn steps(steps: &[(usize, usize, usize)]) -> Vec<Step> {
    steps
        .iter()
        .map(|&(first, second, pivot)| Step {
            first,
            second,
            pivot,
        })
        .collect()
}

pub fn refutations_of_q() -> [Vec<Step>; 3] {
    [
        steps(&[(2, 3, 13)]),
        steps(&[(5, 6, 14)]),
        steps(&[
            (21, 26, 12),
            (22, 26, 12),
            (9, 27, 6),
            (20, 28, 11),
            (4, 29, 4),
            (6, 31, 5),
            (2, 32, 3),
            (13, 30, 8),
            (17, 34, 10),
            (35, 10, 7),
            (36, 14, 9),
            (37, 1, 3),
            (38, 33, 2),
        ]),
    ]
}

/// The invariant that is always true.
pub fn always() -> Vec<u8> {
    hex("12 01")
}

pub fn certificate_q() -> Vec<u8> {
    certificate(&always(), &refutations_of_q())
}
