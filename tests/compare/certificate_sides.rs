//! Refusals 12 to 26, each on both sides of its boundary.

use crate::fixtures::{certificate_q, hex, sheet_n, sheet_p, sheet_s};
use crate::tally::{refused, Tally, ALWAYS};
use second::make::encode::{coil, constant, end_of_sheet, head, input, input_on, step};
use second::records::{AND, END, NOT, SCAN, TRACE};
use second::Answer::{self, Accepted, Confirmed};

pub fn run(tally: &mut Tally) {
    ends_and_kinds(tally);
    invariants(tally);
    steps(tally);
    widths(tally);
    lengths(tally);
    traces(tally);
}

/// Two certificates for one sheet.
struct Certificates<'a> {
    sheet: &'a [u8],
    at_fault: &'a [u8],
    other: &'a [u8],
    /// The answer for the other one.
    answer: Answer,
}

fn certificates(tally: &mut Tally, no: u32, place: usize, pair: Certificates) {
    let what = format!("refusal {no} of a certificate");
    tally.refuses(&what, pair.sheet, pair.at_fault, no, place);
    tally.answers(&what, pair.sheet, pair.other, pair.answer);
    tally.counts.both_sides(no);
}

fn on() -> Vec<u8> {
    constant(1)
}

fn ends_and_kinds(tally: &mut Tally) {
    let (s, q) = (sheet_s(), certificate_q());
    let cases = [
        (12, 112, q[..112].to_vec()),
        (12, 4, q[..10].to_vec()),
        (13, 112, [&q[..112], &[0x41, END]].concat()),
        (13, 0, hex("51")),
        (22, 4, hex("50 12 01 51 41")),
        (26, 113, [&q[..], &[0]].concat()),
    ];
    for (no, place, at_fault) in cases {
        let pair = Certificates {
            sheet: &s,
            at_fault: &at_fault,
            other: &q,
            answer: Accepted,
        };
        certificates(tally, no, place, pair);
    }
    let cut_scan = Certificates {
        sheet: &sheet_p(),
        at_fault: &hex("60 61 00 00 2F"),
        other: &hex("60 62 2F"),
        answer: Confirmed(1),
    };
    certificates(tally, 13, 4, cut_scan);
}

/// An invariant at fault, and one that is read to its INVARIANT, where the
/// certificate ends.
fn two_invariants(tally: &mut Tally, no: u32, place: usize, at_fault: &[u8], other: &[u8]) {
    let closed = |formula: &[u8]| [&[0x50], formula, &[0x51]].concat();
    let (at_fault, other) = (closed(at_fault), closed(other));
    let pair = Certificates {
        sheet: &sheet_s(),
        at_fault: &at_fault,
        other: &other,
        answer: refused(12, other.len()),
    };
    certificates(tally, no, place, pair);
}

fn invariants(tally: &mut Tally) {
    let join =
        |values: usize, operators: usize| [on().repeat(values), vec![AND; operators]].concat();
    let turned = |times| [on(), vec![NOT; times]].concat();
    two_invariants(tally, 13, 1, &input(0), &coil(0));
    two_invariants(tally, 14, 1, &coil(1), &coil(0));
    two_invariants(tally, 14, 1, &constant(2), &constant(1));
    two_invariants(tally, 15, 1, &[], &on());
    two_invariants(tally, 15, 5, &join(2, 0), &join(2, 1));
    two_invariants(tally, 15, 3, &join(1, 1), &join(2, 1));
    two_invariants(tally, 15, 1, &[NOT], &turned(1));
    two_invariants(tally, 16, 1 + 64, &join(33, 32), &join(32, 31));
    two_invariants(tally, 17, 1 + 2 + 255, &turned(256), &turned(255));
}

/// Q with other steps in its first refutation, whose clauses 1 to 3 are (1),
/// (13) and (-13) and whose records start at 4.
fn first_refutation(steps: &[Vec<u8>]) -> Vec<u8> {
    let q = certificate_q();
    [&q[..4], &steps.concat(), &q[11..]].concat()
}

fn steps(tally: &mut Tally) {
    let s = sheet_s();
    let right = certificate_q();
    let mut one = |no, place, steps: &[Vec<u8>]| {
        let pair = Certificates {
            sheet: &s,
            at_fault: &first_refutation(steps),
            other: &right,
            answer: Accepted,
        };
        certificates(tally, no, place, pair);
    };
    for number in [0, 4, 258, 32_770, 65_535] {
        one(18, 4, &[step(number, 3, 13)]);
        one(18, 4, &[step(2, number, 13)]);
    }
    one(18, 11, &[step(2, 3, 13), step(5, 3, 13)]);
    one(19, 11, &[step(2, 3, 13), step(4, 3, 13)]);
    for pivot in [0, 1, 12, 14, 32_768, 32_768 + 13, 65_535] {
        one(19, 4, &[step(2, 3, pivot)]);
    }
    one(19, 4, &[step(3, 2, 13)]);
    one(22, 4, &[]);
}

/// One coil, no rungs, and a condition that joins its contact 31 times by AND.
/// The k-th AND is variable 2k+2, and its third clause, number 5k+2 of set 3,
/// is (g -x -y) with the AND before it as x.
fn joined_sheet() -> Vec<u8> {
    let more = [coil(0), vec![AND]].concat().repeat(30);
    [head(0, 1, 0), coil(0), more, end_of_sheet()].concat()
}

/// Up to the third refutation of a certificate for that sheet: the invariant's
/// variables are 63 and 64.
fn two_refuted() -> Vec<u8> {
    let qed = || hex("41");
    [
        ALWAYS.to_vec(),
        step(2, 3, 63),
        qed(),
        step(3, 4, 64),
        qed(),
    ]
    .concat()
}

/// From the 30th AND, of three literals, each step brings in one literal more.
fn widened_to(width: usize) -> Vec<u8> {
    let mut bytes = two_refuted();
    let (mut latest, given) = (5 * 30 + 2, 155);
    for (made, k) in (1..30).rev().take(width - 3).enumerate() {
        bytes.extend(step(5 * k + 2, latest, 2 * k + 2));
        latest = given + made + 1;
    }
    bytes
}

fn widths(tally: &mut Tally) {
    let (wide, wider) = (widened_to(24), widened_to(25));
    let pair = Certificates {
        sheet: &joined_sheet(),
        at_fault: &wider,
        other: &wide,
        answer: refused(12, wide.len()),
    };
    certificates(tally, 20, wide.len(), pair);
}

fn lengths(tally: &mut Tally) {
    let s = sheet_s();
    let repeated = |times| first_refutation(&vec![step(2, 3, 13); times]);
    let pair = Certificates {
        sheet: &s,
        at_fault: &repeated(513),
        other: &repeated(512),
        answer: Accepted,
    };
    certificates(tally, 21, 4 + 7 * 512, pair);
}

fn traces(tally: &mut Tally) {
    // Two inputs and a condition that never holds: each whole trace confirms.
    let never = [head(2, 1, 0), constant(0), end_of_sheet()].concat();
    let trace = |parts: &[Vec<u8>]| [vec![TRACE], parts.concat(), vec![END]].concat();
    let mut pair = |no, place, at_fault: &[Vec<u8>], other: &[Vec<u8>]| {
        let pair = Certificates {
            sheet: &never,
            at_fault: &trace(at_fault),
            other: &trace(other),
            answer: Confirmed(1),
        };
        certificates(tally, no, place, pair);
    };
    let scan = || vec![SCAN];
    pair(14, 1, &[input_on(2), scan()], &[input_on(1), scan()]);
    let both = |one, two| [input_on(one), input_on(two), scan()];
    pair(23, 4, &both(1, 1), &both(0, 1));
    pair(
        23,
        4,
        &both(1, 0),
        &[input_on(1), scan(), input_on(0), scan()],
    );
    pair(24, 1, &[], &[scan()]);
    pair(24, 65, &[vec![SCAN; 65]], &[vec![SCAN; 64]]);
    let held = Certificates {
        sheet: &sheet_n(),
        at_fault: &hex("60 62 2F"),
        other: &hex("60 61 00 00 62 2F"),
        answer: Confirmed(1),
    };
    certificates(tally, 25, 2, held);
    let held_last = Certificates {
        sheet: &sheet_p(),
        at_fault: &hex("60 62 61 00 00 62 2F"),
        other: &hex("60 61 00 00 62 62 2F"),
        answer: Confirmed(2),
    };
    certificates(tally, 25, 6, held_last);
}
