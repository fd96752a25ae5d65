//! Refusals 12 to 26 at their boundaries, both sides.

use crate::fixtures::*;
use crate::tally::Tally;
use second::make::encode::{self, coil, constant, head, input_on};
use second::make::{certificate, Step};
use second::records::{AND, END, NOT, SCAN, TRACE};
use second::{refusal, translate, Answer};

pub fn run(tally: &mut Tally) {
    invariants(tally);
    clause_numbers(tally);
    pivots(tally);
    widths(tally);
    lengths(tally);
    qed(tally);
    traces(tally);
}

/// An invariant judged by checker and translator; where it is well formed the
/// certificate ends behind it.
fn invariant(tally: &mut Tally, what: &str, formula: &[u8], fault: Option<(u32, usize)>) {
    let cert = [&[0x50], formula, &[0x51]].concat();
    let (no, place) = fault.unwrap_or((12, cert.len()));
    tally.refuses(what, &sheet_s(), &cert, no, place);
    let got = translate(1, &sheet_s(), &cert, &mut []);
    let (no, place) = fault.unwrap_or((28, 0));
    tally.same(what, got, Err(refusal(no, place)));
}

fn invariants(tally: &mut Tally) {
    let c = || constant(1);
    invariant(tally, "last coil", &coil(0), None);
    invariant(tally, "coil past the last", &coil(1), Some((14, 1)));
    invariant(tally, "INPUT contact", &encode::input(0), Some((13, 1)));
    for value in 0..=255 {
        let fault = if value > 1 { Some((14, 1)) } else { None };
        invariant(tally, "constant", &constant(value), fault);
    }
    invariant(tally, "nothing", &[], Some((15, 1)));
    invariant(tally, "two values", &[c(), c()].concat(), Some((15, 5)));
    invariant(tally, "NOT of nothing", &[NOT], Some((15, 1)));
    invariant(
        tally,
        "AND of one",
        &[c(), vec![AND]].concat(),
        Some((15, 3)),
    );
    for (values, fault) in [(31, None), (32, None), (33, Some((16, 1 + 2 * 32)))] {
        let formula = [c().repeat(values), vec![AND; values - 1]].concat();
        invariant(tally, "stack", &formula, fault);
    }
    for (nots, fault) in [(254, None), (255, None), (256, Some((17, 1 + 2 + 255)))] {
        invariant(tally, "records", &[c(), vec![NOT; nots]].concat(), fault);
    }
}

/// A certificate for S whose first refutation is put in question: its steps
/// lie at 4, 11, 18, … and clauses 1 to 3 are (1), (13), (-13).
fn first(row: &[(usize, usize, usize)]) -> Vec<u8> {
    let [_, second, third] = refutations_of_q();
    certificate(&always(), &[steps(row), second, third])
}

fn clause_numbers(tally: &mut Tally) {
    let s = sheet_s();
    tally.answers("both there", &s, &first(&[(2, 3, 13)]), Answer::Accepted);
    for number in [0, 4, 5, 32_770, 65_535] {
        tally.refuses("first not there", &s, &first(&[(number, 3, 13)]), 18, 4);
        tally.refuses("second not there", &s, &first(&[(2, number, 13)]), 18, 4);
    }
    let derived = |number| first(&[(2, 3, 13), (number, 3, 13)]);
    tally.refuses("derived is there", &s, &derived(4), 19, 11);
    tally.refuses("itself is not there yet", &s, &derived(5), 18, 11);
}

fn pivots(tally: &mut Tally) {
    let s = sheet_s();
    for pivot in [0, 1, 12, 14, 15, 2_048, 2_049, 32_768, 32_768 + 13, 65_535] {
        tally.refuses("pivot", &s, &first(&[(2, 3, pivot)]), 19, 4);
    }
    tally.refuses("signs exchanged", &s, &first(&[(3, 2, 13)]), 19, 4);
    tally.refuses("plain in both", &s, &first(&[(2, 2, 13)]), 19, 4);
    tally.refuses("negated in both", &s, &first(&[(3, 3, 13)]), 19, 4);
    tally.refuses("missing in the second", &s, &first(&[(1, 3, 1)]), 19, 4);
}

/// No inputs, one coil, no rungs; the condition joins so many contacts by
/// AND. The third clause of the k-th AND is (g -x -y), number 5k+2, and its
/// variable is 2k+2; x is the AND before.
fn wide_sheet(ands: usize) -> Vec<u8> {
    let more = [coil(0), vec![AND]].concat().repeat(ands);
    [head(0, 1, 0), coil(0), more, encode::end_of_sheet()].concat()
}

/// From the last AND down, each step adds one literal to the three.
fn widening(ands: usize, width: usize) -> Vec<(usize, usize, usize)> {
    let mut row = Vec::new();
    let mut latest = 5 * ands + 2;
    let given = 2 + 5 * ands + 3;
    for k in (1..ands).rev().take(width - 3) {
        row.push((5 * k + 2, latest, 2 * k + 2));
        latest = given + row.len();
    }
    row
}

fn third(row: &[(usize, usize, usize)]) -> Vec<u8> {
    // Set 1: (-1) or (1), the invariant's top and its opposite; likewise set 2.
    let variable = 1 + 61 + 1;
    let refuted = [steps(&[(2, 3, variable)]), steps(&[(3, 4, variable + 1)])];
    let [one, two] = refuted;
    certificate(&always(), &[one, two, steps(row)])
}

fn widths(tally: &mut Tally) {
    let sheet = wide_sheet(30);
    let third_at = 4 + 8 + 8;
    for width in [4, 23, 24] {
        let row = widening(30, width);
        let place = third_at + 7 * row.len();
        tally.refuses("not too wide", &sheet, &third(&row), 22, place);
    }
    let row = widening(30, 25);
    tally.refuses(
        "too wide",
        &sheet,
        &third(&row),
        20,
        third_at + 7 * (row.len() - 1),
    );
}

fn lengths(tally: &mut Tally) {
    let s = sheet_s();
    let row = |count| vec![(2, 3, 13); count];
    tally.answers("511 steps", &s, &first(&row(511)), Answer::Accepted);
    tally.answers("512 steps", &s, &first(&row(512)), Answer::Accepted);
    tally.refuses("513 steps", &s, &first(&row(513)), 21, 4 + 7 * 512);
    tally.answers("three times 512 steps", &s, &q_with(512), Answer::Accepted);
    let place = 4 + 2 * (7 * 512 + 1) + 7 * 512;
    tally.refuses("513 steps in the third", &s, &q_with(513), 21, place);
}

/// Q with the first two refutations lengthened to 512 steps and the third to
/// `count`, by steps put in front that derive a tautology.
fn q_with(count: usize) -> Vec<u8> {
    let [one, two, last] = refutations_of_q();
    let harmless = count - last.len();
    let moved = |number| {
        if number > 26 {
            number + harmless
        } else {
            number
        }
    };
    let mut third = vec![
        Step {
            first: 2,
            second: 1,
            pivot: 3
        };
        harmless
    ];
    for step in last {
        let (first, second) = (moved(step.first), moved(step.second));
        third.push(Step {
            first,
            second,
            pivot: step.pivot,
        });
    }
    certificate(&always(), &[one.repeat(512), two.repeat(512), third])
}

fn qed(tally: &mut Tally) {
    let s = sheet_s();
    tally.refuses("no STEP", &s, &first(&[]), 22, 4);
    let [one, two, third] = refutations_of_q();
    let no_second = certificate(&always(), &[one.clone(), vec![], third.clone()]);
    tally.refuses("no STEP in the second", &s, &no_second, 22, 12);
    let short = certificate(&always(), &[one.clone(), two.clone(), third[..12].to_vec()]);
    tally.refuses("last STEP missing", &s, &short, 22, 20 + 7 * 12);
    let late = certificate(
        &always(),
        &[one, two, [third, steps(&[(2, 1, 3)])].concat()],
    );
    tally.refuses("empty clause not the latest", &s, &late, 22, 20 + 7 * 14);
}

fn traces(tally: &mut Tally) {
    // Three inputs; the condition never holds, so every whole trace is confirmed.
    let sheet = [head(3, 1, 0), constant(0), encode::end_of_sheet()].concat();
    let trace = |parts: &[Vec<u8>]| [vec![TRACE], parts.concat(), vec![END]].concat();
    let scan = || vec![SCAN];
    let one = Answer::Confirmed(1);
    let on = input_on;
    tally.answers(
        "rising",
        &sheet,
        &trace(&[on(0), on(1), on(2), scan()]),
        one,
    );
    tally.answers(
        "rising with a gap",
        &sheet,
        &trace(&[on(0), on(2), scan()]),
        one,
    );
    tally.refuses("twice", &sheet, &trace(&[on(1), on(1), scan()]), 23, 4);
    tally.refuses("falling", &sheet, &trace(&[on(2), on(1), scan()]), 23, 4);
    tally.answers(
        "afresh after SCAN",
        &sheet,
        &trace(&[on(2), scan(), on(0), scan()]),
        one,
    );
    tally.refuses("past the last", &sheet, &trace(&[on(3), scan()]), 14, 1);
    tally.refuses("no scan", &sheet, &trace(&[]), 24, 1);
    for scans in [1, 63, 64] {
        tally.answers("scans", &sheet, &trace(&[scan().repeat(scans)]), one);
    }
    tally.refuses("65 scans", &sheet, &trace(&[scan().repeat(65)]), 24, 65);
    let held = [head(3, 1, 0), constant(1), encode::end_of_sheet()].concat();
    tally.refuses("held", &held, &trace(&[scan().repeat(64)]), 25, 65);
}
