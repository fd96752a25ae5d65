//! Refusals 2 to 11 at their boundaries, both sides.

use crate::fixtures::hex;
use crate::tally::{refused, Tally};
use second::make::encode::*;
use second::records::{AND, NOT, OR};
use second::{refusal, translate, Answer, Refusal, Sheet};

/// A condition that always holds, and END.
fn rest() -> Vec<u8> {
    hex("12 01 21 2F")
}

fn sheet(parts: &[Vec<u8>]) -> Vec<u8> {
    parts.concat()
}

/// The sheet is judged alike by reader, checker and all three translations.
fn judged(tally: &mut Tally, what: &str, bytes: &[u8], wanted: Option<(u32, usize)>) {
    let wanted = wanted.map(|(no, place)| refusal(no, place));
    tally.same(what, Sheet::read(bytes).err(), wanted);
    let cert = hex("60 2F");
    let answer = wanted.map_or(refused(24, 1), Answer::Refused);
    tally.answers(what, bytes, &cert, answer);
    for set in 1..=3 {
        let got = translate(set, bytes, &hex("50 12 01 51"), &mut []).err();
        tally.same(
            what,
            got,
            Some(wanted.unwrap_or(Refusal { no: 28, place: 0 })),
        );
    }
}

pub fn run(tally: &mut Tally) {
    head_numbers(tally);
    start_numbers(tally);
    contact_numbers(tally);
    starts_rise(tally);
    values(tally);
    stack(tally);
    records(tally);
    rungs(tally);
}

fn head_numbers(tally: &mut Tally) {
    for inputs in [0, 1, 255, 256] {
        judged(tally, "inputs", &sheet(&[head(inputs, 1, 0), rest()]), None);
    }
    for inputs in [257, 512, 65_535] {
        judged(
            tally,
            "inputs",
            &sheet(&[head(inputs, 1, 0), rest()]),
            Some((4, 0)),
        );
    }
    for coils in [1, 255, 256] {
        judged(tally, "coils", &sheet(&[head(0, coils, 0), rest()]), None);
        judged(tally, "rungs", &head(0, coils, coils), Some((2, 7)));
        judged(tally, "rungs", &head(0, coils, coils + 1), Some((4, 0)));
    }
    for coils in [0, 257, 65_535] {
        judged(
            tally,
            "coils",
            &sheet(&[head(0, coils, 0), rest()]),
            Some((4, 0)),
        );
    }
}

fn start_numbers(tally: &mut Tally) {
    for (coil, value, fault) in [(0, 0, None), (2, 1, None), (3, 1, Some((4, 7)))] {
        judged(
            tally,
            "START",
            &sheet(&[head(0, 3, 0), start(coil, value), rest()]),
            fault,
        );
    }
    for value in [2, 3, 128, 255] {
        let bytes = sheet(&[head(0, 3, 0), start(1, value), rest()]);
        judged(tally, "START value", &bytes, Some((4, 7)));
    }
}

fn contact_numbers(tally: &mut Tally) {
    let end = end_of_sheet;
    for count in [1, 2, 255, 256] {
        let with = |contact: Vec<u8>| sheet(&[head(count, count, 0), contact, end()]);
        judged(tally, "last input", &with(input(count - 1)), None);
        judged(
            tally,
            "input past the last",
            &with(input(count)),
            Some((4, 7)),
        );
        judged(
            tally,
            "input far past",
            &with(input(count + 256)),
            Some((4, 7)),
        );
        judged(tally, "last coil", &with(coil(count - 1)), None);
        judged(
            tally,
            "coil past the last",
            &with(coil(count)),
            Some((4, 7)),
        );
        let driven = |number| sheet(&[head(0, count, 1), constant(0), rung(number), rest()]);
        judged(tally, "rung on the last coil", &driven(count - 1), None);
        judged(
            tally,
            "rung past the last coil",
            &driven(count),
            Some((4, 9)),
        );
    }
    judged(
        tally,
        "no inputs",
        &sheet(&[head(0, 1, 0), input(0), end()]),
        Some((4, 7)),
    );
    for value in 0..=255 {
        let fault = if value > 1 { Some((4, 7)) } else { None };
        judged(
            tally,
            "constant",
            &sheet(&[head(0, 1, 0), constant(value), end()]),
            fault,
        );
    }
}

fn starts_rise(tally: &mut Tally) {
    let cases = [
        ((0, 1), None),
        ((0, 2), None),
        ((1, 1), Some(5)),
        ((2, 1), Some(5)),
    ];
    for ((one, two), fault) in cases {
        let bytes = sheet(&[head(0, 3, 0), start(one, 1), start(two, 0), rest()]);
        judged(tally, "STARTs", &bytes, fault.map(|no| (no, 11)));
    }
}

fn values(tally: &mut Tally) {
    let c = || constant(1);
    let with = |parts: &[Vec<u8>]| sheet(&[head(0, 1, 0), parts.concat(), end_of_sheet()]);
    judged(tally, "NOT of nothing", &with(&[vec![NOT]]), Some((6, 7)));
    judged(tally, "NOT of one", &with(&[c(), vec![NOT]]), None);
    for operator in [AND, OR] {
        judged(
            tally,
            "join of nothing",
            &with(&[vec![operator]]),
            Some((6, 7)),
        );
        judged(
            tally,
            "join of one",
            &with(&[c(), vec![operator]]),
            Some((6, 9)),
        );
        judged(
            tally,
            "join of two",
            &with(&[c(), c(), vec![operator]]),
            None,
        );
    }
    judged(tally, "CONDITION of nothing", &with(&[]), Some((6, 7)));
    judged(tally, "CONDITION of two", &with(&[c(), c()]), Some((6, 11)));
    let driven = |formula: Vec<u8>| sheet(&[head(0, 1, 1), formula, rung(0), rest()]);
    judged(tally, "RUNG of nothing", &driven(vec![]), Some((6, 7)));
    judged(tally, "RUNG of one", &driven(c()), None);
    judged(
        tally,
        "RUNG of two",
        &driven([c(), c()].concat()),
        Some((6, 11)),
    );
    // A rung's value does not stay on the stack.
    let carried = sheet(&[head(0, 1, 1), c(), rung(0), vec![NOT]]);
    judged(tally, "stack after RUNG", &carried, Some((6, 12)));
}

fn stack(tally: &mut Tally) {
    for (values, fault) in [(31, None), (32, None), (33, Some((7, 7 + 2 * 32)))] {
        let put = constant(0).repeat(values);
        let bytes = sheet(&[head(0, 1, 0), put, vec![OR; values - 1], end_of_sheet()]);
        judged(tally, "stack of the condition", &bytes, fault);
        let put = constant(0).repeat(values);
        let bytes = sheet(&[head(0, 1, 1), put, vec![AND; values - 1], rung(0), rest()]);
        judged(tally, "stack of a rung", &bytes, fault);
    }
}

fn records(tally: &mut Tally) {
    for (nots, fault) in [(1022, None), (1023, None), (1024, Some((8, 7 + 2 + 1023)))] {
        let bytes = sheet(&[head(0, 1, 0), constant(0), vec![NOT; nots], end_of_sheet()]);
        judged(tally, "records of the condition", &bytes, fault);
    }
    for (nots, fault) in [(1022, None), (1023, Some((8, 7 + 2 + 1023 + 3)))] {
        let bytes = sheet(&[head(0, 1, 1), constant(0), vec![NOT; nots], rung(0), rest()]);
        judged(tally, "records of rung and condition", &bytes, fault);
    }
}

fn rungs(tally: &mut Tally) {
    let driven = |number| [constant(0), rung(number)].concat();
    let with = |promised, parts: &[Vec<u8>]| sheet(&[head(0, 3, promised), parts.concat(), rest()]);
    judged(tally, "two coils", &with(2, &[driven(2), driven(0)]), None);
    judged(
        tally,
        "one coil twice",
        &with(2, &[driven(2), driven(2)]),
        Some((9, 14)),
    );
    judged(
        tally,
        "a rung too many",
        &with(1, &[driven(2), driven(0)]),
        Some((10, 14)),
    );
    judged(
        tally,
        "no rung promised",
        &with(0, &[driven(1)]),
        Some((10, 9)),
    );
    judged(
        tally,
        "a rung too few",
        &with(2, &[driven(1)]),
        Some((10, 14)),
    );
    judged(tally, "no rung, one promised", &with(1, &[]), Some((10, 9)));
    let all: Vec<Vec<u8>> = (0..256).rev().map(driven).collect();
    judged(
        tally,
        "256 rungs",
        &sheet(&[head(0, 256, 256), all.concat(), rest()]),
        None,
    );
    let short = sheet(&[head(0, 256, 256), all[..255].concat(), rest()]);
    judged(
        tally,
        "255 of 256 rungs",
        &short,
        Some((10, 7 + 255 * 5 + 2)),
    );
}
