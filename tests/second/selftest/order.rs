//! Which fault wins where several hold.

use crate::fixtures::*;
use crate::tally::Tally;
use second::make::encode::*;
use second::records::{AND, CONDITION, END, NOT, SCAN, TRACE};

pub fn run(tally: &mut Tally) {
    kind_cut_range(tally);
    start_order(tally);
    rung_order(tally);
    condition_order(tally);
    formula_order(tally);
    invariant_order(tally);
    step_order(tally);
    trace_order(tally);
    left_to_right(tally);
}

fn kind_cut_range(tally: &mut Tally) {
    tally.refuses("kind before cut", &hex("02"), &[], 3, 0);
    tally.refuses("cut before range", &hex("01 FF FF 00 00 FF"), &[], 2, 0);
    tally.refuses("range", &hex("01 FF FF 00 00 FF FF"), &[], 4, 0);
    tally.refuses(
        "cut before range",
        &hex("01 00 00 01 00 00 00 02 FF FF"),
        &[],
        2,
        7,
    );
    tally.refuses(
        "cut before 6",
        &hex("01 00 00 01 00 00 00 20 FF"),
        &[],
        2,
        7,
    );
    tally.refuses("cut", &sheet_s(), &hex("50 11 FF"), 12, 1);
    tally.refuses(
        "cut before 18",
        &sheet_s(),
        &hex("50 12 01 51 40 00 00 00 00 00"),
        12,
        4,
    );
    tally.refuses("cut before 14", &sheet_s(), &hex("60 61 FF"), 12, 1);
}

fn start_order(tally: &mut Tally) {
    let opened = [head(0, 2, 0), start(1, 1)].concat();
    let then = |record: Vec<u8>| [&opened[..], &record].concat();
    tally.refuses("value before rising", &then(start(0, 2)), &[], 4, 11);
    tally.refuses("rising", &then(start(0, 1)), &[], 5, 11);
    tally.refuses("coil", &then(start(2, 1)), &[], 4, 11);
}

fn rung_order(tally: &mut Tally) {
    let opened = [head(0, 2, 1), constant(1), rung(0)].concat();
    let then = |parts: &[Vec<u8>]| [&opened[..], &parts.concat()].concat();
    tally.refuses("4, 6, 10", &then(&[rung(2)]), &[], 4, 12);
    tally.refuses("6, 9, 10", &then(&[rung(0)]), &[], 6, 12);
    tally.refuses("6, 10", &then(&[rung(1)]), &[], 6, 12);
    tally.refuses(
        "6, 9, 10",
        &then(&[constant(0), constant(0), rung(0)]),
        &[],
        6,
        16,
    );
    tally.refuses("9, 10", &then(&[constant(0), rung(0)]), &[], 9, 14);
    tally.refuses("10", &then(&[constant(0), rung(1)]), &[], 10, 14);
}

fn condition_order(tally: &mut Tally) {
    let early = |formula: Vec<u8>| [head(0, 2, 1), formula, vec![CONDITION]].concat();
    tally.refuses("6, 10", &early(vec![]), &[], 6, 7);
    tally.refuses("6, 10", &early(constant(0).repeat(2)), &[], 6, 11);
    tally.refuses("10", &early(constant(0)), &[], 10, 9);
}

fn formula_order(tally: &mut Tally) {
    // 32 values stand on the stack.
    let full = [head(0, 1, 1), constant(0).repeat(32)].concat();
    let then = |parts: &[&[u8]]| [&full[..], &parts.concat()].concat();
    tally.refuses("4, 7", &then(&[&coil(1)]), &[], 4, 71);
    tally.refuses("4, 7", &then(&[&constant(2)]), &[], 4, 71);
    tally.refuses("7", &then(&[&coil(0)]), &[], 7, 71);
    tally.refuses("operators never give 7", &then(&[&[NOT, AND]]), &[], 2, 73);
    // 1,024 records, of which 32 values stand on the stack.
    let full = [
        head(0, 1, 1),
        constant(0),
        vec![NOT; 992],
        constant(0).repeat(31),
    ]
    .concat();
    let place = full.len();
    let then = |record: &[u8]| [&full[..], record].concat();
    tally.refuses("4, 7, 8", &then(&coil(1)), &[], 4, place);
    tally.refuses("7, 8", &then(&coil(0)), &[], 7, place);
    tally.refuses("8", &then(&[NOT]), &[], 8, place);
    tally.refuses("8", &then(&[AND]), &[], 8, place);
    // 1,024 records in a rung, an empty stack after it.
    let full = [head(0, 1, 1), constant(0), vec![NOT; 1023], rung(0)].concat();
    let place = full.len();
    let then = |record: &[u8]| [&full[..], record].concat();
    tally.refuses("6, 8", &then(&[AND]), &[], 6, place);
    tally.refuses("6, 8", &then(&[NOT]), &[], 6, place);
    tally.refuses("4, 8", &then(&coil(1)), &[], 4, place);
    tally.refuses("8", &then(&coil(0)), &[], 8, place);
    tally.refuses("CONDITION has no 8", &then(&[CONDITION]), &[], 6, place);
}

fn invariant_order(tally: &mut Tally) {
    let s = sheet_s();
    for bytes in ["50 10", "50 10 00", "50 10 FF FF", "50 10 00 00"] {
        tally.refuses("INPUT contact", &s, &hex(bytes), 13, 1);
    }
    let full = [hex("50"), constant(0).repeat(32)].concat();
    let then = |record: &[u8]| [&full[..], record].concat();
    tally.refuses("14, 16", &s, &then(&coil(1)), 14, 65);
    tally.refuses("16", &s, &then(&coil(0)), 16, 65);
    let full = [
        hex("50"),
        constant(0),
        vec![NOT; 224],
        constant(0).repeat(31),
    ]
    .concat();
    let place = full.len();
    let then = |record: &[u8]| [&full[..], record].concat();
    tally.refuses("14, 16, 17", &s, &then(&constant(2)), 14, place);
    tally.refuses("16, 17", &s, &then(&constant(1)), 16, place);
    tally.refuses("17", &s, &then(&[NOT]), 17, place);
    // Every AND of the 256 records is used up and one value is left.
    let full = [hex("50"), constant(0), vec![NOT; 255]].concat();
    let place = full.len();
    tally.refuses("15, 17", &s, &[&full[..], &[AND]].concat(), 15, place);
    tally.refuses("17", &s, &[&full[..], &[NOT]].concat(), 17, place);
}

fn step_order(tally: &mut Tally) {
    let s = sheet_s();
    let full = [hex("50 12 01 51"), step(2, 3, 13).repeat(512)].concat();
    let place = full.len();
    let then = |record: Vec<u8>| [&full[..], &record].concat();
    tally.refuses("18, 19, 21", &s, &then(step(0, 3, 99)), 18, place);
    tally.refuses("18, 19, 21", &s, &then(step(516, 3, 13)), 18, place);
    tally.refuses("19, 21", &s, &then(step(515, 3, 13)), 19, place);
    tally.refuses("19, 21", &s, &then(step(2, 3, 1)), 19, place);
    tally.refuses("21", &s, &then(step(2, 3, 13)), 21, place);
    tally.refuses("QED after 512", &s, &then(hex("41")), 12, place + 1);
    width_before_length(tally);
}

/// A clause of 24 literals derived, then the row filled up to 512 steps: the
/// 513th is measured before it is counted.
fn width_before_length(tally: &mut Tally) {
    // The condition joins 31 contacts; the k-th AND has (g -x -y) as clause 5k+2.
    let more = [coil(0), vec![AND]].concat().repeat(30);
    let sheet = [head(0, 1, 0), coil(0), more, end_of_sheet()].concat();
    let mut cert = hex("50 12 01 51");
    cert.extend([step(2, 3, 63), hex("41"), step(3, 4, 64), hex("41")].concat());
    let mut latest = 152;
    for k in (9..30).rev() {
        cert.extend(step(5 * k + 2, latest, 2 * k + 2));
        latest = if latest == 152 { 156 } else { latest + 1 };
    }
    // `latest` has 24 literals now; the next AND down would make them 25.
    let filler = step(5 * 29 + 2, 152, 60);
    cert.extend(filler.repeat(512 - 21));
    let place = cert.len();
    let then = |record: Vec<u8>| [&cert[..], &record].concat();
    tally.refuses(
        "20, 21",
        &sheet,
        &then(step(5 * 8 + 2, latest, 18)),
        20,
        place,
    );
    tally.refuses("21", &sheet, &then(filler), 21, place);
    tally.refuses(
        "19, 20, 21",
        &sheet,
        &then(step(5 * 8 + 2, latest, 17)),
        19,
        place,
    );
}

fn trace_order(tally: &mut Tally) {
    let p = sheet_p();
    tally.refuses(
        "END after INPUT-ON, no scan",
        &p,
        &hex("60 61 00 00 2F"),
        13,
        4,
    );
    tally.refuses("END after INPUT-ON", &p, &hex("60 62 61 00 00 2F"), 13, 5);
    tally.refuses("24 before 26", &p, &hex("60 2F 00"), 24, 1);
    tally.refuses("25 before 26", &p, &hex("60 61 00 00 62 2F 00"), 25, 5);
    tally.refuses("26", &p, &hex("60 62 2F 00"), 26, 3);
    let full = [vec![TRACE], vec![SCAN; 64]].concat();
    let then = |parts: &[Vec<u8>]| [&full[..], &parts.concat()].concat();
    tally.refuses("SCAN after 64", &p, &then(&[vec![SCAN]]), 24, 65);
    tally.refuses("INPUT-ON after 64", &p, &then(&[input_on(0)]), 12, 68);
    tally.refuses("INPUT-ON after 64", &p, &then(&[input_on(1)]), 14, 65);
    tally.refuses(
        "INPUT-ON, SCAN",
        &p,
        &then(&[input_on(0), vec![SCAN]]),
        24,
        68,
    );
    tally.refuses(
        "INPUT-ON, END",
        &p,
        &then(&[input_on(0), vec![END]]),
        13,
        68,
    );
    tally.refuses("twice on", &p, &then(&[input_on(0), input_on(0)]), 23, 68);
}

fn left_to_right(tally: &mut Tally) {
    let s = sheet_s();
    tally.refuses("sheet before certificate", &s[..35], &hex("FF"), 2, 35);
    tally.refuses(
        "byte after END before certificate",
        &[&s[..], &[0]].concat(),
        &[],
        11,
        36,
    );
    let bad_step = hex("50 12 01 51 40 09 00 03 00 0D 00 FF");
    tally.refuses("18 before the kind after it", &s, &bad_step, 18, 4);
    tally.refuses(
        "22 before the end of bytes",
        &s,
        &hex("50 12 01 51 41"),
        22,
        4,
    );
    let bad_input = hex("60 61 05 00 FF");
    tally.refuses("14 before the kind after it", &s, &bad_input, 14, 1);
    tally.refuses("kind before 25", &sheet_n(), &hex("60 62 FF 2F"), 13, 2);
}
