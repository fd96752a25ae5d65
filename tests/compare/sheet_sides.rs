//! Refusals 2 to 11, each on both sides of its boundary.

use crate::answer::DONE;
use crate::fixtures::{hex, sheet_s};
use crate::tally::{Tally, ALWAYS};
use second::clauses::CLAUSES;
use second::make::encode::{coil, constant, end_of_sheet, head, input, rung, start};
use second::records::{END, NOT, OR};
use second::{refusal, Refusal};

pub fn run(tally: &mut Tally) {
    ends_and_kinds(tally);
    numbers(tally);
    values(tally);
    rungs(tally);
}

/// The sheet at fault is refused by checker and translator alike; the other is
/// read to its end, so that the certificate is refused where it ends.
fn sheets(tally: &mut Tally, no: u32, place: usize, at_fault: &[Vec<u8>], whole: &[Vec<u8>]) {
    let (at_fault, whole) = (at_fault.concat(), whole.concat());
    let what = format!("refusal {no} of a sheet");
    tally.refuses(&what, &at_fault, &ALWAYS, no, place);
    tally.refuses(&what, &whole, &ALWAYS, 12, ALWAYS.len());
    for set in 1..=3 {
        translates(tally, set, &at_fault, Some(refusal(no, place)));
        translates(tally, set, &whole, None);
    }
    tally.counts.both_sides(no);
}

fn translates(tally: &mut Tally, set: u32, sheet: &[u8], fault: Option<Refusal>) {
    let room = 3 * CLAUSES;
    let (got, _) = tally.translate(&"boundary", set, sheet, &ALWAYS, room);
    match fault {
        Some(fault) => tally.same("translator", got, fault.into()),
        None => tally.same("translator", got.kind, DONE),
    }
}

/// A condition that always holds, and END.
fn rest() -> Vec<u8> {
    hex("12 01 21 2F")
}

fn on() -> Vec<u8> {
    constant(1)
}

fn ends_and_kinds(tally: &mut Tally) {
    let s = sheet_s();
    sheets(tally, 2, 35, &[s[..35].to_vec()], &[s.clone()]);
    sheets(tally, 2, 0, &[s[..6].to_vec()], &[s.clone()]);
    sheets(tally, 11, 36, &[s.clone(), vec![END]], &[s]);
    let opened = || head(1, 2, 0);
    for kind in [0x00, 0x03, 0x0F, 0x16, 0x22, 0x30, 0x40, 0x50, 0x61, 0xFF] {
        sheets(tally, 3, 7, &[opened(), vec![kind]], &[opened(), rest()]);
    }
    let late = [opened(), on(), start(0, 1), end_of_sheet()];
    sheets(
        tally,
        3,
        9,
        &late,
        &[opened(), start(0, 1), on(), end_of_sheet()],
    );
    let no_condition = [opened(), on(), vec![END]];
    sheets(
        tally,
        3,
        9,
        &no_condition,
        &[opened(), on(), end_of_sheet()],
    );
}

fn numbers(tally: &mut Tally) {
    sheets(
        tally,
        4,
        0,
        &[head(257, 1, 0), rest()],
        &[head(256, 1, 0), rest()],
    );
    sheets(
        tally,
        4,
        0,
        &[head(0, 257, 0), rest()],
        &[head(0, 256, 0), rest()],
    );
    sheets(
        tally,
        4,
        0,
        &[head(0, 0, 0), rest()],
        &[head(0, 1, 0), rest()],
    );
    let driven = |rungs, number| [head(0, 1, rungs), on(), rung(number), rest()];
    sheets(tally, 4, 0, &driven(2, 0), &driven(1, 0));
    sheets(tally, 4, 9, &driven(1, 1), &driven(1, 0));
    let started = |coil, value| [head(0, 3, 0), start(coil, value), rest()];
    sheets(tally, 4, 7, &started(3, 1), &started(2, 1));
    sheets(tally, 4, 7, &started(2, 2), &started(2, 1));
    let reading = |contact| [head(256, 256, 0), contact, end_of_sheet()];
    sheets(tally, 4, 7, &reading(input(256)), &reading(input(255)));
    sheets(tally, 4, 7, &reading(coil(256)), &reading(coil(255)));
    sheets(tally, 4, 7, &reading(constant(2)), &reading(constant(0)));
    let twice = |one, two| [head(0, 3, 0), start(one, 1), start(two, 1), rest()];
    sheets(tally, 5, 11, &twice(1, 1), &twice(1, 2));
    sheets(tally, 5, 11, &twice(1, 0), &twice(0, 1));
}

fn values(tally: &mut Tally) {
    let with = |formula: Vec<u8>| [head(0, 1, 0), formula, end_of_sheet()];
    let join =
        |values: usize, operators: usize| [on().repeat(values), vec![OR; operators]].concat();
    sheets(
        tally,
        6,
        7,
        &with(vec![NOT]),
        &with([on(), vec![NOT]].concat()),
    );
    sheets(tally, 6, 9, &with(join(1, 1)), &with(join(2, 1)));
    sheets(tally, 6, 7, &with(vec![]), &with(on()));
    sheets(tally, 6, 11, &with(join(2, 0)), &with(on()));
    sheets(tally, 7, 7 + 64, &with(join(33, 32)), &with(join(32, 31)));
    let turned = |times| with([on(), vec![NOT; times]].concat());
    sheets(tally, 8, 7 + 2 + 1_023, &turned(1_024), &turned(1_023));
}

fn rungs(tally: &mut Tally) {
    let driven = |number| [on(), rung(number)].concat();
    let two = |one, other| [head(0, 2, 2), driven(one), driven(other), rest()];
    sheets(tally, 9, 14, &two(1, 1), &two(1, 0));
    let promised = |count| [head(0, 2, count), driven(0), rest()];
    sheets(tally, 10, 9, &promised(0), &promised(1));
    sheets(tally, 10, 14, &promised(2), &promised(1));
    let bare = |before: Vec<u8>| [head(0, 1, 1), before, rung(0), rest()];
    sheets(tally, 6, 7, &bare(vec![]), &bare(on()));
    sheets(tally, 6, 11, &bare(on().repeat(2)), &bare(on()));
}
