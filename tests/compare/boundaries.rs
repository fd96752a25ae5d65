//! Each refusal of the library on both sides of its boundary, with the number
//! and place that document 01 gives; here those of workspace, room and set.

use crate::answer::Answer;
use crate::fixtures::{certificate_q, hex, sheet_s};
use crate::tally::{refused, Tally, ALWAYS, NO_SETS};
use crate::{certificate_sides, sheet_sides};
use second::make::encode::{coil, end_of_sheet, head, rung};
use second::records::{NOT, OR};
use second::Answer::Accepted;
use second::{refusal, Sheet};

pub fn run(tally: &mut Tally) {
    workspaces(tally);
    sheet_sides::run(tally);
    certificate_sides::run(tally);
    rooms(tally);
    sets(tally);
    largest_set(tally);
}

fn workspaces(tally: &mut Tally) {
    let (s, q) = (sheet_s(), certificate_q());
    for places in [0, 1, 32_767] {
        let got = tally.check(&"short workspace", &s, &q, places);
        tally.same("short workspace", got, refused(1, 0));
        let got = tally.check(&"1 before the sheet", &[], &[], places);
        tally.same("1 before the sheet", got, refused(1, 0));
    }
    for places in [32_768, 32_769, 50_000] {
        let got = tally.check(&"workspace", &s, &q, places);
        tally.same("workspace", got, Accepted);
    }
    tally.counts.both_sides(1);
}

fn rooms(tally: &mut Tally) {
    let (s, q) = (sheet_s(), certificate_q());
    for (set, count) in [(1, 3), (2, 6), (3, 26)] {
        for room in [0, 1, 3 * count - 1] {
            let (got, _) = tally.translate(&"short room", set, &s, &q, room);
            tally.same("short room", got, refusal(28, 0).into());
        }
        for room in [3 * count, 3 * count + 1, 3 * count + 2, 5_000] {
            let (got, _) = tally.translate(&"room", set, &s, &q, room);
            tally.same("room", got, Ok(count).into());
        }
    }
    tally.counts.both_sides(28);
    let (_, places) = tally.translate(&"set 2 of S", 2, &s, &ALWAYS, 18);
    let wanted = [7, 4, 0, 6, 5, 0, 26, 0, 0, 26, 0, 0, 28, 0, 0, 29, 0, 0];
    tally.same("set 2 of S", &places[..], &wanted);
}

fn sets(tally: &mut Tally) {
    let (s, q) = (sheet_s(), certificate_q());
    for set in NO_SETS {
        let (got, _) = tally.translate(&"no such set", set, &s, &q, 100);
        tally.same("no such set", got, refusal(29, 0).into());
        let (got, _) = tally.translate(&"29 before the sheet", set, &[], &[], 0);
        tally.same("29 before the sheet", got, refusal(29, 0).into());
    }
    for (set, count) in [(1, 3), (2, 6), (3, 26)] {
        let (got, _) = tally.translate(&"a set", set, &s, &q, 100);
        tally.same("a set", got, Ok(count).into());
        let (got, _) = tally.translate(&"TRACE", set, &s, &hex("60 62 2F"), 100);
        tally.same("TRACE", got, refusal(13, 0).into());
        let (got, _) = tally.translate(&"12 before 28", set, &s, &[], 0);
        tally.same("12 before 28", got, refusal(12, 0).into());
    }
    tally.counts.both_sides(29);
}

/// A formula with as many clauses as so many records can have: contacts joined
/// one after the other, and a NOT where the count is even.
fn most_clauses(records: usize) -> Vec<u8> {
    let joins = (records - 1) / 2;
    let turns = records - 1 - 2 * joins;
    [
        coil(0),
        [coil(0), vec![OR]].concat().repeat(joins),
        vec![NOT; turns],
    ]
    .concat()
}

/// The room that include/gustvane.h calls enough for every set is just enough
/// for the largest.
fn largest_set(tally: &mut Tally) {
    let sheet = [
        head(0, 1, 1),
        most_clauses(Sheet::RECORDS - 1),
        rung(0),
        coil(0),
        end_of_sheet(),
    ];
    let sheet = sheet.concat();
    let formula = most_clauses(Sheet::INVARIANT_RECORDS);
    let cert = [vec![0x50], formula, vec![0x51]].concat();
    let (got, _) = tally.translate(&"largest set", 2, &sheet, &cert, 11_511);
    tally.same("largest set", got, Answer::from(Ok(3_837)));
    let (got, _) = tally.translate(&"largest set", 2, &sheet, &cert, 11_510);
    tally.same("largest set", got, refusal(28, 0).into());
}
