//! Every kind byte at every spot of sheet and certificate.

use crate::fixtures::{hex, sheet_s};
use crate::tally::{refused, Tally};

/// What stands before the spot, and the kinds in their spot there.
type Spot = (&'static str, &'static str);

const IN_SHEET: [Spot; 7] = [
    ("", "01"),
    ("01 01 00 02 00 01 00", "02 10 11 12 13 14 15 20 21"),
    (
        "01 01 00 02 00 01 00 / 02 00 00 01",
        "02 10 11 12 13 14 15 20 21",
    ),
    (
        "01 01 00 02 00 01 00 / 02 00 00 01 / 10 00 00",
        "10 11 12 13 14 15 20 21",
    ),
    (
        "01 01 00 02 00 01 00 / 10 00 00 20 00 00",
        "10 11 12 13 14 15 20 21",
    ),
    (
        "01 01 00 02 00 01 00 / 10 00 00 20 00 00 / 12 00",
        "10 11 12 13 14 15 20 21",
    ),
    ("01 01 00 02 00 01 00 / 10 00 00 20 00 00 / 12 00 21", "2F"),
];

const IN_CERTIFICATE: [Spot; 11] = [
    ("", "50 60"),
    ("50", "11 12 13 14 15 51"),
    ("50 12 01", "11 12 13 14 15 51"),
    ("50 12 01 51", "40 41"),
    ("50 12 01 51 / 40 02 00 03 00 0D 00", "40 41"),
    ("50 12 01 51 / 40 02 00 03 00 0D 00 41", "40 41"),
    (
        "50 12 01 51 / 40 02 00 03 00 0D 00 41 / 40 05 00 06 00 0E 00 41",
        "40 41",
    ),
    ("60", "61 62 2F"),
    ("60 61 00 00", "61 62"),
    ("60 62", "61 62 2F"),
    ("60 61 00 00 62", "61 62 2F"),
];

/// Kinds whose body is not empty, by the table of the paper.
const WITH_BODY: &str = "01 02 10 11 12 20 40 61";

pub fn run(tally: &mut Tally) {
    for (before, in_spot) in IN_SHEET {
        every_kind(tally, before, in_spot, 2, 3, |tally, bytes| {
            tally.ask("spot", bytes, &[])
        });
    }
    for (before, in_spot) in IN_CERTIFICATE {
        every_kind(tally, before, in_spot, 12, 13, |tally, bytes| {
            tally.ask("spot", &sheet_s(), bytes)
        });
    }
    after_third_qed(tally);
    after_end(tally);
}

fn every_kind(
    tally: &mut Tally,
    before: &str,
    in_spot: &str,
    ends: u32,
    kind_fault: u32,
    ask: impl Fn(&mut Tally, &[u8]) -> second::Answer,
) {
    let place = hex(before).len();
    for kind in 0..=255u8 {
        let mut bytes = hex(before);
        bytes.push(kind);
        let got = ask(tally, &bytes);
        let what = format!("{before} then {kind:02X}");
        if !hex(in_spot).contains(&kind) {
            tally.same(what, got, refused(kind_fault, place));
        } else if hex(WITH_BODY).contains(&kind) {
            tally.same(what, got, refused(ends, place));
        } else {
            tally.right(
                what,
                got != refused(kind_fault, place) && got != refused(ends, place),
            );
        }
    }
}

fn after_third_qed(tally: &mut Tally) {
    let q = crate::fixtures::certificate_q();
    let before = &q[..112];
    for kind in 0..=255u8 {
        let bytes = [before, &[kind]].concat();
        let got = tally.ask("third QED", &sheet_s(), &bytes);
        let right = if kind == 0x2F {
            second::Answer::Accepted
        } else {
            refused(13, 112)
        };
        tally.same(format!("third QED then {kind:02X}"), got, right);
    }
}

fn after_end(tally: &mut Tally) {
    for byte in 0..=255u8 {
        let sheet = [&sheet_s()[..], &[byte]].concat();
        tally.refuses("byte after the sheet's END", &sheet, &[], 11, 36);
        let q = [&crate::fixtures::certificate_q()[..], &[byte]].concat();
        tally.refuses(
            "byte after a safety certificate's END",
            &sheet_s(),
            &q,
            26,
            113,
        );
        let trace = [&hex("60 62 2F")[..], &[byte]].concat();
        tally.refuses(
            "byte after a trace's END",
            &crate::fixtures::sheet_p(),
            &trace,
            26,
            3,
        );
    }
}
