//! Refusals 27 to 29 and what program and translator say besides.

use crate::fixtures::*;
use crate::tally::{refused, Tally};
use second::make::encode::{self, constant, head, step};
use second::{cnf, line, refusal, translate};

pub fn run(tally: &mut Tally) {
    file_bounds(tally);
    readable(tally);
    rooms(tally);
    set_numbers(tally);
    only_to_invariant(tally);
    printed_sets(tally);
    [27, 28, 29].into_iter().for_each(|no| tally.saw(no));
}

fn file_bounds(tally: &mut Tally) {
    let says = |sheet: &[u8], cert: &[u8]| line(Some(sheet), Some(cert));
    let (s, q) = (sheet_s(), certificate_q());
    let long = |bytes: &[u8], length| [bytes, &vec![0; length - bytes.len()]].concat();
    tally.same("S, Q", says(&s, &q), "accepted".to_string());
    tally.same(
        "sheet at its bound",
        says(&long(&s, 4_873), &q),
        "refused 11 at 36".to_string(),
    );
    tally.same(
        "sheet past it",
        says(&long(&s, 4_874), &q),
        "refused 27 at 0".to_string(),
    );
    tally.same(
        "certificate",
        says(&s, &long(&q, 49_218)),
        "refused 26 at 113".to_string(),
    );
    tally.same(
        "certificate past",
        says(&s, &long(&q, 49_219)),
        "refused 27 at 0".to_string(),
    );
    tally.same(
        "27 before 2",
        says(&[], &long(&q, 49_219)),
        "refused 27 at 0".to_string(),
    );
    // The longest trace there is: 64 scans with all of 256 inputs on.
    let sheet = [head(256, 1, 0), constant(0), encode::end_of_sheet()].concat();
    let trace = encode::trace(&vec![vec![true; 256]; 64]);
    tally.same("longest trace", trace.len(), 49_218);
    tally.same(
        "longest trace",
        says(&sheet, &trace),
        "confirmed scan 1".to_string(),
    );
    // The library has no bound of its own.
    tally.refuses("longer slices", &long(&s, 80_000), &q, 11, 36);
}

fn readable(tally: &mut Tally) {
    let (s, q) = (sheet_s(), certificate_q());
    let long = vec![0; 60_000];
    let says = |sheet, cert| line(sheet, cert);
    for (sheet, cert) in [(None, None), (Some(&s[..]), None), (None, Some(&q[..]))] {
        tally.same("unreadable", says(sheet, cert), "unreadable".to_string());
    }
    tally.same(
        "before 27",
        says(None, Some(&long)),
        "unreadable".to_string(),
    );
    tally.same(
        "before 27",
        says(Some(&long), None),
        "unreadable".to_string(),
    );
}

fn rooms(tally: &mut Tally) {
    let cert = hex("50 12 01 51");
    for (set, count) in [(1, 3), (2, 6), (3, 26)] {
        for length in [0, 1, 3 * count - 1] {
            let mut room = vec![0xFFFF; length];
            let got = translate(set, &sheet_s(), &cert, &mut room);
            tally.same("room short", got, Err(refusal(28, 0)));
            tally.right("nothing written", room.iter().all(|&place| place == 0xFFFF));
        }
        for length in [3 * count, 3 * count + 1, 3 * count + 50] {
            let mut room = vec![0xFFFF; length];
            let got = translate(set, &sheet_s(), &cert, &mut room);
            tally.same("room enough", got, Ok(count));
            tally.right(
                "room past it",
                room[3 * count..].iter().all(|&place| place == 0xFFFF),
            );
            tally.right(
                "first places",
                room[..3 * count].iter().all(|&place| place != 0xFFFF),
            );
        }
    }
}

fn set_numbers(tally: &mut Tally) {
    for set in [0, 4, 5, 256, 257, 65_537, u32::MAX] {
        let mut room = [9; 100];
        let got = translate(set, &sheet_s(), &certificate_q(), &mut room);
        tally.same("set number", got, Err(refusal(29, 0)));
        tally.same(
            "set number first",
            translate(set, &[], &[], &mut []),
            Err(refusal(29, 0)),
        );
        tally.right("nothing written", room == [9; 100]);
    }
    for set in 1..=3 {
        let got = translate(set, &sheet_s()[..35], &[], &mut []);
        tally.same("sheet before certificate", got, Err(refusal(2, 35)));
        let got = translate(set, &sheet_s(), &[], &mut []);
        tally.same("certificate before room", got, Err(refusal(12, 0)));
        let got = translate(set, &sheet_s(), &hex("60 62 2F"), &mut []);
        tally.same("TRACE", got, Err(refusal(13, 0)));
    }
}

fn only_to_invariant(tally: &mut Tally) {
    let q = certificate_q();
    let mut wanted = vec![0; 78];
    let _ = translate(3, &sheet_s(), &q, &mut wanted);
    for rest in [
        "",
        "00",
        "51",
        "50",
        "2F",
        "40 00 00",
        "41 41 41 41",
        "FF FF",
    ] {
        let cert = [&q[..4], &hex(rest)].concat();
        let mut room = vec![0; 78];
        tally.same(
            "later bytes",
            translate(3, &sheet_s(), &cert, &mut room),
            Ok(26),
        );
        tally.right("later bytes", room == wanted);
    }
}

fn printed_sets(tally: &mut Tally) {
    let (s, q) = (sheet_s(), certificate_q());
    let long = vec![0; 50_000];
    let says = |name: &[u8], sheet: &[u8], cert: &[u8]| cnf(Some(name), Some(sheet), Some(cert));
    let text = "p cnf 14 3\n1 0\n13 0\n-13 0\n".to_string();
    tally.same("set 1", says(b"1", &s, &q), text);
    for name in [&b"0"[..], b"4", b"", b"01", b"1 ", b"11", b"\x01", b"+1"] {
        tally.same(
            "set name",
            says(name, &s, &q),
            "refused 29 at 0\n".to_string(),
        );
        tally.same(
            "29 before 27",
            says(name, &long, &q),
            "refused 29 at 0\n".to_string(),
        );
        let none = cnf(Some(name), None, Some(&q));
        tally.same("unreadable before 29", none, "unreadable\n".to_string());
    }
    tally.same(
        "27 before 2",
        says(b"2", &long, &q),
        "refused 27 at 0\n".to_string(),
    );
    tally.same(
        "sheet",
        says(b"2", &s[..3], &[]),
        "refused 2 at 0\n".to_string(),
    );
    tally.same(
        "certificate",
        says(b"2", &s, &[]),
        "refused 12 at 0\n".to_string(),
    );
    tally.same(
        "no name",
        cnf(None, Some(&s), Some(&q)),
        "unreadable\n".to_string(),
    );
    // A STEP cut in a certificate of no interest to the translator.
    let cut = [&q[..4], &step(1, 2, 3)[..4]].concat();
    tally.right(
        "only to INVARIANT",
        says(b"3", &s, &cut).starts_with("p cnf 14 26\n"),
    );
    tally.answers("the checker minds", &s, &cut, refused(12, 4));
}
