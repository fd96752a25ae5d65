//! The samples from the bench and the slips seen there.

use crate::fixtures::*;
use crate::tally::{refused, Tally};
use second::ladder::Names;
use second::make::certificate;
use second::{check, dimacs, meaning, translate, Answer, Sheet};

pub fn run(tally: &mut Tally) {
    whole_files(tally);
    traces(tally);
    workspace(tally);
    set_two(tally);
    head(tally);
}

fn whole_files(tally: &mut Tally) {
    let (s, q) = (sheet_s(), certificate_q());
    tally.same("S", s.len(), 36);
    tally.same("P", sheet_p().len(), 22);
    tally.same("Q", q.len(), 113);
    tally.answers("S, Q", &s, &q, Answer::Accepted);
    tally.refuses("Q without its last byte", &s, &q[..112], 12, 112);
    tally.refuses("Q and one byte more", &s, &[&q[..], &[0]].concat(), 26, 113);
    tally.refuses("S without its last byte", &s[..35], &q, 2, 35);
    tally.refuses("empty sheet", &[], &q, 2, 0);
    tally.refuses("S, empty certificate", &s, &[], 12, 0);
    tally.refuses("QED without STEP", &s, &hex("50 12 01 51 41"), 22, 4);
}

fn traces(tally: &mut Tally) {
    let (p, n) = (sheet_p(), sheet_n());
    let cases = [
        (&p, "60 62 2F", Answer::Confirmed(1)),
        (&p, "60 61 00 00 62 2F", refused(25, 5)),
        (&p, "60 61 00 00 62 62 2F", Answer::Confirmed(2)),
        (&p, "60 62 61 00 00 62 2F", refused(25, 6)),
        (&p, "60 2F", refused(24, 1)),
        (&p, "60 61 01 00 62 2F", refused(14, 1)),
        (&n, "60 62 2F", refused(25, 2)),
        // Two broken scans: the first is named.
        (&p, "60 62 62 2F", Answer::Confirmed(1)),
        (&p, "60 62 61 00 00 62 62 2F", Answer::Confirmed(1)),
        (&n, "60 61 00 00 62 2F", Answer::Confirmed(1)),
    ];
    for (sheet, trace, wanted) in cases {
        tally.answers(trace, sheet, &hex(trace), wanted);
    }
}

fn workspace(tally: &mut Tally) {
    for length in [0, 1, 32_766, 32_767] {
        let mut work = vec![7; length];
        let got = check(&sheet_s(), &certificate_q(), &mut work);
        tally.same("short workspace", got, refused(1, 0));
        tally.right(
            "short workspace left alone",
            work.iter().all(|&place| place == 7),
        );
        let got = check(&[], &[], &mut work);
        tally.same("short workspace comes first", got, refused(1, 0));
    }
    tally.saw(1);
    let mut work = vec![7; 32_768];
    let got = check(&sheet_s(), &certificate_q(), &mut work);
    tally.same("workspace just enough", got, Answer::Accepted);
    tally.right("workspace zero", work.iter().all(|&place| place == 0));
}

fn set_two(tally: &mut Tally) {
    let cert = hex("50 12 01 51");
    let mut room = [9; 20];
    let got = translate(2, &sheet_s(), &cert, &mut room);
    tally.same("set 2 of S", got, Ok(6));
    let places = [
        7, 4, 0, 6, 5, 0, 26, 0, 0, 26, 0, 0, 28, 0, 0, 29, 0, 0, 9, 9,
    ];
    tally.same("places of set 2 of S", room, places);
    let text = "p cnf 14 6\n-3 2 0\n3 -2 0\n13 0\n13 0\n14 0\n-14 0\n";
    tally.same(
        "text of set 2 of S",
        dimacs(2, &sheet_s(), &cert),
        Ok(text.to_string()),
    );
    let text = "p cnf 14 3\n1 0\n13 0\n-13 0\n";
    tally.same(
        "text of set 1 of S",
        dimacs(1, &sheet_s(), &cert),
        Ok(text.to_string()),
    );
    let text = "p cnf 14 26\n-3 2 0\n3 -2 0\n-4 2 0\n4 -2 0\n-5 3 0\n5 -3 0\n-6 4 0\n-6 5 0\n\
                6 -4 -5 0\n-7 2 0\n7 -2 0\n-8 -7 0\n8 7 0\n-9 3 0\n9 -3 0\n-10 -9 0\n10 9 0\n\
                -11 8 0\n-11 10 0\n11 -8 -10 0\n12 -6 0\n12 -11 0\n-12 6 11 0\n13 0\n13 0\n-12 0\n";
    tally.same(
        "text of set 3 of S",
        dimacs(3, &sheet_s(), &cert),
        Ok(text.to_string()),
    );
}

fn head(tally: &mut Tally) {
    tally.refuses("257 coils", &hex("01 00 00 01 01 00 00"), &[], 4, 0);
    tally.refuses("256 coils", &hex("01 00 00 00 01 00 00"), &[], 2, 7);
}

pub fn slips(tally: &mut Tally) {
    rungs_in_order(tally);
    condition_after_the_scan(tally);
    inputs_change(tally);
    one_pivot_at_a_time(tally);
    refutations_start_afresh(tally);
}

fn rungs_in_order(tally: &mut Tally) {
    let names = Names::new("a b", "c d");
    let rungs = [("c", "a & !b"), ("d", "a | c")];
    let sheet = Sheet::read(&names.sheet("c", &rungs, "d")).expect("well formed");
    let mut coils = sheet.start.clone();
    meaning::scan(&sheet, &[false, false], &mut coils);
    tally.same("d reads the new c", coils, vec![false, false]);
    let confirmed = hex("60 62 2F");
    let bytes = names.sheet("c", &rungs, "d");
    tally.answers("d is off", &bytes, &confirmed, Answer::Confirmed(1));
    let own = Names::new("", "c");
    let toggled = own.sheet("", &[("c", "!c")], "!c");
    tally.answers(
        "own rung reads the old value",
        &toggled,
        &confirmed,
        Answer::Confirmed(1),
    );
}

fn condition_after_the_scan(tally: &mut Tally) {
    // The start breaks the condition, no scan does.
    let names = Names::new("", "c");
    let sheet = names.sheet("c", &[("c", "0")], "!c");
    tally.refuses(
        "start values are not judged",
        &sheet,
        &hex("60 62 2F"),
        25,
        2,
    );
    let read = Sheet::read(&sheet).expect("well formed");
    tally.same(
        "and so it is safe",
        second::brute::passes(&read, &always()),
        [true; 3],
    );
}

fn inputs_change(tally: &mut Tally) {
    let names = Names::new("i", "old new");
    let rungs = [("old", "new"), ("new", "i")];
    let sheet = names.sheet("", &rungs, "!(old & !new)");
    let trace = hex("60 61 00 00 62 62 2F");
    tally.answers(
        "inputs of two scans differ",
        &sheet,
        &trace,
        Answer::Confirmed(2),
    );
}

fn one_pivot_at_a_time(tally: &mut Tally) {
    // Set 2 of S: (3 -2) and (-3 2) give (-2 2), not the empty clause.
    let [first, _, third] = refutations_of_q();
    let taut = certificate(
        &always(),
        &[first.clone(), steps(&[(2, 1, 3)]), third.clone()],
    );
    tally.refuses("two pivots at once", &sheet_s(), &taut, 22, 19);
    // And (-2 2) with itself gives (-2 2) again, in either order of its literals.
    let row = [(2, 1, 3), (7, 7, 2), (8, 8, 2), (5, 6, 14)];
    let twice = certificate(&always(), &[first, steps(&row), third]);
    tally.answers("a clause with itself", &sheet_s(), &twice, Answer::Accepted);
}

fn refutations_start_afresh(tally: &mut Tally) {
    let [first, _, third] = refutations_of_q();
    // Clause 7 would be derived in this refutation; none is yet.
    let carried = certificate(&always(), &[first, steps(&[(7, 6, 14)]), third]);
    tally.refuses(
        "derived clauses are not carried",
        &sheet_s(),
        &carried,
        18,
        12,
    );
}
