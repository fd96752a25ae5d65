//! Ladders from the sources, as sheets, with the verdicts found for them.

use crate::fixtures::always;
use crate::tally::Tally;
use second::brute::{confirm, first_break, passes};
use second::ladder::Names;
use second::make::{encode, prove};
use second::{meaning, Answer, Sheet};

type Rungs<'a> = &'a [(&'a str, &'a str)];

pub fn run(tally: &mut Tally) {
    pelican(tally);
    wrong_pelican(tally);
    pelicon(tally);
    dungeness(tally);
    appendix_b(tally);
    section_three_five(tally);
    three_levers(tally);
    slicing(tally);
    excluded_middle(tally);
}

/// A safe ladder: no break, the invariant passes, a certificate with it is
/// made and accepted, and the formulas that fail fail.
fn safe(tally: &mut Tally, what: &str, names: &Names, sheet: &[u8], good: &str, bad: &[&str]) {
    let read = Sheet::read(sheet).expect("well formed");
    tally.same(format!("{what}: verdict"), first_break(&read), None);
    let invariant = names.formula(good);
    tally.same(
        format!("{what}: {good}"),
        passes(&read, &invariant),
        [true; 3],
    );
    match prove(sheet, &invariant) {
        Some(cert) => tally.answers(format!("{what}: {good}"), sheet, &cert, Answer::Accepted),
        None => tally.right(
            format!("{what}: {good}: no refutation within the limits"),
            false,
        ),
    }
    for formula in bad {
        let formula_bytes = names.formula(formula);
        let fails = passes(&read, &formula_bytes) != [true; 3];
        tally.right(format!("{what}: {formula} is no invariant"), fails);
        let none = prove(sheet, &formula_bytes).is_none();
        tally.right(format!("{what}: {formula} is not proved"), none);
    }
    if read.coils + read.inputs <= 6 {
        let confirmed = confirm(sheet, &invariant).is_ok();
        tally.right(format!("{what}: clause sets"), confirmed);
    }
}

/// A ladder that breaks first at `scan`, on the inputs named.
fn breaks(tally: &mut Tally, what: &str, sheet: &[u8], scan: usize, inputs: &[Vec<bool>]) {
    let read = Sheet::read(sheet).expect("well formed");
    tally.same(
        format!("{what}: first break"),
        first_break(&read),
        Some(scan),
    );
    let trace = encode::trace(inputs);
    tally.answers(
        format!("{what}: trace"),
        sheet,
        &trace,
        Answer::Confirmed(scan),
    );
    tally.right(
        format!("{what}: not proved"),
        prove(sheet, &always()).is_none(),
    );
}

const PELICAN_COILS: &str = "crossing req tlag tlbg tlar tlbr plag plbg plar plbr audio";

const ONE_LIGHT: &str = "(tlag|tlar) & !(tlag&tlar) & (tlbg|tlbr) & !(tlbg&tlbr)";

fn pelican_rungs<'a>(tlag: &'a str, tlbg: &'a str) -> Vec<(&'a str, &'a str)> {
    let mut rungs = vec![("crossing", "req & !crossing"), ("req", "pressed & !req")];
    rungs.extend([("tlag", tlag), ("tlbg", tlbg)]);
    rungs.extend(["tlar", "tlbr", "plag", "plbg"].map(|coil| (coil, "crossing")));
    rungs.extend([
        ("plar", "!crossing"),
        ("plbr", "!crossing"),
        ("audio", "crossing"),
    ]);
    rungs
}

fn pelican(tally: &mut Tally) {
    let names = Names::new("pressed", PELICAN_COILS);
    let green = "!crossing & (!pressed | req)";
    let sheet = names.sheet("", &pelican_rungs(green, green), ONE_LIGHT);
    safe(
        tally,
        "pelican",
        &names,
        &sheet,
        "!(crossing & req)",
        &["1", ONE_LIGHT],
    );
    let read = Sheet::read(&sheet).expect("well formed");
    // All off breaks the condition, which shows whether the start is judged.
    tally.right(
        "pelican's start",
        !meaning::holds(&read, &[false], &read.start),
    );
}

fn wrong_pelican(tally: &mut Tally) {
    let names = Names::new("pressed", PELICAN_COILS);
    let rungs = pelican_rungs("!crossing", "!crossing & !pressed");
    let sheet = names.sheet("", &rungs, ONE_LIGHT);
    breaks(tally, "wrong pelican", &sheet, 1, &[vec![true]]);
}

fn pelicon(tally: &mut Tally) {
    let names = Names::new("pressed", "crossing requested plightg tlightg");
    let rungs: Rungs = &[
        ("crossing", "!crossing & requested"),
        ("requested", "pressed & !crossing"),
        ("plightg", "crossing"),
        ("tlightg", "!crossing & !requested"),
    ];
    let sheet = names.sheet("", rungs, "!plightg | !tlightg");
    safe(tally, "pelicon", &names, &sheet, "1", &[]);
    let read = Sheet::read(&sheet).expect("well formed");
    let mut coils = read.start.clone();
    for (pressed, wanted) in [(0, "0001"), (1, "0100"), (0, "1010"), (0, "0001")] {
        meaning::scan(&read, &[pressed == 1], &mut coils);
        let shown: String = coils.iter().map(|&on| if on { '1' } else { '0' }).collect();
        tally.same("pelicon's panel", shown, wanted.to_string());
    }
}

fn dungeness(tally: &mut Tally) {
    let names = Names::new("", "S0 S1 T0 T1");
    let rungs: Rungs = &[
        ("S0", "!S1 & T0"),
        ("S1", "!S0 & T1"),
        ("T0", "(T0&!S0)|(T1&S1)|(!S0&!S1)"),
        ("T1", "(T0&S0)|(T1&!S1)"),
    ];
    let sheet = names.sheet("", rungs, "!(S0&S1)");
    safe(tally, "dungeness", &names, &sheet, "1", &[]);
}

fn appendix_b(tally: &mut Tally) {
    let names = Names::new("", "x y");
    let rungs: Rungs = &[("x", "!x & y"), ("y", "y")];
    safe(
        tally,
        "B.1.1",
        &names,
        &names.sheet("x y", rungs, "x|y"),
        "y",
        &[],
    );
    breaks(
        tally,
        "B.1.1 x",
        &names.sheet("x y", rungs, "x"),
        1,
        &[vec![]],
    );
    breaks(
        tally,
        "B.1.1 !y",
        &names.sheet("x y", rungs, "!y"),
        1,
        &[vec![]],
    );

    let names = Names::new("", "a b c");
    let rungs: Rungs = &[("a", "a&b"), ("b", "a&b"), ("c", "a&b&!c")];
    let sheet = names.sheet("a b c", rungs, "(a&b)|c");
    safe(tally, "B.1.4", &names, &sheet, "a&b", &["1"]);
}

fn section_three_five(tally: &mut Tally) {
    let names = Names::new("", "a b c d");
    let rungs: Rungs = &[
        ("a", "(b&c&d)|(a&!b&!c)|(a&!b&d)"),
        ("b", "(!a&b)|(!a&c&!d)"),
        ("c", "(!b&c&!d)|(!a&b&d)|(b&c&d)|(a&!b&!d)"),
        ("d", "(!a&b&!c)|(!a&b&d)|(a&c&d)"),
    ];
    let p = "(!d|c|!b|!a)&(b|!d|a|!c)&(b|c|a|d)";
    let invariant = format!("{p} & !(!a&!b&d) & !(a&b&!d)");
    for on in ["a b c d", "a"] {
        let sheet = names.sheet(on, rungs, p);
        safe(tally, "section 3.5", &names, &sheet, &invariant, &["1"]);
    }
}

fn three_levers(tally: &mut Tally) {
    let names = Names::new("ip il is", "p l s");
    let rungs: Rungs = &[
        ("p", "(ip&((!p&!l&!s)|(p&l)))|(!ip&p)"),
        ("l", "(il&(!l|(l&s)))|(!il&l)"),
        ("s", "(is&(!s&l&!p))|(!is&s)"),
    ];
    let condition = "!s|(l&!p)";
    let sheet = names.sheet("", rungs, condition);
    safe(tally, "three levers", &names, &sheet, condition, &["1"]);
    levers_in_parallel(tally, condition);
}

/// With every old value kept first, the rungs read as if run in parallel.
fn levers_in_parallel(tally: &mut Tally, condition: &str) {
    let names = Names::new("ip il is", "oldp oldl olds p l s");
    let rungs: Rungs = &[
        ("oldp", "p"),
        ("oldl", "l"),
        ("olds", "s"),
        ("p", "(ip&((!oldp&!oldl&!olds)|(oldp&oldl)))|(!ip&oldp)"),
        ("l", "(il&(!oldl|(oldl&olds)))|(!il&oldl)"),
        ("s", "(is&(!olds&oldl&!oldp))|(!is&olds)"),
    ];
    let sheet = Sheet::read(&names.sheet("", rungs, condition)).expect("well formed");
    tally.same("three levers in parallel", first_break(&sheet), Some(2));
}

fn slicing(tally: &mut Tally) {
    let names = Names::new("i", "x y z");
    let whole = names.sheet("", &[("x", "y"), ("y", "z"), ("z", "i")], "!x");
    let inputs = [vec![true], vec![false], vec![false]];
    breaks(tally, "the whole ladder", &whole, 3, &inputs);
    let slice = names.sheet("", &[("x", "y"), ("y", "z")], "!x");
    safe(
        tally,
        "its bad slice",
        &names,
        &slice,
        "!x & !y & !z",
        &["1"],
    );
}

/// All inputs on, or not all on: 4n records.
fn excluded_middle(tally: &mut Tally) {
    for n in [1, 2, 8, 40, 256] {
        let inputs: Vec<String> = (0..n).map(|i| format!("i{i}")).collect();
        let names = Names::new(&inputs.join(" "), "c");
        let all = inputs.join("&");
        let sheet = names.sheet("c", &[], &format!("({all}) | !({all})"));
        let read = Sheet::read(&sheet).expect("well formed");
        tally.same("records of excluded middle", read.condition().len(), 4 * n);
        // Above this the refutation of set 3 needs more than 512 steps.
        if n <= 40 {
            let cert = prove(&sheet, &always()).unwrap_or_default();
            tally.answers("excluded middle", &sheet, &cert, Answer::Accepted);
        }
        if n == 256 {
            let longer = names.sheet("c", &[], &format!("!(({all}) | !({all}))"));
            let place = longer.len() - 3;
            tally.refuses("1,025 records", &longer, &[], 8, place);
        }
    }
}
