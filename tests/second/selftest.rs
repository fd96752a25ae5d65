//! Tests of the second program by itself: the samples and boundaries of
//! document 01, the ladders of its sources, and random cases against slow
//! programs that say the same in another way.

#[path = "selftest/certificate_limits.rs"]
mod certificate_limits;
#[path = "selftest/fixtures.rs"]
mod fixtures;
#[path = "selftest/ladders.rs"]
mod ladders;
#[path = "selftest/made.rs"]
mod made;
#[path = "selftest/order.rs"]
mod order;
#[path = "selftest/prefixes.rs"]
mod prefixes;
#[path = "selftest/program.rs"]
mod program;
#[path = "selftest/samples.rs"]
mod samples;
#[path = "selftest/sheet_limits.rs"]
mod sheet_limits;
#[path = "selftest/slow.rs"]
mod slow;
#[path = "selftest/spots.rs"]
mod spots;
#[path = "selftest/tally.rs"]
mod tally;

use tally::Tally;

type Section = (&'static str, fn(&mut Tally));

const SECTIONS: [Section; 14] = [
    ("samples", samples::run),
    ("slips", samples::slips),
    ("spots", spots::run),
    ("sheet limits", sheet_limits::run),
    ("certificate limits", certificate_limits::run),
    ("program and translator", program::run),
    ("order of faults", order::run),
    ("prefixes", prefixes::run),
    ("ladders", ladders::run),
    ("clause sets by brute force", made::clause_sets),
    ("accepted certificates", made::accepted_certificates),
    ("traces", made::traces),
    ("limits", made::limits),
    ("long refutations", made::long_refutations),
];

fn main() {
    let mut tally = Tally::default();
    for (name, section) in SECTIONS {
        let (before, began) = (tally.cases, std::time::Instant::now());
        section(&mut tally);
        let seconds = began.elapsed().as_secs_f32();
        println!("{name}: {} cases, {seconds:.2} s", tally.cases - before);
    }
    tally.all_numbers_seen();
    println!("{} cases, {} failed", tally.cases, tally.failures);
    if tally.failures > 0 {
        std::process::exit(1);
    }
}
