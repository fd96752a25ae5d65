//! Compares the static library, and the programs where they are built, with the
//! second program: verdicts, translations, and every place of lent memory.
//!
//!     compare [--seed N] [--cases N] [--programs FOLDER --folder FOLDER]
//!
//! The first difference is printed with its inputs and ends the run with 1.

mod answer;
mod boundaries;
mod case;
mod certificate_sides;
mod child;
mod confirm;
mod counts;
mod damage;
mod files;
mod large;
mod lent;
mod library;
mod made;
mod probes;
mod programs;
mod sheet_sides;
mod tally;

// Cases that the second program's selftest asks of that program alone; here
// they are asked of both, and the answers that the cases name hold for both.
#[path = "../second/selftest/certificate_limits.rs"]
mod certificate_limits;
#[path = "../second/selftest/fixtures.rs"]
mod fixtures;
#[path = "../second/selftest/ladders.rs"]
mod ladders;
#[path = "../second/selftest/order.rs"]
mod order;
#[path = "../second/selftest/prefixes.rs"]
mod prefixes;
#[path = "../second/selftest/samples.rs"]
mod samples;
#[path = "../second/selftest/sheet_limits.rs"]
mod sheet_limits;
#[path = "../second/selftest/spots.rs"]
mod spots;

use std::path::PathBuf;
use std::time::Instant;
use tally::Tally;

type Part = (&'static str, fn(&mut Tally));

const PARTS: [Part; 18] = [
    ("samples", samples::run),
    ("slips", samples::slips),
    ("both sides of each refusal", boundaries::run),
    ("every kind at every spot", spots::run),
    ("limits of sheets", sheet_limits::run),
    ("limits of certificates", certificate_limits::run),
    ("order of faults", order::run),
    ("every prefix", prefixes::run),
    ("ladders of the sources", ladders::run),
    ("every byte changed", damage::bytes),
    ("every record changed", damage::records),
    ("accepted and damaged", made::accepted),
    ("medium sheets", made::medium),
    ("traces", made::traces),
    ("records in no order", made::soup),
    ("sheets at the limits", made::limits),
    ("long refutations", made::long),
    ("long refutations of large sheets", made::long_and_large),
];

struct Words {
    seed: u64,
    cases: usize,
    programs: Option<PathBuf>,
    folder: Option<PathBuf>,
}

fn main() {
    let words = words();
    println!("seed {}, cases {}", words.seed, words.cases);
    let mut tally = Tally::new(words.seed, words.cases);
    for (name, run) in PARTS {
        part(&mut tally, name, run);
    }
    part(&mut tally, "brute force", confirm::run);
    if let (Some(built), Some(folder)) = (&words.programs, &words.folder) {
        part(&mut tally, "programs", |tally| {
            programs::run(tally, built, folder)
        });
    }
    tally.counts.print();
    let missing = tally.counts.missing();
    if !missing.is_empty() {
        println!("WRONG: refusals not seen, or not on both sides: {missing:?}");
        std::process::exit(1);
    }
    println!("seed {}: no difference", words.seed);
}

/// The name is printed first: it tells where a library that crashes did so.
fn part(tally: &mut Tally, name: &'static str, run: impl FnOnce(&mut Tally)) {
    print!("{name}: ");
    let _ = std::io::Write::flush(&mut std::io::stdout());
    tally.part = name;
    let (verdicts, translations) = (tally.counts.verdicts, tally.counts.translations);
    let began = Instant::now();
    run(tally);
    println!(
        "{} verdicts, {} translations, {:.1} s",
        tally.counts.verdicts.all() - verdicts.all(),
        tally.counts.translations.all() - translations.all(),
        began.elapsed().as_secs_f32()
    );
}

fn words() -> Words {
    let mut words = Words {
        seed: 20_260_101,
        cases: 3_000,
        programs: None,
        folder: None,
    };
    let mut given = std::env::args().skip(1);
    while let Some(word) = given.next() {
        let value = given.next().unwrap_or_else(|| usage());
        match word.as_str() {
            "--seed" => words.seed = value.parse().unwrap_or_else(|_| usage()),
            "--cases" => words.cases = value.parse().unwrap_or_else(|_| usage()),
            "--programs" => words.programs = Some(value.into()),
            "--folder" => words.folder = Some(value.into()),
            _ => usage(),
        }
    }
    words
}

fn usage() -> ! {
    eprintln!("compare [--seed N] [--cases N] [--programs FOLDER --folder FOLDER]");
    std::process::exit(2)
}
