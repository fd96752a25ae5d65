//! The library against the second program: time, workspace and stack for
//! certificates whose three refutations have 400 to 512 steps each.
//!
//!     bench [--seed N] [--certificates N] [--rounds N]

#[path = "../compare/answer.rs"]
mod answer;
#[path = "../compare/library.rs"]
mod library;
mod probe;

use answer::Answer;
use second::make::{self, Limit, Rng, Width};
use second::records::{INVARIANT, SAFE};
use second::Sheet;
use std::time::Instant;

struct Words {
    seed: u64,
    certificates: usize,
    rounds: usize,
}

type Check = fn(&[u8], &[u8], &mut [u16]) -> Answer;
type Translate = fn(u32, &[u8], &[u8], &mut [u16]) -> Answer;

/// The two that are measured, in the order of every row printed.
const CHECKS: [Check; 2] = [library::check, |sheet, cert, work| {
    second::check(sheet, cert, work).into()
}];
const TRANSLATES: [Translate; 2] = [library::translate, |set, sheet, cert, room| {
    second::translate(set, sheet, cert, room).into()
}];

const ACCEPTED: Answer = Answer {
    kind: answer::DONE,
    number: 0,
    place: 0,
};

struct Job {
    sheet: Vec<u8>,
    cert: Vec<u8>,
    width: Width,
    /// Nanoseconds of each round, for each of the two.
    times: [Vec<u64>; 2],
}

fn main() {
    let words = words();
    let mut rng = Rng::new(words.seed);
    let mut jobs = jobs(&mut rng, words.certificates);
    for round in 0..words.rounds {
        one_round(&mut jobs, round);
    }
    println!(
        "{} certificates of 400 to 512 steps a refutation, seed {}, {} rounds in turn",
        words.certificates, words.seed, words.rounds
    );
    print_times(&jobs);
    print_places(&jobs);
    print_stack(&mut rng, &jobs);
}

/// Narrow and wide by turns.
fn jobs(rng: &mut Rng, count: usize) -> Vec<Job> {
    let widths = [Width::Narrow, Width::Wide].into_iter().cycle().take(count);
    let job = |width| {
        let (sheet, cert) = make::benchmark(rng, width);
        Job {
            sheet,
            cert,
            width,
            times: [Vec::new(), Vec::new()],
        }
    };
    widths.map(job).collect()
}

/// Each certificate with both, one right after the other; which goes first
/// changes from round to round, so that neither always finds warm memory.
fn one_round(jobs: &mut [Job], round: usize) {
    let mut work = vec![0; Sheet::WORKSPACE];
    for (index, job) in jobs.iter_mut().enumerate() {
        for turn in 0..2 {
            let which = (round + index + turn) % 2;
            let began = Instant::now();
            let answer = CHECKS[which](&job.sheet, &job.cert, &mut work);
            let time = began.elapsed().as_nanos() as u64;
            assert_eq!(answer, ACCEPTED, "program {which}, certificate {index}");
            job.times[which].push(time);
        }
    }
}

/// The middle one: a round in which the machine did something else is no matter.
fn middle(times: &[u64]) -> u64 {
    let mut times = times.to_vec();
    times.sort();
    times[times.len() / 2]
}

/// Microseconds a certificate, for each of the two.
fn mean(jobs: &[&Job]) -> [f64; 2] {
    [0, 1].map(|which| {
        let total: u64 = jobs.iter().map(|job| middle(&job.times[which])).sum();
        total as f64 / 1_000.0 / jobs.len() as f64
    })
}

fn print_times(jobs: &[Job]) {
    println!("µs a certificate     library    second     ratio");
    for width in [Width::Narrow, Width::Wide] {
        let these: Vec<&Job> = jobs.iter().filter(|job| job.width == width).collect();
        print_row(&format!("{width:?}").to_lowercase(), &these);
    }
    print_row("all", &jobs.iter().collect::<Vec<_>>());
}

fn print_row(name: &str, jobs: &[&Job]) {
    if !jobs.is_empty() {
        let [ours, theirs] = mean(jobs);
        println!("{name:<20}{ours:>8.1}{theirs:>10.1}{:>10.2}", ours / theirs);
    }
}

/// A value that no checker puts into a workspace: it is no literal and no count.
const RUBBISH: u16 = 0xFFFF;

/// Passes over all certificates while the workspace is watched.
const PASSES: usize = 10;

fn print_places(jobs: &[Job]) {
    let mut work = vec![0; Sheet::WORKSPACE];
    let [ours, theirs] = CHECKS.map(|check| {
        probe::places_in_use(&mut work, RUBBISH, |work| {
            for job in jobs.iter().cycle().take(PASSES * jobs.len()) {
                work.fill(RUBBISH);
                check(&job.sheet, &job.cert, work);
            }
        })
    });
    let shown = |(count, highest): (usize, usize)| format!("{count} seen in use, up to {highest}");
    println!("workspace, of {} places lent", Sheet::WORKSPACE);
    println!("  library: {}", shown(ours));
    println!("  second:  {}", shown(theirs));
}

fn print_stack(rng: &mut Rng, jobs: &[Job]) {
    let mut pairs: Vec<(Vec<u8>, Vec<u8>)> = Vec::new();
    for job in jobs.iter().take(20) {
        pairs.push((job.sheet.clone(), job.cert.clone()));
    }
    for limit in Limit::EACH {
        pairs.extend(at_limit(rng, limit));
    }
    let [ours, theirs] = CHECKS.map(|check| most_stack(&pairs, check));
    println!("stack of the checker, bytes:     library {ours}, second {theirs}");
    let [ours, theirs] = TRANSLATES
        .map(|translate| most_stack(&pairs, |sheet, cert, work| translate(2, sheet, cert, work)));
    println!("stack of the translator, bytes:  library {ours}, second {theirs}");
}

/// A sheet at a limit with a long trace, and with an invariant of 256 records.
fn at_limit(rng: &mut Rng, limit: Limit) -> [(Vec<u8>, Vec<u8>); 2] {
    let sheet = make::sheet_at(rng, limit);
    let read = Sheet::read(&sheet).expect("made well formed");
    let trace = make::trace(rng, read.inputs, Sheet::SCANS);
    let formula = make::invariant(rng, read.coils, Sheet::INVARIANT_RECORDS);
    let cert = [vec![SAFE], formula, vec![INVARIANT]].concat();
    [(sheet.clone(), trace), (sheet, cert)]
}

fn most_stack(
    pairs: &[(Vec<u8>, Vec<u8>)],
    call: impl Fn(&[u8], &[u8], &mut [u16]) -> Answer,
) -> usize {
    let mut work = vec![0; Sheet::WORKSPACE];
    let used = pairs.iter().map(|(sheet, cert)| {
        probe::stack(&mut || {
            call(sheet, cert, &mut work);
        })
    });
    used.max().unwrap_or(0)
}

fn words() -> Words {
    let mut words = Words {
        seed: 1,
        certificates: 1_000,
        rounds: 21,
    };
    let mut given = std::env::args().skip(1);
    while let Some(word) = given.next() {
        let value = given.next().unwrap_or_else(|| usage());
        let number: u64 = value.parse().unwrap_or_else(|_| usage());
        match word.as_str() {
            "--seed" => words.seed = number,
            "--certificates" => words.certificates = number.max(1) as usize,
            "--rounds" => words.rounds = number.max(1) as usize,
            _ => usage(),
        }
    }
    words
}

fn usage() -> ! {
    eprintln!("bench [--seed N] [--certificates N] [--rounds N]");
    std::process::exit(2)
}
