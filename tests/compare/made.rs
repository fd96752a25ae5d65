//! Random cases, from the seed.

use crate::large::large;
use crate::probes::probes;
use crate::tally::Tally;
use second::make::{self, encode, Limit, Rng, Width};
use second::records::{INVARIANT, NOT, QED, SAFE, TRACE};
use second::{Answer, Sheet};

/// Small sheets with certificates that are accepted, and both with damage.
pub fn accepted(tally: &mut Tally) {
    let mut other = crate::fixtures::sheet_s();
    for round in 0..tally.rounds {
        let (sheet, cert) = make::accepted(&mut tally.rng);
        tally.answers("accepted", &sheet, &cert, Answer::Accepted);
        tally.ask("another's certificate", &other, &cert);
        for _ in 0..6 {
            damaged(tally, &sheet, &cert);
        }
        if round % 40 == 0 {
            prefixes(tally, &sheet, &cert);
            tally.translations(&"accepted", &sheet, &cert);
        }
        other = sheet;
    }
}

/// A damaged certificate for a sheet, and the certificate for a damaged sheet.
fn damaged(tally: &mut Tally, sheet: &[u8], cert: &[u8]) {
    let bytes = make::damaged(&mut tally.rng, cert);
    tally.ask("damaged certificate", sheet, &bytes);
    let bytes = make::damaged(&mut tally.rng, sheet);
    tally.ask("damaged sheet", &bytes, cert);
}

/// Every proper prefix of both. What is cut off still lies behind the prefix in
/// memory, so to read past the end would show.
fn prefixes(tally: &mut Tally, sheet: &[u8], cert: &[u8]) {
    for cut in make::truncations(cert) {
        tally.ask("prefix of a certificate", sheet, cut);
    }
    for cut in make::truncations(sheet) {
        tally.ask("prefix of a sheet", cut, cert);
    }
}

/// Sheets of dozens of rungs with invariants that need not hold and steps that
/// seldom are right.
pub fn medium(tally: &mut Tally) {
    for round in 0..tally.rounds / 4 {
        let sheet = make::medium_sheet(&mut tally.rng);
        let records = tally.rng.between(1, 60);
        let cert = some_certificate(&mut tally.rng, &sheet, records);
        tally.ask("medium", &sheet, &cert);
        for _ in 0..4 {
            damaged(tally, &sheet, &cert);
        }
        if round % 10 == 0 {
            tally.translations(&"medium", &sheet, &cert);
        }
        if round % 80 == 0 {
            prefixes(tally, &sheet, &cert);
        }
    }
}

/// A random invariant of so many records and a few random steps.
fn some_certificate(rng: &mut Rng, sheet: &[u8], records: usize) -> Vec<u8> {
    let coils = Sheet::read(sheet).expect("made well formed").coils;
    let mut cert = vec![SAFE];
    cert.extend(make::invariant(rng, coils, records));
    cert.push(INVARIANT);
    for _ in 0..rng.below(4) {
        let mut number = || rng.between(1, 60);
        cert.extend(encode::step(number(), number(), number()));
    }
    cert.push(QED);
    cert
}

pub fn traces(tally: &mut Tally) {
    for round in 0..tally.rounds / 2 {
        let sheet = match round % 3 {
            0 => make::medium_sheet(&mut tally.rng),
            _ => make::small_sheet(&mut tally.rng),
        };
        let inputs = Sheet::read(&sheet).expect("made well formed").inputs;
        let scans = tally.rng.pick(&[0, 1, 2, 3, 8, 63, 64, 65]);
        let trace = make::trace(&mut tally.rng, inputs, scans);
        trace_and_damage(tally, &sheet, &trace);
        if let Some(trace) = make::confirmed_trace(&mut tally.rng, &sheet) {
            let got = tally.ask("confirmed", &sheet, &trace);
            tally.right("confirmed", matches!(got, Answer::Confirmed(_)));
            trace_and_damage(tally, &sheet, &trace);
        }
        if round % 60 == 0 {
            prefixes(tally, &sheet, &trace);
        }
    }
}

fn trace_and_damage(tally: &mut Tally, sheet: &[u8], trace: &[u8]) {
    tally.ask("trace", sheet, trace);
    for _ in 0..3 {
        damaged(tally, sheet, trace);
    }
}

/// Records in no order.
pub fn soup(tally: &mut Tally) {
    for _ in 0..tally.rounds {
        let rng = &mut tally.rng;
        let head = encode::head(rng.below(3), rng.between(1, 3), rng.below(3));
        let records = rng.between(0, 14);
        let sheet = make::soup(rng, head, records);
        let opening = vec![rng.pick(&[SAFE, TRACE])];
        let cert = make::soup(rng, opening, records);
        let good = make::small_sheet(rng);
        tally.ask("soup", &sheet, &cert);
        tally.ask("soup", &good, &cert);
        let bytes = some_bytes(&mut tally.rng);
        tally.ask("any bytes", &bytes, &cert);
        tally.ask("any bytes", &good, &bytes);
    }
}

fn some_bytes(rng: &mut Rng) -> Vec<u8> {
    let length = rng.below(40);
    (0..length).map(|_| rng.next() as u8).collect()
}

/// Sheets at each limit, with traces of 64 scans and invariants of 256 records.
pub fn limits(tally: &mut Tally) {
    for _ in 0..1 + tally.rounds / 200 {
        for limit in Limit::EACH {
            at_limit(tally, limit);
        }
    }
}

fn at_limit(tally: &mut Tally, limit: Limit) {
    let sheet = make::sheet_at(&mut tally.rng, limit);
    let inputs = Sheet::read(&sheet).expect("made well formed").inputs;
    for scans in [1, 64] {
        let trace = make::trace(&mut tally.rng, inputs, scans);
        trace_and_damage(tally, &sheet, &trace);
    }
    for records in [255, 256] {
        let cert = some_certificate(&mut tally.rng, &sheet, records);
        tally.ask(format!("{limit:?}"), &sheet, &cert);
        tally.translations(&format!("{limit:?}"), &sheet, &cert);
        for _ in 0..6 {
            damaged(tally, &sheet, &cert);
        }
    }
    let mut longer = some_certificate(&mut tally.rng, &sheet, 256);
    let closing = longer.iter().rposition(|&byte| byte == INVARIANT);
    longer.insert(closing.expect("has an invariant"), NOT);
    tally.ask("257 records", &sheet, &longer);
}

/// Refutations of 400 to 512 steps, narrow and wide.
pub fn long(tally: &mut Tally) {
    for round in 0..1 + tally.rounds / 40 {
        for width in [Width::Narrow, Width::Wide] {
            let (sheet, cert) = make::benchmark(&mut tally.rng, width);
            long_refutations(tally, &sheet, &cert);
            // One is enough: it has ten thousand prefixes.
            if round == 0 && width == Width::Narrow {
                prefixes(tally, &sheet, &cert);
            }
        }
    }
}

/// The same for sheets that are as large as may be.
pub fn long_and_large(tally: &mut Tally) {
    let mut found = 0;
    for _ in 0..1 + tally.rounds / 300 {
        for rungs in [1, 7, Sheet::COILS] {
            let width = tally.rng.pick(&[Width::Narrow, Width::Wide]);
            if let Some((sheet, cert)) = large(&mut tally.rng, rungs, width) {
                found += 1;
                long_refutations(tally, &sheet, &cert);
            }
        }
    }
    tally.right("a certificate for a large sheet is found", found > 0);
}

fn long_refutations(tally: &mut Tally, sheet: &[u8], cert: &[u8]) {
    tally.answers("long", sheet, cert, Answer::Accepted);
    for _ in 0..10 {
        damaged(tally, sheet, cert);
    }
    if let Some(cert) = make::too_wide(&mut tally.rng, sheet, cert) {
        tally.ask("too wide", sheet, &cert);
    }
    probes(tally, sheet, cert);
}
