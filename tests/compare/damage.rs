//! The samples with every single byte changed, and with every record taken
//! out, doubled, swapped with another or followed by one of any kind.

use crate::fixtures::{certificate_q, hex, sheet_p, sheet_s};
use crate::tally::Tally;
use second::make::damage::split;
use second::make::encode::record;
use second::records::{BODY, NO_KIND};

/// Whether a sheet or a certificate is damaged; the other one stays whole.
#[derive(Clone, Copy)]
enum Damaged<'a> {
    Sheet { certificate: &'a [u8] },
    Certificate { sheet: &'a [u8] },
}

impl Damaged<'_> {
    fn ask(self, tally: &mut Tally, what: &str, bytes: &[u8]) {
        match self {
            Damaged::Sheet { certificate } => tally.ask(what, bytes, certificate),
            Damaged::Certificate { sheet } => tally.ask(what, sheet, bytes),
        };
    }
}

pub fn bytes(tally: &mut Tally) {
    each_sample(tally, every_byte);
}

pub fn records(tally: &mut Tally) {
    each_sample(tally, every_record);
}

fn each_sample(tally: &mut Tally, damage: fn(&mut Tally, &[u8], Damaged)) {
    let (s, q, p) = (sheet_s(), certificate_q(), sheet_p());
    let trace = hex("60 61 00 00 62 62 61 00 00 62 62 2F");
    damage(tally, &s, Damaged::Sheet { certificate: &q });
    let certificate = &trace;
    damage(tally, &p, Damaged::Sheet { certificate });
    damage(tally, &q, Damaged::Certificate { sheet: &s });
    damage(tally, &trace, Damaged::Certificate { sheet: &p });
}

fn every_byte(tally: &mut Tally, whole: &[u8], damaged: Damaged) {
    let mut bytes = whole.to_vec();
    for at in 0..whole.len() {
        for value in 0..=255 {
            bytes[at] = value;
            damaged.ask(tally, "a byte changed", &bytes);
        }
        bytes[at] = whole[at];
    }
}

fn every_record(tally: &mut Tally, whole: &[u8], damaged: Damaged) {
    let records = split(whole);
    for at in 0..records.len() {
        let mut row = records.clone();
        let taken = row.remove(at);
        damaged.ask(tally, "a record taken out", &row.concat());
        row.splice(at..at, [taken.clone(), taken]);
        damaged.ask(tally, "a record doubled", &row.concat());
        for other in 0..at {
            let mut row = records.clone();
            row.swap(at, other);
            damaged.ask(tally, "two records swapped", &row.concat());
        }
        put_in(tally, &records, at, damaged);
    }
}

/// A record of each kind, with small numbers, before the one at `at`.
fn put_in(tally: &mut Tally, records: &[Vec<u8>], at: usize, damaged: Damaged) {
    let kinds = (0..=255u8).filter(|&kind| BODY[kind as usize] != NO_KIND);
    for kind in kinds {
        for number in 0..3 {
            let mut new = record(kind, &[number; 3]);
            new.truncate(1 + BODY[kind as usize] as usize);
            let mut row = records.to_vec();
            row.insert(at, new);
            damaged.ask(tally, "a record put in", &row.concat());
        }
    }
}
