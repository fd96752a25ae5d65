//! Sheets and invariants as large as may be with certificates that are still
//! accepted: their steps name the highest variables and clauses there are.

use second::make::random::formula;
use second::make::{self, encode, Rng, Width};
use second::records::{AND, NOT, OR};
use second::Sheet;

/// A sheet of so many rungs and a certificate for it, if one is found.
pub fn large(rng: &mut Rng, rungs: usize, width: Width) -> Option<(Vec<u8>, Vec<u8>)> {
    let sheet = sheet(rng, rungs);
    let invariant = invariant(rng);
    let steps = [0; 3].map(|_| rng.pick(&[400, 511, 512]));
    let cert = make::lengthened(rng, &sheet, &invariant, steps, width)?;
    Some((sheet, cert))
}

/// On or off, whatever the coil: four records.
const EITHER: usize = 4;

fn either(rng: &mut Rng) -> Vec<u8> {
    let contact = encode::coil(rng.below(Sheet::COILS));
    [&contact[..], &contact, &[NOT, OR]].concat()
}

/// All inputs and coils, all records, and a condition that always holds.
fn sheet(rng: &mut Rng, rungs: usize) -> Vec<u8> {
    let mut bytes = encode::head(Sheet::INPUTS, Sheet::COILS, rungs);
    for coil in (0..Sheet::COILS).step_by(3) {
        bytes.extend(encode::start(coil, 1));
    }
    let records = Sheet::RECORDS - EITHER;
    for rung in 0..rungs {
        // Shares whose sum is the whole.
        let share = records * (rung + 1) / rungs - records * rung / rungs;
        bytes.extend(match rungs {
            1 => chain(rng, share),
            _ => formula(rng, Sheet::INPUTS, Sheet::COILS, share, rung % 2 == 0),
        });
        bytes.extend(encode::rung(Sheet::COILS - 1 - rung));
    }
    bytes.extend(either(rng));
    bytes.extend(encode::end_of_sheet());
    bytes
}

/// Contacts joined one after the other: no formula of so many records has more
/// clauses. A NOT makes up for an even number.
fn chain(rng: &mut Rng, records: usize) -> Vec<u8> {
    let mut bytes = encode::coil(rng.below(Sheet::COILS));
    for _ in 0..(records - 1) / 2 {
        bytes.extend(encode::coil(rng.below(Sheet::COILS)));
        bytes.push(rng.pick(&[AND, OR]));
    }
    if records % 2 == 0 {
        bytes.push(NOT);
    }
    bytes
}

/// All records of an invariant, which always holds.
fn invariant(rng: &mut Rng) -> Vec<u8> {
    let records = Sheet::INVARIANT_RECORDS - EITHER - 1;
    let mut bytes = chain(rng, records);
    bytes.extend(either(rng));
    bytes.push(OR);
    bytes
}
