//! The translator: one clause set, written for a prover.

use crate::certificate::{read_invariant, Invariant};
use crate::clauses::Sets;
use crate::records::{Reader, IN_CERTIFICATE, SAFE};
use crate::sheet::Sheet;
use crate::{refusal, Refusal};

/// Writes three places a clause and answers the count of clauses.
pub fn translate(set: u32, sheet: &[u8], cert: &[u8], room: &mut [u16]) -> Result<usize, Refusal> {
    if !(1..=3).contains(&set) {
        return Err(refusal(29, 0));
    }
    let (sheet, invariant) = read_both(sheet, cert)?;
    let sets = Sets::new(&sheet, &invariant);
    let count = sets.count(set);
    if room.len() < 3 * count {
        return Err(refusal(28, 0));
    }
    let mut places = room.chunks_exact_mut(3);
    sets.give(set, &mut |clause| {
        if let Some(place) = places.next() {
            place.copy_from_slice(&clause);
        }
    });
    Ok(count)
}

/// The whole sheet, and the certificate as far as INVARIANT.
pub fn read_both(sheet: &[u8], cert: &[u8]) -> Result<(Sheet, Invariant), Refusal> {
    let sheet = Sheet::read(sheet)?;
    let mut reader = Reader::new(cert, &IN_CERTIFICATE);
    reader.next(|kind| kind == SAFE)?;
    let invariant = read_invariant(&mut reader, &sheet)?;
    Ok((sheet, invariant))
}
