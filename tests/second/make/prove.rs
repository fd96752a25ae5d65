//! Certificates for invariants that hold up.

use super::encode;
pub use super::resolution::{refute, resolvent, Literals, Step};
use crate::clauses::CLAUSES;
use crate::records::{END, INVARIANT, QED, SAFE};
use crate::translator::translate;

/// The certificate of an invariant and its three refutations.
pub fn certificate(invariant: &[u8], refutations: &[Vec<Step>; 3]) -> Vec<u8> {
    let mut bytes = vec![SAFE];
    bytes.extend(invariant);
    bytes.push(INVARIANT);
    for refutation in refutations {
        for step in refutation {
            bytes.extend(encode::step(step.first, step.second, step.pivot));
        }
        bytes.push(QED);
    }
    bytes.push(END);
    bytes
}

/// A certificate for an invariant (its formula records), if the invariant is
/// good and refutations within the limits are found.
pub fn prove(sheet: &[u8], invariant: &[u8]) -> Option<Vec<u8>> {
    let mut refutations = [Vec::new(), Vec::new(), Vec::new()];
    for (index, refutation) in refutations.iter_mut().enumerate() {
        *refutation = refute(&clause_set(index as u32 + 1, sheet, invariant)?)?;
    }
    Some(certificate(invariant, &refutations))
}

/// The clauses of a set without filler.
pub fn clause_set(set: u32, sheet: &[u8], invariant: &[u8]) -> Option<Vec<Literals>> {
    let mut cert = vec![SAFE];
    cert.extend(invariant);
    cert.push(INVARIANT);
    let mut room = vec![0; 3 * CLAUSES];
    let count = translate(set, sheet, &cert, &mut room).ok()?;
    let clauses = room.chunks_exact(3).take(count);
    Some(
        clauses
            .map(|clause| clause.iter().copied().filter(|&l| l != 0).collect())
            .collect(),
    )
}
