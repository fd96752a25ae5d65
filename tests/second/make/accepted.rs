//! Certificates that must be accepted, for sheets small enough to search.

use super::prove::prove;
use super::random;
use super::rng::Rng;
use crate::brute::{choices, first_break, passes, reachable};
use crate::make::encode;
use crate::records::{AND, NOT, OR};
use crate::sheet::Sheet;

/// A small safe sheet and a certificate for it.
pub fn accepted(rng: &mut Rng) -> (Vec<u8>, Vec<u8>) {
    loop {
        let sheet = random::small_sheet(rng);
        if let Some(cert) = certificate_for(rng, &sheet) {
            return (sheet, cert);
        }
    }
}

/// A certificate for a small sheet, unless it is unsafe or the refutations
/// found are too long.
pub fn certificate_for(rng: &mut Rng, sheet: &[u8]) -> Option<Vec<u8>> {
    let invariant = invariant_for(rng, sheet)?;
    prove(sheet, &invariant)
}

/// An invariant that all three sets bear out: a random formula where one
/// serves, else one that spells the reachable states out.
pub fn invariant_for(rng: &mut Rng, sheet: &[u8]) -> Option<Vec<u8>> {
    let read = Sheet::read(sheet).ok()?;
    if first_break(&read).is_some() {
        return None;
    }
    for _ in 0..6 {
        let records = rng.between(1, 8);
        let formula = random::invariant(rng, read.coils, records);
        if passes(&read, &formula) == [true; 3] {
            return Some(formula);
        }
    }
    let states = reachable(&read);
    let spelt = if rng.one_in(2) {
        one_of(&states)
    } else {
        none_but(&states, read.coils)
    };
    (passes(&read, &spelt) == [true; 3]).then_some(spelt)
}

/// The coils are in one of these states.
fn one_of(states: &[Vec<bool>]) -> Vec<u8> {
    joined(states.iter().map(|state| described(state)), OR)
}

/// The coils are in no other state than these.
fn none_but(states: &[Vec<bool>], coils: usize) -> Vec<u8> {
    let others: Vec<_> = choices(coils)
        .filter(|state| !states.contains(state))
        .collect();
    if others.is_empty() {
        return encode::constant(1);
    }
    let denied = others.iter().map(|state| {
        let mut formula = described(state);
        formula.push(NOT);
        formula
    });
    joined(denied, AND)
}

fn described(state: &[bool]) -> Vec<u8> {
    let literals = state.iter().enumerate().map(|(coil, &on)| {
        let mut contact = encode::coil(coil);
        if !on {
            contact.push(NOT);
        }
        contact
    });
    joined(literals, AND)
}

/// Joins as it goes, so that the stack never holds more than a few values.
fn joined(formulas: impl Iterator<Item = Vec<u8>>, operator: u8) -> Vec<u8> {
    let mut bytes = Vec::new();
    for (index, formula) in formulas.enumerate() {
        bytes.extend(formula);
        if index > 0 {
            bytes.push(operator);
        }
    }
    bytes
}
