//! Random well-formed sheets, invariants and traces.

use super::encode;
use super::rng::Rng;
use crate::meaning::Replay;
use crate::records::{AND, NOT, OR};
use crate::sheet::Sheet;

/// The size of a random sheet. `records` is at least `rungs + 1`.
#[derive(Clone, Copy)]
pub struct Shape {
    pub inputs: usize,
    pub coils: usize,
    pub rungs: usize,
    pub records: usize,
    /// One START in so many coils; 1 gives every coil a START.
    pub one_start_in: usize,
    /// Formulas long enough for it fill the stack to its limit.
    pub deep: bool,
}

/// The limits that a sheet can be made to reach.
#[derive(Clone, Copy, Debug, PartialEq, Eq)]
pub enum Limit {
    Inputs,
    Coils,
    Rungs,
    Records,
    Stack,
    All,
}

impl Limit {
    pub const EACH: [Limit; 6] = [
        Limit::Inputs,
        Limit::Coils,
        Limit::Rungs,
        Limit::Records,
        Limit::Stack,
        Limit::All,
    ];
}

/// Few enough inputs and coils for every state to be tried.
pub fn small_sheet(rng: &mut Rng) -> Vec<u8> {
    let coils = rng.between(1, 4);
    let rungs = rng.between(0, coils);
    let shape = Shape {
        inputs: rng.between(0, 3),
        coils,
        rungs,
        records: rungs + 1 + rng.between(0, 14),
        one_start_in: 3,
        deep: false,
    };
    sheet(rng, shape)
}

pub fn medium_sheet(rng: &mut Rng) -> Vec<u8> {
    let coils = rng.between(5, 40);
    let rungs = rng.between(0, coils);
    let shape = Shape {
        inputs: rng.between(0, 20),
        coils,
        rungs,
        records: rungs + 1 + rng.between(0, 200),
        one_start_in: 3,
        deep: rng.one_in(4),
    };
    sheet(rng, shape)
}

pub fn sheet_at(rng: &mut Rng, limit: Limit) -> Vec<u8> {
    let usual = Shape {
        inputs: 6,
        coils: 8,
        rungs: 5,
        records: 80,
        one_start_in: 3,
        deep: false,
    };
    let shape = match limit {
        Limit::Inputs => Shape {
            inputs: Sheet::INPUTS,
            ..usual
        },
        Limit::Coils => Shape {
            coils: Sheet::COILS,
            ..usual
        },
        Limit::Rungs => Shape {
            coils: Sheet::COILS,
            rungs: Sheet::COILS,
            records: 700,
            ..usual
        },
        Limit::Records => Shape {
            records: Sheet::RECORDS,
            ..usual
        },
        Limit::Stack => Shape {
            records: 200,
            rungs: 1,
            deep: true,
            ..usual
        },
        Limit::All => Shape {
            inputs: Sheet::INPUTS,
            coils: Sheet::COILS,
            rungs: Sheet::COILS,
            records: Sheet::RECORDS,
            one_start_in: 1,
            deep: true,
        },
    };
    sheet(rng, shape)
}

pub fn sheet(rng: &mut Rng, shape: Shape) -> Vec<u8> {
    let mut bytes = encode::head(shape.inputs, shape.coils, shape.rungs);
    for coil in 0..shape.coils {
        if rng.one_in(shape.one_start_in) {
            bytes.extend(encode::start(coil, rng.below(2) as u8));
        }
    }
    let mut coils: Vec<usize> = (0..shape.coils).collect();
    rng.shuffle(&mut coils);
    let lengths = lengths(rng, shape);
    for (&coil, &records) in coils.iter().zip(&lengths[..shape.rungs]) {
        bytes.extend(formula(rng, shape.inputs, shape.coils, records, shape.deep));
        bytes.extend(encode::rung(coil));
    }
    let condition = lengths[shape.rungs];
    bytes.extend(formula(
        rng,
        shape.inputs,
        shape.coils,
        condition,
        shape.deep,
    ));
    bytes.extend(encode::end_of_sheet());
    bytes
}

/// How many records each rung has, and the condition after them.
fn lengths(rng: &mut Rng, shape: Shape) -> Vec<usize> {
    let formulas = shape.rungs + 1;
    let mut lengths = vec![1; formulas];
    let mut left = shape.records - formulas;
    if shape.deep && left >= 3 * Sheet::STACK {
        let deepest = rng.below(formulas);
        lengths[deepest] += 3 * Sheet::STACK;
        left -= 3 * Sheet::STACK;
    }
    for _ in 0..left {
        lengths[rng.below(formulas)] += 1;
    }
    lengths
}

/// The formula records of an invariant.
pub fn invariant(rng: &mut Rng, coils: usize, records: usize) -> Vec<u8> {
    let deep = rng.one_in(4);
    formula(rng, 0, coils, records, deep)
}

/// A formula of exactly so many records; with `deep`, values are put on the
/// stack for as long as the records that are left can still join them.
pub fn formula(rng: &mut Rng, inputs: usize, coils: usize, records: usize, deep: bool) -> Vec<u8> {
    let mut bytes = Vec::new();
    let mut values = 0;
    for left in (0..records).rev() {
        // After this record `left` others must bring the stack down to one value.
        let may_put = values < Sheet::STACK && values <= left;
        let may_turn = values >= 1 && values - 1 <= left;
        let may_join = values >= 2;
        let put = may_put && (deep || !may_join || rng.one_in(2));
        if put && !(may_turn && rng.one_in(5)) {
            bytes.extend(leaf(rng, inputs, coils));
            values += 1;
        } else if may_join && !(may_turn && rng.one_in(4)) {
            bytes.push(rng.pick(&[AND, OR]));
            values -= 1;
        } else {
            bytes.push(NOT);
        }
    }
    bytes
}

fn leaf(rng: &mut Rng, inputs: usize, coils: usize) -> Vec<u8> {
    match rng.below(8) {
        0 => encode::constant(rng.below(2) as u8),
        1..=3 if inputs > 0 => encode::input(end_or_any(rng, inputs)),
        _ => encode::coil(end_or_any(rng, coils)),
    }
}

/// The last number comes up often: it is the one next to the range test.
fn end_or_any(rng: &mut Rng, limit: usize) -> usize {
    if rng.one_in(4) {
        limit - 1
    } else {
        rng.below(limit)
    }
}

pub fn trace(rng: &mut Rng, inputs: usize, scans: usize) -> Vec<u8> {
    let one_on_in = rng.between(1, 4);
    let scans: Vec<_> = (0..scans)
        .map(|_| some_inputs(rng, inputs, one_on_in))
        .collect();
    encode::trace(&scans)
}

fn some_inputs(rng: &mut Rng, inputs: usize, one_on_in: usize) -> Vec<bool> {
    (0..inputs).map(|_| rng.one_in(one_on_in)).collect()
}

/// A trace whose last scan breaks the condition, if chance finds one.
pub fn confirmed_trace(rng: &mut Rng, sheet: &[u8]) -> Option<Vec<u8>> {
    let sheet = Sheet::read(sheet).ok()?;
    let mut replay = Replay::new(&sheet);
    let mut scans = Vec::new();
    let mut broken = 0;
    for _ in 0..Sheet::SCANS {
        let inputs = some_inputs(rng, sheet.inputs, 2);
        replay.scan(&inputs);
        scans.push(inputs);
        if replay.confirmed().is_some() {
            broken = scans.len();
            // To go on now and then shows that the first broken scan is named.
            if !rng.one_in(3) {
                break;
            }
        }
    }
    scans.truncate(broken);
    (broken > 0).then(|| encode::trace(&scans))
}
