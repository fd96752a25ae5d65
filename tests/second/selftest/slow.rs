//! The same rules said again, slowly and in another way: clauses as sets of
//! signed numbers, contacts by the place of rungs, formulas read backwards.

use crate::tally::refused;
use second::formula::FormulaRecord;
use second::make::damage::split;
use second::make::prove::clause_set;
use second::{Answer, Sheet};
use std::collections::BTreeSet;

type SignedSet = BTreeSet<i64>;

/// A certificate that opens with SAFE and has a good invariant, judged from
/// there on; `None` for any other.
pub fn judge_safety(sheet: &[u8], cert: &[u8]) -> Option<Answer> {
    if cert.first() != Some(&0x50) {
        return None;
    }
    let records = split(cert);
    let closing = records.iter().position(|record| record[0] == 0x51)?;
    let formula = records[1..closing].concat();
    let mut judge = Judge {
        cert,
        at: 1 + formula.len() + 1,
    };
    for set in 1..=3 {
        let clauses = clause_set(set, sheet, &formula)?;
        let clauses = clauses
            .iter()
            .map(|clause| clause.iter().map(signed).collect())
            .collect();
        if let Err(refused) = judge.refutation(clauses) {
            return Some(refused);
        }
    }
    Some(judge.end())
}

fn signed(literal: &u16) -> i64 {
    let variable = (literal / 2) as i64;
    if literal % 2 == 0 {
        variable
    } else {
        -variable
    }
}

struct Judge<'a> {
    cert: &'a [u8],
    at: usize,
}

impl Judge<'_> {
    fn refutation(&mut self, mut clauses: Vec<SignedSet>) -> Result<(), Answer> {
        let given = clauses.len();
        loop {
            match self.cert.get(self.at) {
                None => return Err(refused(12, self.cert.len())),
                Some(0x40) if self.at + 7 > self.cert.len() => return Err(refused(12, self.at)),
                Some(0x40) => {
                    let steps = clauses.len() - given;
                    let derived = self.step(&clauses, steps)?;
                    clauses.push(derived);
                    self.at += 7;
                }
                Some(0x41) => {
                    let right = clauses.len() > given && clauses[clauses.len() - 1].is_empty();
                    let place = self.at;
                    self.at += 1;
                    return if right {
                        Ok(())
                    } else {
                        Err(refused(22, place))
                    };
                }
                Some(_) => return Err(refused(13, self.at)),
            }
        }
    }

    fn step(&self, clauses: &[SignedSet], steps: usize) -> Result<SignedSet, Answer> {
        let number = |at: usize| {
            self.cert[self.at + at] as usize + 256 * self.cert[self.at + at + 1] as usize
        };
        let (first, second, pivot) = (number(1), number(3), number(5) as i64);
        if first == 0 || second == 0 || first > clauses.len() || second > clauses.len() {
            return Err(refused(18, self.at));
        }
        let (mut one, mut two) = (clauses[first - 1].clone(), clauses[second - 1].clone());
        if !one.remove(&pivot) || !two.remove(&-pivot) {
            return Err(refused(19, self.at));
        }
        one.append(&mut two);
        if one.len() > 24 {
            return Err(refused(20, self.at));
        }
        if steps >= 512 {
            return Err(refused(21, self.at));
        }
        Ok(one)
    }

    fn end(&self) -> Answer {
        match self.cert.get(self.at..) {
            Some([0x2F]) => Answer::Accepted,
            Some([0x2F, _, ..]) => refused(26, self.at + 1),
            Some([_, ..]) => refused(13, self.at),
            _ => refused(12, self.cert.len()),
        }
    }
}

/// A trace with a well-formed sheet, judged record by record.
pub fn judge_trace(sheet: &Sheet, cert: &[u8]) -> Answer {
    let mut at = 1;
    let mut on: Vec<usize> = Vec::new();
    let mut coils = sheet.start.clone();
    let mut held = Vec::new();
    loop {
        match cert[at..] {
            [] => return refused(12, at),
            [0x61] | [0x61, _] => return refused(12, at),
            [0x61, low, high, ..] => {
                let input = low as usize + 256 * high as usize;
                if input >= sheet.inputs {
                    return refused(14, at);
                }
                if on.iter().any(|&other| other >= input) {
                    return refused(23, at);
                }
                on.push(input);
                at += 3;
            }
            [0x62, ..] if held.len() == 64 => return refused(24, at),
            [0x62, ..] => {
                let inputs: Vec<bool> = (0..sheet.inputs).map(|i| on.contains(&i)).collect();
                coils = after(sheet, &inputs, &coils);
                held.push(formula_value(sheet.condition(), &|i| inputs[i], &|c| {
                    coils[c]
                }));
                on.clear();
                at += 1;
            }
            [0x2F, ..] if on.is_empty() => return end_of_trace(cert, at, &held),
            _ => return refused(13, at),
        }
    }
}

fn end_of_trace(cert: &[u8], at: usize, held: &[bool]) -> Answer {
    match (held.last(), held.iter().position(|&held| !held)) {
        (None, _) => refused(24, at),
        (Some(true), _) => refused(25, at),
        (Some(false), _) if cert.len() > at + 1 => refused(26, at + 1),
        (Some(false), first) => Answer::Confirmed(first.map_or(0, |index| index + 1)),
    }
}

/// The coils after a scan: a contact in the k-th rung reads the new value of
/// a coil exactly when that coil's rung stands before the k-th.
pub fn after(sheet: &Sheet, inputs: &[bool], before: &[bool]) -> Vec<bool> {
    let mut new: Vec<Option<bool>> = vec![None; sheet.coils];
    for (k, rung) in sheet.rungs.iter().enumerate() {
        let contact = |coil: usize| {
            let ran = sheet.rungs[..k].iter().any(|earlier| earlier.coil == coil);
            if ran {
                new[coil].expect("its rung has run")
            } else {
                before[coil]
            }
        };
        let value = formula_value(sheet.rung_formula(rung), &|i| inputs[i], &contact);
        new[rung.coil] = Some(value);
    }
    (0..sheet.coils)
        .map(|coil| new[coil].unwrap_or(before[coil]))
        .collect()
}

/// The value of a formula, read from its top downwards.
fn formula_value(
    formula: &[FormulaRecord],
    input: &dyn Fn(usize) -> bool,
    coil: &dyn Fn(usize) -> bool,
) -> bool {
    let mut left = formula.len();
    value_below(formula, &mut left, input, coil)
}

fn value_below(
    formula: &[FormulaRecord],
    left: &mut usize,
    input: &dyn Fn(usize) -> bool,
    coil: &dyn Fn(usize) -> bool,
) -> bool {
    *left -= 1;
    match formula[*left] {
        FormulaRecord::Input(number) => input(number as usize),
        FormulaRecord::Coil(number) => coil(number as usize),
        FormulaRecord::Constant(value) => value,
        FormulaRecord::Not => !value_below(formula, left, input, coil),
        operator => {
            let y = value_below(formula, left, input, coil);
            let x = value_below(formula, left, input, coil);
            if operator == FormulaRecord::And {
                x & y
            } else {
                x | y
            }
        }
    }
}
