//! What every state and every choice of inputs of a small sheet says about
//! its verdict, its invariants and its clause sets.

pub mod search;

use crate::certificate::Invariant;
use crate::formula::FormulaRecord;
use crate::make::prove::{clause_set, Literals};
use crate::meaning::{holds, scan, value};
use crate::records::{INVARIANT, SAFE};
use crate::sheet::Sheet;
use crate::translator::read_both;
use search::solutions;

/// All rows of so many values.
pub fn choices(count: usize) -> impl Iterator<Item = Vec<bool>> {
    (0..1u32 << count).map(move |bits| (0..count).map(|at| bits >> at & 1 == 1).collect())
}

fn after_scan(sheet: &Sheet, inputs: &[bool], coils: &[bool]) -> Vec<bool> {
    let mut after = coils.to_vec();
    scan(sheet, inputs, &mut after);
    after
}

/// The start and every state that scans lead to.
pub fn reachable(sheet: &Sheet) -> Vec<Vec<bool>> {
    let mut states = vec![sheet.start.clone()];
    let mut next = 0;
    while next < states.len() {
        let coils = states[next].clone();
        for inputs in choices(sheet.inputs) {
            let after = after_scan(sheet, &inputs, &coils);
            if !states.contains(&after) {
                states.push(after);
            }
        }
        next += 1;
    }
    states
}

/// The least number of scans after which the condition can be false.
pub fn first_break(sheet: &Sheet) -> Option<usize> {
    let mut seen = vec![sheet.start.clone()];
    let mut edge = seen.clone();
    let mut scans = 0;
    while !edge.is_empty() {
        scans += 1;
        let mut next = Vec::new();
        for coils in &edge {
            for inputs in choices(sheet.inputs) {
                let after = after_scan(sheet, &inputs, coils);
                if !holds(sheet, &inputs, &after) {
                    return Some(scans);
                }
                if !seen.contains(&after) {
                    seen.push(after.clone());
                    next.push(after);
                }
            }
        }
        edge = next;
    }
    None
}

/// Whether the start is within an invariant (its formula records), whether
/// every scan from within stays within, and whether every scan from within
/// keeps the condition. Formulas that are no invariant pass nothing.
pub fn passes(sheet: &Sheet, formula: &[u8]) -> [bool; 3] {
    match read_formula(sheet, formula) {
        Some(invariant) => Obligations { sheet, invariant }.all(),
        None => [false; 3],
    }
}

fn read_formula(sheet: &Sheet, formula: &[u8]) -> Option<Invariant> {
    let mut bytes = formula.to_vec();
    bytes.push(INVARIANT);
    let mut reader = crate::records::Reader::new(&bytes, &crate::records::IN_CERTIFICATE);
    crate::certificate::read_invariant(&mut reader, sheet).ok()
}

/// What the three sets are about, told by the meaning alone.
struct Obligations<'a> {
    sheet: &'a Sheet,
    invariant: Invariant,
}

impl Obligations<'_> {
    fn all(&self) -> [bool; 3] {
        [1, 2, 3].map(|set| {
            choices(self.sheet.coils).all(|coils| {
                choices(self.sheet.inputs).all(|inputs| !self.broken(set, &coils, &inputs))
            })
        })
    }

    /// Whether this state and these inputs are what a set's solutions stand for.
    fn broken(&self, set: u32, coils: &[bool], inputs: &[bool]) -> bool {
        let after = after_scan(self.sheet, inputs, coils);
        match set {
            1 => coils == self.sheet.start && !self.within(coils),
            2 => self.within(coils) && !self.within(&after),
            _ => self.within(coils) && !holds(self.sheet, inputs, &after),
        }
    }

    fn within(&self, coils: &[bool]) -> bool {
        value(&self.invariant, &[], coils)
    }
}

/// Confirms the three clause sets of a small sheet and an invariant (its
/// formula records) against the meaning: for each choice of coils and inputs
/// the defining clauses have exactly one extension, and the whole set has a
/// solution there exactly when its obligation is broken there; and so for the
/// set as a whole. Answers how many questions were asked.
pub fn confirm(sheet: &[u8], formula: &[u8]) -> Result<usize, String> {
    let mut cert = vec![SAFE];
    cert.extend(formula);
    cert.push(INVARIANT);
    let (read, invariant) = read_both(sheet, &cert).map_err(|refusal| format!("{refusal:?}"))?;
    let obligations = Obligations {
        sheet: &read,
        invariant,
    };
    let mut asked = 0;
    for set in 1..=3 {
        let clauses = clause_set(set, sheet, formula).ok_or("not translated")?;
        asked += confirm_set(&obligations, set, &clauses)?;
    }
    Ok(asked)
}

fn confirm_set(obligations: &Obligations, set: u32, clauses: &[Literals]) -> Result<usize, String> {
    let sheet = obligations.sheet;
    let defining = defining(obligations, set, clauses);
    let mut asked = 0;
    let mut somewhere = false;
    for coils in choices(sheet.coils) {
        for inputs in choices(sheet.inputs) {
            let fixed: Vec<bool> = coils.iter().chain(&inputs).copied().collect();
            if solutions(&defining, &fixed, 2) != 1 {
                return Err(format!("set {set}: not one extension at {fixed:?}"));
            }
            let broken = obligations.broken(set, &coils, &inputs);
            if (solutions(clauses, &fixed, 1) == 1) != broken {
                return Err(format!("set {set}: solution wrong at {fixed:?}"));
            }
            somewhere |= broken;
            asked += 2;
        }
    }
    if (solutions(clauses, &[], 1) == 1) != somewhere {
        return Err(format!("set {set}: solution wrong as a whole"));
    }
    Ok(asked + 1)
}

/// The set without its start units and without its tops.
fn defining(obligations: &Obligations, set: u32, clauses: &[Literals]) -> Vec<Literals> {
    let sheet = obligations.sheet;
    let last = clauses.len() - 1;
    match set {
        1 => clauses[sheet.coils..last].to_vec(),
        2 => {
            let rungs: usize = sheet
                .rungs
                .iter()
                .map(|r| size(sheet.rung_formula(r)))
                .sum();
            let top = rungs + size(&obligations.invariant);
            [&clauses[..top], &clauses[top + 1..last]].concat()
        }
        _ => clauses[..last - 1].to_vec(),
    }
}

/// How many defining clauses a formula has.
fn size(formula: &[FormulaRecord]) -> usize {
    let clauses = formula.iter().map(|record| match record {
        FormulaRecord::Constant(_) => 1,
        FormulaRecord::And | FormulaRecord::Or => 3,
        _ => 2,
    });
    clauses.sum()
}
