//! The meaning of a ladder: formulas, scans and replay.

use crate::formula::FormulaRecord;
use crate::sheet::Sheet;

/// The value of a well-formed formula; `coils` are the values its contacts read.
pub fn value(formula: &[FormulaRecord], inputs: &[bool], coils: &[bool]) -> bool {
    let mut stack = [false; Sheet::STACK];
    let mut values = 0;
    for record in formula {
        match *record {
            FormulaRecord::Not => stack[values - 1] = !stack[values - 1],
            FormulaRecord::And => {
                values -= 1;
                stack[values - 1] = stack[values - 1] && stack[values];
            }
            FormulaRecord::Or => {
                values -= 1;
                stack[values - 1] = stack[values - 1] || stack[values];
            }
            leaf => {
                stack[values] = leaf_value(leaf, inputs, coils);
                values += 1;
            }
        }
    }
    stack[0]
}

fn leaf_value(leaf: FormulaRecord, inputs: &[bool], coils: &[bool]) -> bool {
    match leaf {
        FormulaRecord::Input(input) => inputs[input as usize],
        FormulaRecord::Coil(coil) => coils[coil as usize],
        FormulaRecord::Constant(value) => value,
        _ => unreachable!("operators take their operands from the stack"),
    }
}

/// One scan, in place: the rungs run in the sheet's order, so a contact reads
/// the new value of a coil whose rung has run and the old value of any other.
pub fn scan(sheet: &Sheet, inputs: &[bool], coils: &mut [bool]) {
    for rung in &sheet.rungs {
        coils[rung.coil] = value(sheet.rung_formula(rung), inputs, coils);
    }
}

/// Whether the condition holds with the inputs of a scan and the coils after it.
pub fn holds(sheet: &Sheet, inputs: &[bool], coils_after: &[bool]) -> bool {
    value(sheet.condition(), inputs, coils_after)
}

/// A ladder being run from its start values, judged after every scan.
pub struct Replay<'a> {
    sheet: &'a Sheet,
    pub coils: Vec<bool>,
    pub scans: usize,
    first_broken: Option<usize>,
    held_last: bool,
}

impl<'a> Replay<'a> {
    pub fn new(sheet: &'a Sheet) -> Replay<'a> {
        let coils = sheet.start.clone();
        Replay {
            sheet,
            coils,
            scans: 0,
            first_broken: None,
            held_last: true,
        }
    }

    pub fn scan(&mut self, inputs: &[bool]) {
        scan(self.sheet, inputs, &mut self.coils);
        self.scans += 1;
        self.held_last = holds(self.sheet, inputs, &self.coils);
        if !self.held_last && self.first_broken.is_none() {
            self.first_broken = Some(self.scans);
        }
    }

    /// The first broken scan, provided that the last one is broken too.
    pub fn confirmed(&self) -> Option<usize> {
        if self.held_last {
            return None;
        }
        self.first_broken
    }
}

/// Runs the inputs of scan after scan from the start values.
pub fn replay(sheet: &Sheet, scans: &[Vec<bool>]) -> Option<usize> {
    let mut replay = Replay::new(sheet);
    for inputs in scans {
        replay.scan(inputs);
    }
    replay.confirmed()
}
