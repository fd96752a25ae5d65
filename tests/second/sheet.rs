//! The sheet: ladder, start values and safety condition.

use crate::formula::{FormulaReader, FormulaRecord};
use crate::records::{is_formula, Reader, Record, CONDITION, END, HEAD, IN_SHEET, RUNG, START};
use crate::{refusal, Refusal};
use std::ops::Range;

pub struct Rung {
    pub coil: usize,
    formula: Range<usize>,
}

/// A well-formed sheet. The records of all formulas lie in one row, and each
/// rung names its part of the row; the condition has the rest.
pub struct Sheet {
    pub inputs: usize,
    pub coils: usize,
    pub start: Vec<bool>,
    pub rungs: Vec<Rung>,
    records: Vec<FormulaRecord>,
}

impl Sheet {
    pub const INPUTS: usize = 256;
    pub const COILS: usize = 256;
    pub const RECORDS: usize = 1024;
    pub const INVARIANT_RECORDS: usize = 256;
    pub const STACK: usize = 32;
    pub const STEPS: usize = 512;
    pub const WIDTH: usize = 24;
    pub const SCANS: usize = 64;
    pub const WORKSPACE: usize = 32_768;

    pub fn rung_formula(&self, rung: &Rung) -> &[FormulaRecord] {
        &self.records[rung.formula.clone()]
    }

    /// How many formula records the rungs have together.
    pub fn rung_records(&self) -> usize {
        self.rungs.last().map_or(0, |rung| rung.formula.end)
    }

    pub fn condition(&self) -> &[FormulaRecord] {
        &self.records[self.rung_records()..]
    }

    pub fn read(bytes: &[u8]) -> Result<Sheet, Refusal> {
        let mut reader = Reader::new(bytes, &IN_SHEET);
        let head = reader.next(|kind| kind == HEAD)?;
        let mut open = OpenSheet::new(&head)?;
        loop {
            let starts = open.starts_allowed;
            let record = reader.next(|kind| {
                is_formula(kind) || kind == RUNG || kind == CONDITION || (kind == START && starts)
            })?;
            match record.kind {
                START => open.start(&record)?,
                RUNG => open.rung(&record)?,
                CONDITION => break open.condition(&record)?,
                _ => open.formula_record(&record)?,
            }
        }
        reader.next(|kind| kind == END)?;
        reader.nothing_after_end()?;
        Ok(open.finish())
    }
}

/// What is known of a sheet while it is read.
struct OpenSheet {
    rungs_promised: usize,
    starts_allowed: bool,
    last_start: Option<usize>,
    has_rung: Vec<bool>,
    formulas: FormulaReader,
    sheet: Sheet,
}

impl OpenSheet {
    fn new(head: &Record) -> Result<OpenSheet, Refusal> {
        let (inputs, coils, rungs) = (head.number(0), head.number(2), head.number(4));
        if inputs > Sheet::INPUTS || coils == 0 || coils > Sheet::COILS || rungs > coils {
            return Err(refusal(4, head.place));
        }
        Ok(OpenSheet {
            rungs_promised: rungs,
            starts_allowed: true,
            last_start: None,
            has_rung: vec![false; coils],
            formulas: FormulaReader::new(&IN_SHEET, inputs, coils, Sheet::RECORDS),
            sheet: Sheet {
                inputs,
                coils,
                start: vec![false; coils],
                rungs: Vec::with_capacity(rungs),
                records: Vec::new(),
            },
        })
    }

    fn start(&mut self, record: &Record) -> Result<(), Refusal> {
        let (coil, value) = (record.number(0), record.body[2]);
        if coil >= self.sheet.coils || value > 1 {
            return Err(refusal(4, record.place));
        }
        if self.last_start.is_some_and(|last| coil <= last) {
            return Err(refusal(5, record.place));
        }
        self.last_start = Some(coil);
        self.sheet.start[coil] = value == 1;
        Ok(())
    }

    fn formula_record(&mut self, record: &Record) -> Result<(), Refusal> {
        self.starts_allowed = false;
        self.formulas.take(record)
    }

    fn rung(&mut self, record: &Record) -> Result<(), Refusal> {
        let coil = record.number(0);
        if coil >= self.sheet.coils {
            return Err(refusal(4, record.place));
        }
        self.formulas.close(record)?;
        if self.has_rung[coil] {
            return Err(refusal(9, record.place));
        }
        if self.sheet.rungs.len() == self.rungs_promised {
            return Err(refusal(10, record.place));
        }
        self.has_rung[coil] = true;
        let formula = self.sheet.rung_records()..self.formulas.records.len();
        self.sheet.rungs.push(Rung { coil, formula });
        Ok(())
    }

    fn condition(&mut self, record: &Record) -> Result<(), Refusal> {
        self.formulas.close(record)?;
        if self.sheet.rungs.len() < self.rungs_promised {
            return Err(refusal(10, record.place));
        }
        Ok(())
    }

    fn finish(self) -> Sheet {
        Sheet {
            records: self.formulas.records,
            ..self.sheet
        }
    }
}
