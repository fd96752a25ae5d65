//! Formula records, in postfix order, and the faults they can have.

use crate::records::{Faults, Record, AND, COIL, CONSTANT, INPUT, NOT};
use crate::sheet::Sheet;
use crate::{refusal, Refusal};

#[derive(Clone, Copy, Debug, PartialEq, Eq)]
pub enum FormulaRecord {
    Input(u16),
    Coil(u16),
    Constant(bool),
    Not,
    And,
    Or,
}

impl FormulaRecord {
    fn operands(self) -> usize {
        match self {
            FormulaRecord::Not => 1,
            FormulaRecord::And | FormulaRecord::Or => 2,
            _ => 0,
        }
    }
}

/// Takes the formula records of one sheet, or of one invariant, and keeps
/// count of the values on the stack of the formula that is open.
pub struct FormulaReader {
    faults: &'static Faults,
    inputs: usize,
    coils: usize,
    limit: usize,
    values: usize,
    pub records: Vec<FormulaRecord>,
}

impl FormulaReader {
    pub fn new(faults: &'static Faults, inputs: usize, coils: usize, limit: usize) -> Self {
        FormulaReader {
            faults,
            inputs,
            coils,
            limit,
            values: 0,
            records: Vec::new(),
        }
    }

    /// Range, operands, stack, count of records: in this order.
    pub fn take(&mut self, record: &Record) -> Result<(), Refusal> {
        let decoded = self.decode(record)?;
        let operands = decoded.operands();
        if self.values < operands {
            return Err(refusal(self.faults.values, record.place));
        }
        let values = self.values - operands + 1;
        if values > Sheet::STACK {
            return Err(refusal(self.faults.stack, record.place));
        }
        if self.records.len() == self.limit {
            return Err(refusal(self.faults.records, record.place));
        }
        self.values = values;
        self.records.push(decoded);
        Ok(())
    }

    /// A closing record ends the open formula and must find exactly one value.
    pub fn close(&mut self, record: &Record) -> Result<(), Refusal> {
        if self.values != 1 {
            return Err(refusal(self.faults.values, record.place));
        }
        self.values = 0;
        Ok(())
    }

    fn decode(&self, record: &Record) -> Result<FormulaRecord, Refusal> {
        match record.kind {
            INPUT => Ok(FormulaRecord::Input(self.below(record, self.inputs)?)),
            COIL => Ok(FormulaRecord::Coil(self.below(record, self.coils)?)),
            CONSTANT if record.body[0] > 1 => Err(refusal(self.faults.range, record.place)),
            CONSTANT => Ok(FormulaRecord::Constant(record.body[0] == 1)),
            NOT => Ok(FormulaRecord::Not),
            AND => Ok(FormulaRecord::And),
            _ => Ok(FormulaRecord::Or),
        }
    }

    fn below(&self, record: &Record, limit: usize) -> Result<u16, Refusal> {
        let number = record.number(0);
        if number >= limit {
            return Err(refusal(self.faults.range, record.place));
        }
        Ok(number as u16)
    }
}
