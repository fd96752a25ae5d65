//! The parts of a certificate that are read alike by checker and translator.

use crate::formula::{FormulaReader, FormulaRecord};
use crate::records::{is_formula, Reader, INPUT, INVARIANT, IN_CERTIFICATE};
use crate::sheet::Sheet;
use crate::Refusal;

pub type Invariant = Vec<FormulaRecord>;

/// Reads from behind SAFE up to INVARIANT, that record included.
pub fn read_invariant(reader: &mut Reader, sheet: &Sheet) -> Result<Invariant, Refusal> {
    let limit = Sheet::INVARIANT_RECORDS;
    let mut formula = FormulaReader::new(&IN_CERTIFICATE, 0, sheet.coils, limit);
    loop {
        // An invariant speaks of coils alone, so an INPUT contact is out of its spot.
        let record =
            reader.next(|kind| kind == INVARIANT || (is_formula(kind) && kind != INPUT))?;
        if record.kind == INVARIANT {
            formula.close(&record)?;
            return Ok(formula.records);
        }
        formula.take(&record)?;
    }
}
