//! Variables, defining clauses and the three clause sets.

use crate::formula::FormulaRecord;
use crate::sheet::Sheet;

/// 2v for plain v, 2v+1 for negated v, 0 as filler.
pub type Clause = [u16; 3];

pub fn plain(variable: u16) -> u16 {
    2 * variable
}

pub fn negated(variable: u16) -> u16 {
    2 * variable + 1
}

/// The most variables, and the most clauses of one set, that the limits allow.
pub const VARIABLES: usize =
    Sheet::COILS + Sheet::INPUTS + Sheet::RECORDS + 2 * Sheet::INVARIANT_RECORDS;
pub const CLAUSES: usize = 3 * (Sheet::RECORDS + 2 * Sheet::INVARIANT_RECORDS) + 2;

/// The variable that each coil has at some moment of the scan.
type CoilVariables = [u16; Sheet::COILS];

/// The three clause sets of a sheet and an invariant.
pub struct Sets<'a> {
    sheet: &'a Sheet,
    invariant: &'a [FormulaRecord],
}

impl<'a> Sets<'a> {
    pub fn new(sheet: &'a Sheet, invariant: &'a [FormulaRecord]) -> Sets<'a> {
        Sets { sheet, invariant }
    }

    /// The count of variables, the same for every set.
    pub fn variables(&self) -> usize {
        self.first_after() as usize + self.invariant.len() - 1
    }

    pub fn count(&self, set: u32) -> usize {
        let mut clauses = 0;
        self.give(set, &mut |_| clauses += 1);
        clauses
    }

    /// Hands out the clauses of set 1, 2 or 3 in the paper's order.
    pub fn give(&self, set: u32, put: &mut impl FnMut(Clause)) {
        match set {
            1 => self.start(put),
            2 => self.keep(put),
            _ => self.safe(put),
        }
    }

    fn start(&self, put: &mut impl FnMut(Clause)) {
        for (coil, &on) in self.sheet.start.iter().enumerate() {
            let variable = coil as u16 + 1;
            put([
                if on {
                    plain(variable)
                } else {
                    negated(variable)
                },
                0,
                0,
            ]);
        }
        let top = self.invariant_before(put);
        put([negated(top), 0, 0]);
    }

    fn keep(&self, put: &mut impl FnMut(Clause)) {
        let after = self.rungs(put);
        let top_before = self.invariant_before(put);
        put([plain(top_before), 0, 0]);
        let top_after = self.define(self.invariant, self.first_after(), &after, put);
        put([negated(top_after), 0, 0]);
    }

    fn safe(&self, put: &mut impl FnMut(Clause)) {
        let after = self.rungs(put);
        let condition = self.sheet.condition();
        let top_condition = self.define(condition, self.first_condition(), &after, put);
        let top_before = self.invariant_before(put);
        put([plain(top_before), 0, 0]);
        put([negated(top_condition), 0, 0]);
    }

    /// Defines the rungs in order and answers the coils' variables after the scan.
    fn rungs(&self, put: &mut impl FnMut(Clause)) -> CoilVariables {
        let mut coils = coils_before();
        let mut first = self.first_rung();
        for rung in &self.sheet.rungs {
            let formula = self.sheet.rung_formula(rung);
            // The coil changes only once its formula is done: its own rung reads the old value.
            coils[rung.coil] = self.define(formula, first, &coils, put);
            first += formula.len() as u16;
        }
        coils
    }

    fn invariant_before(&self, put: &mut impl FnMut(Clause)) -> u16 {
        self.define(self.invariant, self.first_before(), &coils_before(), put)
    }

    /// Defining clauses of a formula whose records are numbered from `first`;
    /// answers its top.
    fn define(
        &self,
        formula: &[FormulaRecord],
        first: u16,
        coils: &CoilVariables,
        put: &mut impl FnMut(Clause),
    ) -> u16 {
        let mut stack = [0; Sheet::STACK];
        let mut values = 0;
        let mut g = first;
        for record in formula {
            match *record {
                FormulaRecord::Input(input) => contact(g, self.first_input() + input, put),
                FormulaRecord::Coil(coil) => contact(g, coils[coil as usize], put),
                FormulaRecord::Constant(true) => put([plain(g), 0, 0]),
                FormulaRecord::Constant(false) => put([negated(g), 0, 0]),
                FormulaRecord::Not => {
                    values -= 1;
                    not(g, stack[values], put);
                }
                FormulaRecord::And => {
                    values -= 2;
                    and(g, stack[values], stack[values + 1], put);
                }
                FormulaRecord::Or => {
                    values -= 2;
                    or(g, stack[values], stack[values + 1], put);
                }
            }
            stack[values] = g;
            values += 1;
            g += 1;
        }
        g - 1
    }

    fn first_input(&self) -> u16 {
        self.sheet.coils as u16 + 1
    }

    fn first_rung(&self) -> u16 {
        self.first_input() + self.sheet.inputs as u16
    }

    fn first_condition(&self) -> u16 {
        self.first_rung() + self.sheet.rung_records() as u16
    }

    fn first_before(&self) -> u16 {
        self.first_condition() + self.sheet.condition().len() as u16
    }

    fn first_after(&self) -> u16 {
        self.first_before() + self.invariant.len() as u16
    }
}

fn coils_before() -> CoilVariables {
    std::array::from_fn(|coil| coil as u16 + 1)
}

fn contact(g: u16, v: u16, put: &mut impl FnMut(Clause)) {
    put([negated(g), plain(v), 0]);
    put([plain(g), negated(v), 0]);
}

fn not(g: u16, x: u16, put: &mut impl FnMut(Clause)) {
    put([negated(g), negated(x), 0]);
    put([plain(g), plain(x), 0]);
}

fn and(g: u16, x: u16, y: u16, put: &mut impl FnMut(Clause)) {
    put([negated(g), plain(x), 0]);
    put([negated(g), plain(y), 0]);
    put([plain(g), negated(x), negated(y)]);
}

fn or(g: u16, x: u16, y: u16, put: &mut impl FnMut(Clause)) {
    put([plain(g), negated(x), 0]);
    put([plain(g), negated(y), 0]);
    put([negated(g), plain(x), plain(y)]);
}
