//! Long refutations, still right: harmless steps are strewn among the needed.

use super::damage::split;
use super::encode;
use super::prove::{certificate, clause_set, refute, resolvent, Literals, Step};
use super::random;
use super::rng::Rng;
use crate::records::{AND, INVARIANT, NOT, OR, STEP};
use crate::sheet::Sheet;

/// How wide the harmless clauses are to be.
#[derive(Clone, Copy, Debug, PartialEq, Eq)]
pub enum Width {
    Narrow,
    Wide,
}

impl Width {
    fn most(self) -> usize {
        match self {
            Width::Narrow => 4,
            Width::Wide => Sheet::WIDTH,
        }
    }
}

/// A sheet of a few dozen rungs' records and an accepted certificate whose
/// three refutations have 400 to 512 steps each.
pub fn benchmark(rng: &mut Rng, width: Width) -> (Vec<u8>, Vec<u8>) {
    loop {
        let sheet = plainly_safe_sheet(rng, width);
        let coils = Sheet::read(&sheet).expect("made well formed").coils;
        let invariant = plainly_true(rng, 0, coils, width);
        let steps = [0; 3].map(|_| rng.between(400, Sheet::STEPS));
        if let Some(cert) = lengthened(rng, &sheet, &invariant, steps, width) {
            return (sheet, cert);
        }
    }
}

/// A certificate for an invariant (its formula records) with refutations of
/// these lengths; where a needed refutation is longer, it stays as it is.
pub fn lengthened(
    rng: &mut Rng,
    sheet: &[u8],
    invariant: &[u8],
    steps: [usize; 3],
    width: Width,
) -> Option<Vec<u8>> {
    let mut refutations = [Vec::new(), Vec::new(), Vec::new()];
    for (index, refutation) in refutations.iter_mut().enumerate() {
        let clauses = clause_set(index as u32 + 1, sheet, invariant)?;
        let needed = refute(&clauses)?;
        *refutation = strewn(rng, &clauses, &needed, steps[index], width);
    }
    Some(certificate(invariant, &refutations))
}

/// The widths of all clauses that an accepted certificate derives.
pub fn widths(sheet: &[u8], cert: &[u8]) -> Vec<usize> {
    let mut widths = Vec::new();
    for row in Taken::apart(cert).rows(sheet) {
        widths.extend(row.clauses[row.given..].iter().map(Vec::len));
    }
    widths
}

/// An accepted certificate with one STEP more, in front of a last one, whose
/// clause has more than 24 literals; `None` where chance finds no such step.
pub fn too_wide(rng: &mut Rng, sheet: &[u8], cert: &[u8]) -> Option<Vec<u8>> {
    let mut taken = Taken::apart(cert);
    let at = rng.below(3);
    let step = taken.rows(sheet)[at].too_wide(rng)?;
    let last = taken.refutations[at].len() - 1;
    taken.refutations[at].insert(last, step);
    Some(certificate(&taken.invariant, &taken.refutations))
}

/// An accepted certificate's invariant and steps.
struct Taken {
    invariant: Vec<u8>,
    refutations: [Vec<Step>; 3],
}

impl Taken {
    fn apart(cert: &[u8]) -> Taken {
        let records = split(cert);
        let closing = records
            .iter()
            .position(|record| record[0] == INVARIANT)
            .unwrap_or(0);
        let mut refutations = [Vec::new(), Vec::new(), Vec::new()];
        let parts = records[closing + 1..].split(|record| record[0] != STEP);
        for (refutation, steps) in refutations.iter_mut().zip(parts) {
            refutation.extend(steps.iter().map(|record| step_of(record)));
        }
        Taken {
            invariant: records[1..closing].concat(),
            refutations,
        }
    }

    /// All clauses of the three refutations.
    fn rows(&self, sheet: &[u8]) -> Vec<Row> {
        let mut rows = Vec::new();
        for (index, steps) in self.refutations.iter().enumerate() {
            let given = clause_set(index as u32 + 1, sheet, &self.invariant);
            let mut row = Row::new(&given.unwrap_or_default());
            steps.iter().for_each(|&step| row.take(step));
            rows.push(row);
        }
        rows
    }
}

fn step_of(record: &[u8]) -> Step {
    let number = |at: usize| u16::from_le_bytes([record[at], record[at + 1]]) as usize;
    Step {
        first: number(1),
        second: number(3),
        pivot: number(5),
    }
}

/// A ladder of four rungs with a condition that holds whatever the coils do.
fn plainly_safe_sheet(rng: &mut Rng, width: Width) -> Vec<u8> {
    let (inputs, coils, rungs) = (rng.between(2, 12), rng.between(4, 16), 4);
    let mut sheet = encode::head(inputs, coils, rungs);
    for coil in (0..coils).step_by(2) {
        sheet.extend(encode::start(coil, 1));
    }
    for coil in (0..rungs).rev() {
        sheet.extend(some_formula(rng, inputs, coils, width));
        sheet.extend(encode::rung(coil));
    }
    sheet.extend(plainly_true(rng, inputs, coils, width));
    sheet.extend(encode::end_of_sheet());
    sheet
}

fn plainly_true(rng: &mut Rng, inputs: usize, coils: usize, width: Width) -> Vec<u8> {
    let mut formula = some_formula(rng, inputs, coils, width);
    formula.extend(or_either(encode::coil(rng.below(coils))));
    formula.push(OR);
    formula
}

fn some_formula(rng: &mut Rng, inputs: usize, coils: usize, width: Width) -> Vec<u8> {
    match width {
        Width::Narrow => {
            let records = rng.between(10, 30);
            random::formula(rng, inputs, coils, records, false)
        }
        Width::Wide => chain(rng, inputs, coils),
    }
}

/// Short formulas joined by one operator: its clauses resolve to wide ones.
fn chain(rng: &mut Rng, inputs: usize, coils: usize) -> Vec<u8> {
    let operator = rng.pick(&[AND, OR]);
    let mut formula = Vec::new();
    for link in 0..rng.between(25, 40) {
        let records = rng.between(1, 2);
        formula.extend(random::formula(rng, inputs, coils, records, false));
        if link > 0 {
            formula.push(operator);
        }
    }
    formula
}

/// A contact or its opposite.
fn or_either(contact: Vec<u8>) -> Vec<u8> {
    let mut formula = contact.clone();
    formula.extend(contact);
    formula.extend([NOT, OR]);
    formula
}

/// The needed steps with harmless ones among them; the last stays the last.
fn strewn(
    rng: &mut Rng,
    clauses: &[Literals],
    needed: &[Step],
    steps: usize,
    width: Width,
) -> Vec<Step> {
    let harmless = steps.saturating_sub(needed.len());
    let mut is_needed = vec![true; needed.len() - 1];
    is_needed.resize(needed.len() - 1 + harmless, false);
    rng.shuffle(&mut is_needed);
    is_needed.push(true);
    let mut row = Row::new(clauses);
    // Where each clause of the needed refutation stands in the row.
    let mut numbers: Vec<usize> = (1..=clauses.len()).collect();
    let mut waiting = needed.iter();
    for is_needed in is_needed {
        if is_needed {
            let step = waiting.next().expect("as many as are needed");
            let (first, second) = (numbers[step.first - 1], numbers[step.second - 1]);
            row.take(Step {
                first,
                second,
                pivot: step.pivot,
            });
            numbers.push(row.clauses.len());
        } else {
            // The first needed step rests on given clauses alone, so it can always be repeated.
            let step = row.harmless(rng, width).unwrap_or(needed[0]);
            row.take(step);
        }
    }
    row.steps
}

/// The clauses so far, and for each literal the clauses that hold it.
struct Row {
    clauses: Vec<Literals>,
    holders: Vec<Vec<usize>>,
    given: usize,
    steps: Vec<Step>,
}

impl Row {
    fn new(given: &[Literals]) -> Row {
        let highest = given.iter().flatten().max().copied().unwrap_or(0);
        let mut row = Row {
            clauses: Vec::new(),
            holders: vec![Vec::new(); highest as usize + 2],
            given: given.len(),
            steps: Vec::new(),
        };
        for clause in given {
            row.put(clause.clone());
        }
        row
    }

    fn put(&mut self, clause: Literals) {
        for &literal in &clause {
            self.holders[literal as usize].push(self.clauses.len());
        }
        self.clauses.push(clause);
    }

    fn take(&mut self, step: Step) {
        self.put(self.derived(step));
        self.steps.push(step);
    }

    /// A step whose clause is neither empty nor too wide, if a few tries find
    /// one. Wide clauses grow out of wide ones.
    fn harmless(&self, rng: &mut Rng, width: Width) -> Option<Step> {
        for tries in 0..60 {
            let one = self.some_clause(rng, width, tries);
            let Some(step) = self.some_partner(rng, one) else {
                continue;
            };
            let derived = self.derived(step).len();
            let grows = derived > self.clauses[one].len() || derived + 4 > Sheet::WIDTH;
            let wanted = width == Width::Narrow || grows || tries > 40;
            if derived > 0 && derived <= width.most() && wanted {
                return Some(step);
            }
        }
        None
    }

    /// A step whose clause has more literals than a derived clause may have.
    fn too_wide(&self, rng: &mut Rng) -> Option<Step> {
        let tries = (0..400).filter_map(|_| {
            let one = self.some_clause(rng, Width::Wide, 0);
            self.some_partner(rng, one)
        });
        tries
            .into_iter()
            .find(|&step| self.derived(step).len() > Sheet::WIDTH)
    }

    fn derived(&self, step: Step) -> Literals {
        let plain = 2 * step.pivot as u16;
        resolvent(
            &self.clauses[step.first - 1],
            &self.clauses[step.second - 1],
            plain,
        )
    }

    /// For wide clauses one of the latest, as long as that helps.
    fn some_clause(&self, rng: &mut Rng, width: Width, tries: usize) -> usize {
        let count = self.clauses.len();
        let derived = count - self.given;
        if width == Width::Wide && derived > 0 && tries < 40 {
            return count - 1 - rng.below(derived.min(3));
        }
        rng.below(count)
    }

    fn some_partner(&self, rng: &mut Rng, one: usize) -> Option<Step> {
        if self.clauses[one].is_empty() {
            return None;
        }
        let literal = rng.pick(&self.clauses[one]);
        let holders = &self.holders[literal as usize ^ 1];
        if holders.is_empty() {
            return None;
        }
        let other = rng.pick(holders);
        let (first, second) = if literal % 2 == 0 {
            (one, other)
        } else {
            (other, one)
        };
        Some(Step {
            first: first + 1,
            second: second + 1,
            pivot: literal as usize / 2,
        })
    }
}
