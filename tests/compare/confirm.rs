//! Demand 3 by brute force: a clause set that the library wrote has a solution
//! exactly when the ladder has what the set stands for.

use crate::answer::DONE;
use crate::tally::Tally;
use second::brute::search::solutions;
use second::brute::{choices, confirm, passes};
use second::certificate::Invariant;
use second::clauses::CLAUSES;
use second::make;
use second::make::prove::Literals;
use second::meaning::{holds, scan, value};
use second::records::{INVARIANT, SAFE};
use second::translator::read_both;
use second::Sheet;

/// Small sheets with random invariants, most of which do not hold up, and with
/// some that do.
pub fn run(tally: &mut Tally) {
    for round in 0..tally.rounds {
        let sheet = make::small_sheet(&mut tally.rng);
        let coils = Sheet::read(&sheet).expect("made well formed").coils;
        let records = tally.rng.between(1, 10);
        let random = make::invariant(&mut tally.rng, coils, records);
        confirmed(tally, &sheet, &random);
        if round % 4 == 0 {
            if let Some(good) = make::invariant_for(&mut tally.rng, &sheet) {
                confirmed(tally, &sheet, &good);
            }
        }
    }
}

fn confirmed(tally: &mut Tally, sheet: &[u8], formula: &[u8]) {
    let cert = [&[SAFE], formula, &[INVARIANT]].concat();
    let (read, invariant) = read_both(sheet, &cert).expect("made well formed");
    let ladder = Ladder {
        sheet: &read,
        invariant,
    };
    let holds_up = passes(&read, formula);
    for set in 1..=3 {
        let clauses = written(tally, set, sheet, &cert);
        let solvable = solutions(&clauses, &[], 1) == 1;
        let what = format!("set {set} as a whole: {sheet:02X?} {cert:02X?}");
        tally.same(what, solvable, !holds_up[set as usize - 1]);
        each_state(tally, &ladder, set, &clauses);
        tally.counts.sets += 1;
    }
    // The sets are place for place the second program's, so what is shown of
    // the defining clauses of those, one extension for each state, holds here.
    let shown = confirm(sheet, formula).map(|_| ());
    tally.same("one extension", shown, Ok(()));
}

/// The clauses of a set as the library writes them, without filler.
fn written(tally: &mut Tally, set: u32, sheet: &[u8], cert: &[u8]) -> Vec<Literals> {
    let what = "a set for brute force";
    let (got, places) = tally.translate(&what, set, sheet, cert, 3 * CLAUSES);
    tally.same(what, got.kind, DONE);
    let literals = |clause: &[u16]| clause.iter().copied().filter(|&l| l != 0).collect();
    places.chunks_exact(3).map(literals).collect()
}

struct Ladder<'a> {
    sheet: &'a Sheet,
    invariant: Invariant,
}

impl Ladder<'_> {
    /// Whether a state and inputs are what a solution of the set stands for:
    /// 1, the start, and not within the invariant; 2, within it, and the scan
    /// leads out of it; 3, within it, and the scan breaks the condition.
    fn stands_for(&self, set: u32, coils: &[bool], inputs: &[bool]) -> bool {
        let mut after = coils.to_vec();
        scan(self.sheet, inputs, &mut after);
        let within = |coils: &[bool]| value(&self.invariant, inputs, coils);
        match set {
            1 => coils == self.sheet.start && !within(coils),
            2 => within(coils) && !within(&after),
            _ => within(coils) && !holds(self.sheet, inputs, &after),
        }
    }
}

/// The same state by state: coils and inputs are the first variables.
fn each_state(tally: &mut Tally, ladder: &Ladder, set: u32, clauses: &[Literals]) {
    for coils in choices(ladder.sheet.coils) {
        for inputs in choices(ladder.sheet.inputs) {
            let fixed: Vec<bool> = coils.iter().chain(&inputs).copied().collect();
            let solvable = solutions(clauses, &fixed, 1) == 1;
            let wanted = ladder.stands_for(set, &coils, &inputs);
            if solvable != wanted {
                tally.right(format!("set {set} at {fixed:?}: {clauses:?}"), false);
            }
        }
    }
}
