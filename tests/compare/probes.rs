//! One or two steps put behind the first steps of a right refutation. An answer
//! shows no derived clause, but whether such a step is refused, and with which
//! number, shows whether a literal is in one and how wide two are together.

use crate::tally::Tally;
use second::make::damage::split;
use second::make::prove::{clause_set, resolvent, Literals};
use second::make::{encode, Rng, Step};
use second::records::{INVARIANT, QED, STEP};

/// Tries for each certificate.
const PROBES: usize = 40;

pub fn probes(tally: &mut Tally, sheet: &[u8], cert: &[u8]) {
    let rows = Row::of_each_refutation(sheet, cert);
    for _ in 0..PROBES {
        let row = &rows[tally.rng.below(rows.len())];
        // Behind the last step too: where it was the 512th, 21 is near.
        let from = tally.rng.pick(&[1, 1, 1, row.steps.len()]);
        let taken = tally.rng.between(from, row.steps.len());
        let before = &cert[..row.place + 7 * taken];
        if let Some(step) = row.fitting_step(&mut tally.rng, taken) {
            for steps in row.probes(&mut tally.rng, taken, step) {
                let steps = steps.iter().flat_map(encoded);
                let bytes: Vec<u8> = before.iter().copied().chain(steps).collect();
                tally.ask("probe", sheet, &bytes);
            }
        }
    }
}

fn encoded(step: &Step) -> Vec<u8> {
    encode::step(step.first, step.second, step.pivot)
}

/// A step like this one that may not fit.
fn changed(rng: &mut Rng, step: Step) -> Step {
    let near = |rng: &mut Rng, number: usize| (number + rng.below(5)).saturating_sub(2);
    match rng.below(4) {
        0 => Step {
            first: near(rng, step.first),
            ..step
        },
        1 => Step {
            second: near(rng, step.second),
            ..step
        },
        2 => Step {
            pivot: near(rng, step.pivot),
            ..step
        },
        _ => Step {
            first: step.second,
            second: step.first,
            ..step
        },
    }
}

/// One refutation: where its steps start, and every clause it may name.
struct Row {
    place: usize,
    given: usize,
    steps: Vec<Step>,
    clauses: Vec<Literals>,
}

impl Row {
    fn of_each_refutation(sheet: &[u8], cert: &[u8]) -> Vec<Row> {
        let records = split(cert);
        let closing = records.iter().position(|record| record[0] == INVARIANT);
        let closing = closing.expect("accepted, so it has one");
        let invariant = records[1..closing].concat();
        let mut place = records[..=closing].concat().len();
        let refutations = records[closing + 1..].split(|record| record[0] == QED);
        let mut rows = Vec::new();
        for (index, records) in refutations.take(3).enumerate() {
            let given = clause_set(index as u32 + 1, sheet, &invariant);
            let given = given.expect("accepted, so it is translated");
            rows.push(Row::new(place, given, records));
            place += records.concat().len() + 1;
        }
        rows
    }

    fn new(place: usize, given: Vec<Literals>, records: &[Vec<u8>]) -> Row {
        let mut row = Row {
            place,
            given: given.len(),
            steps: Vec::new(),
            clauses: given,
        };
        for record in records.iter().filter(|record| record[0] == STEP) {
            let number = |at: usize| u16::from_le_bytes([record[at], record[at + 1]]) as usize;
            row.take(Step {
                first: number(1),
                second: number(3),
                pivot: number(5),
            });
        }
        row
    }

    fn take(&mut self, step: Step) {
        self.clauses.push(self.derived(step));
        self.steps.push(step);
    }

    fn derived(&self, step: Step) -> Literals {
        let clause = |number: usize| &self.clauses[number - 1];
        let plain = 2 * step.pivot as u16;
        resolvent(clause(step.first), clause(step.second), plain)
    }

    /// A step that names one of the clauses derived by the first so many steps
    /// and has its pivot in both with the needed signs.
    fn fitting_step(&self, rng: &mut Rng, taken: usize) -> Option<Step> {
        let one = self.given + rng.below(taken);
        self.step_with(rng, taken, one, &self.clauses[one])
    }

    /// A step that names the clause `one` and, for some literal of it, one of
    /// those there that hold the opposite.
    fn step_with(
        &self,
        rng: &mut Rng,
        taken: usize,
        one: usize,
        clause: &Literals,
    ) -> Option<Step> {
        if clause.is_empty() {
            return None;
        }
        let literal = rng.pick(clause);
        let holders = self.holders(taken, |clause| clause.contains(&(literal ^ 1)));
        if holders.is_empty() {
            return None;
        }
        let other = rng.pick(&holders);
        let (first, second) = if literal % 2 == 0 {
            (one, other)
        } else {
            (other, one)
        };
        Some(Step {
            first: first + 1,
            second: second + 1,
            pivot: literal as usize / 2,
        })
    }

    /// A step that fits, others that may not, and one more that names what the
    /// first one derives.
    fn probes(&self, rng: &mut Rng, taken: usize, step: Step) -> Vec<Vec<Step>> {
        let mut probes = vec![vec![step], vec![changed(rng, step)]];
        probes.extend(self.near_miss(rng, taken, step).map(|other| vec![other]));
        probes.extend(
            self.next_step(rng, taken, step)
                .map(|next| vec![step, next]),
        );
        probes
    }

    /// A step that fits the clause that another one derives.
    fn next_step(&self, rng: &mut Rng, taken: usize, step: Step) -> Option<Step> {
        let derived = self.derived(step);
        self.step_with(rng, taken, self.given + taken, &derived)
    }

    /// The step with one of its clauses changed for one that lacks the pivot but
    /// has a literal in its stead that differs in one bit.
    fn near_miss(&self, rng: &mut Rng, taken: usize, step: Step) -> Option<Step> {
        let plain = 2 * step.pivot as u16;
        let needed = plain + rng.below(2) as u16;
        let similar = needed ^ (1 << rng.below(12));
        let lacking = |clause: &Literals| clause.contains(&similar) && !clause.contains(&needed);
        let holders = self.holders(taken, lacking);
        if holders.is_empty() {
            return None;
        }
        let number = rng.pick(&holders) + 1;
        Some(match needed == plain {
            true => Step {
                first: number,
                ..step
            },
            false => Step {
                second: number,
                ..step
            },
        })
    }

    /// The clauses, given or derived by the first so many steps, that suit.
    fn holders(&self, taken: usize, suits: impl Fn(&Literals) -> bool) -> Vec<usize> {
        let there = &self.clauses[..self.given + taken];
        (0..there.len()).filter(|&at| suits(&there[at])).collect()
    }
}
