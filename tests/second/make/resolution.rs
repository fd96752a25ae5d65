//! Refutations of small clause sets, by splitting with unit propagation, each
//! inference written down as resolution steps.

use crate::sheet::Sheet;

#[derive(Clone, Copy, Debug, PartialEq, Eq)]
pub struct Step {
    pub first: usize,
    pub second: usize,
    pub pivot: usize,
}

/// A clause as a list of literals, 2v plain and 2v+1 negated, without filler.
pub type Literals = Vec<u16>;

/// Steps that end with the empty clause and keep the limits; the shorter of
/// what two ways of splitting find.
pub fn refute(clauses: &[Literals]) -> Option<Vec<Step>> {
    let found = [Split::Lowest, Split::Shortest].map(|split| Prover::new(clauses, split).run());
    let fitting = found
        .into_iter()
        .flatten()
        .filter(|steps| steps.len() <= Sheet::STEPS);
    fitting.min_by_key(Vec::len)
}

/// Which variable to split on: the lowest one takes coils and inputs first,
/// from which all else follows; the shortest open clause looks at the goal.
#[derive(Clone, Copy)]
enum Split {
    Lowest,
    Shortest,
}

/// Where a proof gets too long or too wide to be of use, the search stops.
const MOST_DERIVED: usize = 60_000;

struct Prover {
    split: Split,
    given: usize,
    clauses: Vec<Literals>,
    /// How each derived clause was made.
    steps: Vec<Step>,
    /// The clauses that propagation looks at: the given and the learnt.
    active: Vec<usize>,
    /// By variable: its value, and the clause that proves it under the splits.
    values: Vec<Option<bool>>,
    proofs: Vec<Option<usize>>,
    trail: Vec<u16>,
}

/// No refutation: a limit was reached or a solution found.
struct GiveUp;

impl Prover {
    fn new(clauses: &[Literals], split: Split) -> Prover {
        let highest = clauses
            .iter()
            .flatten()
            .map(|literal| literal / 2)
            .max()
            .unwrap_or(0);
        Prover {
            split,
            given: clauses.len(),
            clauses: clauses.to_vec(),
            steps: Vec::new(),
            active: (0..clauses.len()).collect(),
            values: vec![None; highest as usize + 1],
            proofs: vec![None; highest as usize + 1],
            trail: Vec::new(),
        }
    }

    fn run(mut self) -> Option<Vec<Step>> {
        let last = self.search().ok()?;
        let steps = self.trimmed(last);
        self.clauses[last].is_empty().then_some(steps)
    }

    /// A clause, false under the splits made, that holds only their opposites.
    fn search(&mut self) -> Result<usize, GiveUp> {
        let mark = self.trail.len();
        let clause = self.search_from_here()?;
        self.undo(mark);
        self.active.push(clause);
        Ok(clause)
    }

    fn search_from_here(&mut self) -> Result<usize, GiveUp> {
        if let Some(conflict) = self.propagate()? {
            return self.without_proved(conflict, None);
        }
        let literal = self.literal_to_split().ok_or(GiveUp)?;
        let with = self.branch(literal)?;
        if !self.clauses[with].contains(&(literal ^ 1)) {
            return Ok(with);
        }
        let without = self.branch(literal ^ 1)?;
        if !self.clauses[without].contains(&literal) {
            return Ok(without);
        }
        self.resolve(without, with, literal)
    }

    fn branch(&mut self, literal: u16) -> Result<usize, GiveUp> {
        let mark = self.trail.len();
        self.assign(literal, None);
        let clause = self.search()?;
        self.undo(mark);
        Ok(clause)
    }

    /// Follows unit clauses to the end; answers a clause that came out false.
    fn propagate(&mut self) -> Result<Option<usize>, GiveUp> {
        loop {
            let mut quiet = true;
            for index in 0..self.active.len() {
                let clause = self.active[index];
                match self.state(clause) {
                    State::False => return Ok(Some(clause)),
                    State::Unit(literal) => {
                        let proof = self.without_proved(clause, Some(literal))?;
                        self.assign(literal, Some(proof));
                        quiet = false;
                    }
                    State::Open(_) | State::True => {}
                }
            }
            if quiet {
                return Ok(None);
            }
        }
    }

    fn state(&self, clause: usize) -> State {
        let mut open = None;
        let mut count = 0;
        for &literal in &self.clauses[clause] {
            match self.value(literal) {
                Some(true) => return State::True,
                Some(false) => {}
                None => {
                    open = Some(literal);
                    count += 1;
                }
            }
        }
        match (open, count) {
            (None, _) => State::False,
            (Some(literal), 1) => State::Unit(literal),
            (_, count) => State::Open(count),
        }
    }

    /// Resolves every proved literal but `kept` out of a clause.
    fn without_proved(&mut self, clause: usize, kept: Option<u16>) -> Result<usize, GiveUp> {
        let mut clause = clause;
        for literal in self.clauses[clause].clone() {
            let proof = self.proofs[literal as usize / 2];
            if let (Some(proof), true) = (proof, Some(literal) != kept) {
                clause = self.resolve(clause, proof, literal)?;
            }
        }
        Ok(clause)
    }

    /// Resolves `literal` of the one clause against its opposite in the other.
    fn resolve(&mut self, with: usize, against: usize, literal: u16) -> Result<usize, GiveUp> {
        let derived = resolvent(&self.clauses[with], &self.clauses[against], literal);
        if derived.len() > Sheet::WIDTH || self.steps.len() == MOST_DERIVED {
            return Err(GiveUp);
        }
        let (first, second) = if literal % 2 == 0 {
            (with, against)
        } else {
            (against, with)
        };
        let pivot = literal as usize / 2;
        self.clauses.push(derived);
        self.steps.push(Step {
            first: first + 1,
            second: second + 1,
            pivot,
        });
        Ok(self.clauses.len() - 1)
    }

    fn literal_to_split(&self) -> Option<u16> {
        match self.split {
            Split::Lowest => self.lowest_open(),
            Split::Shortest => self.open_of_shortest(),
        }
    }

    fn lowest_open(&self) -> Option<u16> {
        let unsettled =
            self.active[..self.given]
                .iter()
                .flat_map(|&clause| match self.state(clause) {
                    State::Open(_) => self.clauses[clause].as_slice(),
                    _ => &[],
                });
        unsettled
            .copied()
            .filter(|&literal| self.value(literal).is_none())
            .min()
    }

    fn open_of_shortest(&self) -> Option<u16> {
        let open = self
            .active
            .iter()
            .filter_map(|&clause| match self.state(clause) {
                State::Open(count) => Some((count, clause)),
                _ => None,
            });
        // Later clauses lie nearer to the goal, so they win where lengths are equal.
        let (_, clause) = open.min_by_key(|&(count, clause)| (count, usize::MAX - clause))?;
        self.clauses[clause]
            .iter()
            .copied()
            .find(|&literal| self.value(literal).is_none())
    }

    fn value(&self, literal: u16) -> Option<bool> {
        self.values[literal as usize / 2].map(|value| value == (literal % 2 == 0))
    }

    fn assign(&mut self, literal: u16, proof: Option<usize>) {
        self.values[literal as usize / 2] = Some(literal % 2 == 0);
        self.proofs[literal as usize / 2] = proof;
        self.trail.push(literal / 2);
    }

    fn undo(&mut self, mark: usize) {
        for variable in self.trail.split_off(mark) {
            self.values[variable as usize] = None;
            self.proofs[variable as usize] = None;
        }
    }

    /// Only the steps that the last clause rests on, numbered anew.
    fn trimmed(&self, last: usize) -> Vec<Step> {
        let mut needed = vec![false; self.clauses.len()];
        needed[last] = true;
        for (index, step) in self.steps.iter().enumerate().rev() {
            if needed[self.given + index] {
                needed[step.first - 1] = true;
                needed[step.second - 1] = true;
            }
        }
        let mut numbers: Vec<usize> = (1..=self.given).collect();
        let mut steps = Vec::new();
        for (index, step) in self.steps.iter().enumerate() {
            if needed[self.given + index] {
                let (first, second) = (numbers[step.first - 1], numbers[step.second - 1]);
                steps.push(Step {
                    first,
                    second,
                    pivot: step.pivot,
                });
            }
            numbers.push(self.given + steps.len());
        }
        steps
    }
}

enum State {
    True,
    False,
    Unit(u16),
    Open(usize),
}

/// What is left of two clauses when `literal` of the one is resolved against
/// its opposite in the other.
pub fn resolvent(with: &[u16], against: &[u16], literal: u16) -> Literals {
    let left = with.iter().filter(|&&other| other != literal);
    let right = against.iter().filter(|&&other| other != literal ^ 1);
    let mut derived = Literals::new();
    for &literal in left.chain(right) {
        if !derived.contains(&literal) {
            derived.push(literal);
        }
    }
    derived
}
