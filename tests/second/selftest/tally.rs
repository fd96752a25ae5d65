//! Counting cases, and asking the checker under the workspace rule.

use second::{check, refusal, Answer, Refusal, Sheet};
use std::collections::BTreeSet;
use std::fmt::{Debug, Display};

#[derive(Default)]
pub struct Tally {
    pub cases: usize,
    pub failures: usize,
    /// The refusal numbers that some case asked for by name.
    seen: BTreeSet<u32>,
}

impl Tally {
    pub fn same<T: PartialEq + Debug>(&mut self, what: impl Display, got: T, wanted: T) {
        self.cases += 1;
        if got != wanted {
            self.failures += 1;
            println!("FAILED {what}: got {got:?}, wanted {wanted:?}");
        }
    }

    pub fn right(&mut self, what: impl Display, right: bool) {
        self.same(what, right, true);
    }

    /// The checker's answer; the workspace is lent full of numbers and longer
    /// than needed, and must come back as the paper says.
    pub fn ask(&mut self, what: impl Display, sheet: &[u8], cert: &[u8]) -> Answer {
        let mut work = vec![0xA5A5; Sheet::WORKSPACE + 7];
        let answer = check(sheet, cert, &mut work);
        let (first, others) = work.split_at(Sheet::WORKSPACE);
        let kept = others.iter().all(|&place| place == 0xA5A5);
        let rule = first.iter().all(|&place| place == 0) && kept;
        self.right(format!("{what}: workspace"), rule);
        answer
    }

    pub fn answers(&mut self, what: impl Display, sheet: &[u8], cert: &[u8], wanted: Answer) {
        let got = self.ask(&what, sheet, cert);
        self.same(what, got, wanted);
        if let Answer::Refused(Refusal { no, .. }) = wanted {
            self.seen.insert(no);
        }
    }

    /// The same for answers that no call of the checker gives.
    pub fn saw(&mut self, no: u32) {
        self.seen.insert(no);
    }

    pub fn all_numbers_seen(&mut self) {
        let seen: Vec<u32> = self.seen.iter().copied().collect();
        self.same("refusal numbers asked for", seen, (1..=29).collect());
    }

    pub fn refuses(
        &mut self,
        what: impl Display,
        sheet: &[u8],
        cert: &[u8],
        no: u32,
        place: usize,
    ) {
        self.answers(what, sheet, cert, refused(no, place));
    }
}

pub fn refused(no: u32, place: usize) -> Answer {
    Answer::Refused(refusal(no, place))
}
