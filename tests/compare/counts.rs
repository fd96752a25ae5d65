//! How much was compared.

use crate::answer::{Answer, CONFIRMED, DONE};
use std::collections::{BTreeMap, BTreeSet};

#[derive(Clone, Copy, Default)]
pub struct Verdicts {
    pub accepted: usize,
    pub confirmed: usize,
    pub refused: usize,
}

impl Verdicts {
    pub fn all(&self) -> usize {
        self.accepted + self.confirmed + self.refused
    }
}

#[derive(Clone, Copy, Default)]
pub struct Translations {
    pub written: usize,
    pub refused: usize,
}

impl Translations {
    pub fn all(&self) -> usize {
        self.written + self.refused
    }
}

#[derive(Default)]
pub struct Counts {
    pub verdicts: Verdicts,
    pub translations: Translations,
    /// Clause sets of the library that brute force was asked about.
    pub sets: usize,
    /// Runs of the programs themselves.
    pub runs: usize,
    refusals: BTreeMap<usize, usize>,
    both_sides: BTreeSet<u32>,
}

/// 27 is the program's alone.
fn numbers_of_the_library() -> BTreeSet<u32> {
    (1..=29).filter(|&number| number != 27).collect()
}

impl Counts {
    pub fn verdict(&mut self, answer: Answer) {
        match answer.kind {
            DONE => self.verdicts.accepted += 1,
            CONFIRMED => self.verdicts.confirmed += 1,
            _ => {
                self.verdicts.refused += 1;
                self.refusal(answer.number);
            }
        }
    }

    pub fn translation(&mut self, answer: Answer) {
        if answer.kind == DONE {
            self.translations.written += 1;
        } else {
            self.translations.refused += 1;
            self.refusal(answer.number);
        }
    }

    fn refusal(&mut self, number: usize) {
        *self.refusals.entry(number).or_default() += 1;
    }

    /// A case on each side of this refusal's boundary was compared.
    pub fn both_sides(&mut self, number: u32) {
        self.both_sides.insert(number);
    }

    /// The refusals that were not seen, or not on both sides.
    pub fn missing(&self) -> Vec<u32> {
        let seen = |number: &u32| {
            self.refusals.contains_key(&(*number as usize)) && self.both_sides.contains(number)
        };
        let numbers = numbers_of_the_library().into_iter();
        numbers.filter(|number| !seen(number)).collect()
    }

    pub fn print(&self) {
        let Verdicts {
            accepted,
            confirmed,
            refused,
        } = self.verdicts;
        let all = self.verdicts.all();
        println!("{all} verdicts: {accepted} accepted, {confirmed} confirmed, {refused} refused");
        let Translations { written, refused } = self.translations;
        let all = self.translations.all();
        println!("{all} translations: {written} written, {refused} refused");
        let row = self.refusals.iter();
        let row: Vec<String> = row.map(|(no, count)| format!("{no}: {count}")).collect();
        println!("refusals by number: {}", row.join(", "));
        println!("{} clause sets confirmed by brute force", self.sets);
        println!("{} runs of the programs", self.runs);
    }
}
