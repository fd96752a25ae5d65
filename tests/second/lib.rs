//! A second program for document 01, written from the paper and its settled
//! readings alone. It exists to be compared with the product: the same bytes
//! must give the same answers, numbers, places and clause sets.
//!
//! `build.sh FOLDER` builds library, program and selftest; `FOLDER/selftest`
//! runs all cases and exits with 1 if one fails. `make` and `brute` are for
//! comparison tests and take no part in any answer.

#![forbid(unsafe_code)]

pub mod brute;
pub mod certificate;
pub mod checker;
pub mod clauses;
pub mod formula;
pub mod ladder;
pub mod make;
pub mod meaning;
pub mod records;
pub mod sheet;
pub mod text;
pub mod translator;

pub use checker::{check, Answer};
pub use sheet::Sheet;
pub use text::{cnf, dimacs, line};
pub use translator::translate;

/// The number of a refusal and the place it names.
#[derive(Clone, Copy, Debug, PartialEq, Eq)]
pub struct Refusal {
    pub no: u32,
    pub place: usize,
}

pub fn refusal(no: u32, place: usize) -> Refusal {
    Refusal { no, place }
}
