//! What a call answers, in the numbers of the exported functions.

use second::Refusal;
use std::fmt::{Display, Formatter, Result as Written};

#[derive(Clone, Copy, Debug, PartialEq, Eq)]
pub struct Answer {
    pub kind: u8,
    pub number: usize,
    pub place: usize,
}

/// Accepted, or written.
pub const DONE: u8 = 0;
pub const CONFIRMED: u8 = 1;
pub const REFUSED: u8 = 2;

impl From<second::Answer> for Answer {
    fn from(answer: second::Answer) -> Answer {
        let (kind, number, place) = match answer {
            second::Answer::Accepted => (DONE, 0, 0),
            second::Answer::Confirmed(scan) => (CONFIRMED, scan, 0),
            second::Answer::Refused(refusal) => return refusal.into(),
        };
        Answer {
            kind,
            number,
            place,
        }
    }
}

impl From<Refusal> for Answer {
    fn from(refusal: Refusal) -> Answer {
        Answer {
            kind: REFUSED,
            number: refusal.no as usize,
            place: refusal.place,
        }
    }
}

impl From<Result<usize, Refusal>> for Answer {
    fn from(translated: Result<usize, Refusal>) -> Answer {
        let written = |number| Answer {
            kind: DONE,
            number,
            place: 0,
        };
        translated.map_or_else(Answer::from, written)
    }
}

/// Any numbers can be shown: a wrong library may answer what has no name.
impl Display for Answer {
    fn fmt(&self, to: &mut Formatter) -> Written {
        let Answer {
            kind,
            number,
            place,
        } = self;
        write!(to, "kind {kind}, number {number}, place {place}")
    }
}
