//! The checker: sheet, certificate and a lent workspace.

use crate::certificate::read_invariant;
use crate::clauses::{Sets, CLAUSES, VARIABLES};
use crate::meaning::Replay;
use crate::records::{Reader, Record, END, INPUT_ON, IN_CERTIFICATE, QED, SAFE, SCAN, STEP, TRACE};
use crate::sheet::Sheet;
use crate::{refusal, Refusal};

#[derive(Clone, Copy, Debug, PartialEq, Eq)]
pub enum Answer {
    Accepted,
    Confirmed(usize),
    Refused(Refusal),
}

pub fn check(sheet: &[u8], cert: &[u8], work: &mut [u16]) -> Answer {
    let Some(work) = work.get_mut(..Sheet::WORKSPACE) else {
        return Answer::Refused(refusal(1, 0));
    };
    let answer = judge(sheet, cert, work).unwrap_or_else(Answer::Refused);
    work.fill(0);
    answer
}

fn judge(sheet: &[u8], cert: &[u8], work: &mut [u16]) -> Result<Answer, Refusal> {
    let sheet = Sheet::read(sheet)?;
    let mut reader = Reader::new(cert, &IN_CERTIFICATE);
    let opening = reader.next(|kind| kind == SAFE || kind == TRACE)?;
    let answer = match opening.kind {
        SAFE => safety(&mut reader, &sheet, work)?,
        _ => trace(&mut reader, &sheet)?,
    };
    reader.nothing_after_end()?;
    Ok(answer)
}

fn safety(reader: &mut Reader, sheet: &Sheet, work: &mut [u16]) -> Result<Answer, Refusal> {
    let invariant = read_invariant(reader, sheet)?;
    let sets = Sets::new(sheet, &invariant);
    let mut pool = Pool::new(work);
    for set in 1..=3 {
        pool.take_set(&sets, set);
        refutation(reader, &mut pool)?;
    }
    reader.next(|kind| kind == END)?;
    Ok(Answer::Accepted)
}

fn refutation(reader: &mut Reader, pool: &mut Pool) -> Result<(), Refusal> {
    let mut latest_is_empty = false;
    loop {
        let record = reader.next(|kind| kind == STEP || kind == QED)?;
        if record.kind == STEP {
            latest_is_empty = step(&record, pool)? == 0;
        } else if latest_is_empty {
            return Ok(());
        } else {
            return Err(refusal(22, record.place));
        }
    }
}

fn step(record: &Record, pool: &mut Pool) -> Result<usize, Refusal> {
    let (first, second, pivot) = (record.number(0), record.number(2), record.number(4));
    pool.derive(first, second, pivot)
        .map_err(|no| refusal(no, record.place))
}

/// One derived clause: its width, then its literals.
const SLOT: usize = 1 + Sheet::WIDTH;

/// The clauses of one refutation, held in the workspace: the given ones three
/// places each, the derived ones a slot each. There is one slot above the
/// limit of steps, because a 513th STEP is measured before it is refused.
/// `stamps` has a place for each literal and says which step saw it last; so a
/// literal is joined once without the clauses being kept in order.
struct Pool<'a> {
    stamps: &'a mut [u16],
    given: &'a mut [u16],
    derived: &'a mut [u16],
    given_count: usize,
    steps: usize,
    stamp: u16,
}

impl<'a> Pool<'a> {
    fn new(work: &'a mut [u16]) -> Pool<'a> {
        let (stamps, rest) = work.split_at_mut(2 * VARIABLES + 2);
        let (given, rest) = rest.split_at_mut(3 * CLAUSES);
        let (derived, _) = rest.split_at_mut(SLOT * (Sheet::STEPS + 1));
        stamps.fill(0);
        Pool {
            stamps,
            given,
            derived,
            given_count: 0,
            steps: 0,
            stamp: 0,
        }
    }

    /// Starts afresh with the clauses of a set; stamps go on rising instead of
    /// being cleared, since three refutations cannot use them up.
    fn take_set(&mut self, sets: &Sets, set: u32) {
        let mut count = 0;
        let mut places = self.given.chunks_exact_mut(3);
        sets.give(set, &mut |clause| {
            if let Some(place) = places.next() {
                place.copy_from_slice(&clause);
                count += 1;
            }
        });
        self.given_count = count;
        self.steps = 0;
    }

    /// Derives the next clause and answers its width, or the number of the fault.
    fn derive(&mut self, first: usize, second: usize, pivot: usize) -> Result<usize, u32> {
        let (older, slot) = self.derived.split_at_mut(SLOT * self.steps);
        let held = Held {
            given: &self.given[..3 * self.given_count],
            derived: older,
        };
        let first = held.clause(first).ok_or(18u32)?;
        let second = held.clause(second).ok_or(18u32)?;
        // Beyond the variables 2·pivot would not fit 16 bits, and 2·0 is the filler.
        if pivot == 0 || pivot > VARIABLES {
            return Err(19);
        }
        let plain = 2 * pivot as u16;
        let negated = plain + 1;
        if !first.contains(&plain) || !second.contains(&negated) {
            return Err(19);
        }
        self.stamp += 1;
        let mut union = Union {
            stamps: self.stamps,
            stamp: self.stamp,
            slot,
            width: 0,
        };
        union.join(first, plain)?;
        union.join(second, negated)?;
        let width = union.width;
        if self.steps == Sheet::STEPS {
            return Err(21);
        }
        slot[0] = width as u16;
        self.steps += 1;
        Ok(width)
    }
}

/// The clauses that a STEP may name.
struct Held<'a> {
    given: &'a [u16],
    derived: &'a [u16],
}

impl<'a> Held<'a> {
    /// The literals of a clause, counted from 1, without filler.
    fn clause(&self, number: usize) -> Option<&'a [u16]> {
        let index = number.checked_sub(1)?;
        let given_count = self.given.len() / 3;
        if index < given_count {
            let places = &self.given[3 * index..3 * index + 3];
            let width = places.iter().take_while(|&&literal| literal != 0).count();
            return Some(&places[..width]);
        }
        let from = SLOT * (index - given_count);
        let slot = self.derived.get(from..from + SLOT)?;
        Some(&slot[1..1 + slot[0] as usize])
    }
}

struct Union<'a> {
    stamps: &'a mut [u16],
    stamp: u16,
    slot: &'a mut [u16],
    width: usize,
}

impl Union<'_> {
    /// Joins the literals of a clause but the one resolved away.
    fn join(&mut self, clause: &[u16], without: u16) -> Result<(), u32> {
        for &literal in clause {
            let seen = &mut self.stamps[literal as usize];
            if literal == without || *seen == self.stamp {
                continue;
            }
            *seen = self.stamp;
            if self.width == Sheet::WIDTH {
                return Err(20);
            }
            self.width += 1;
            self.slot[self.width] = literal;
        }
        Ok(())
    }
}

fn trace(reader: &mut Reader, sheet: &Sheet) -> Result<Answer, Refusal> {
    let mut replay = Replay::new(sheet);
    let mut inputs = vec![false; sheet.inputs];
    let mut last_on = None;
    loop {
        // END may not cut a scan short that has an input named already.
        let may_end = last_on.is_none();
        let record =
            reader.next(|kind| kind == INPUT_ON || kind == SCAN || (kind == END && may_end))?;
        match record.kind {
            INPUT_ON => last_on = Some(input_on(&record, last_on, &mut inputs)?),
            SCAN => {
                if replay.scans == Sheet::SCANS {
                    return Err(refusal(24, record.place));
                }
                replay.scan(&inputs);
                inputs.fill(false);
                last_on = None;
            }
            _ => return end_of_trace(&record, &replay),
        }
    }
}

fn input_on(
    record: &Record,
    last_on: Option<usize>,
    inputs: &mut [bool],
) -> Result<usize, Refusal> {
    let input = record.number(0);
    if input >= inputs.len() {
        return Err(refusal(14, record.place));
    }
    if last_on.is_some_and(|last| input <= last) {
        return Err(refusal(23, record.place));
    }
    inputs[input] = true;
    Ok(input)
}

fn end_of_trace(record: &Record, replay: &Replay) -> Result<Answer, Refusal> {
    if replay.scans == 0 {
        return Err(refusal(24, record.place));
    }
    match replay.confirmed() {
        Some(scan) => Ok(Answer::Confirmed(scan)),
        None => Err(refusal(25, record.place)),
    }
}
