//! The comparison: every case is asked of the library and of the second
//! program, with the same rubbish in the memory lent to each.

use crate::answer::{Answer, DONE};
use crate::case::Case;
use crate::counts::Counts;
use crate::lent::Rubbish;
use crate::library;
use second::clauses::CLAUSES;
use second::make::Rng;
use second::records::SAFE;
use second::{refusal, Sheet};
use std::fmt::{Debug, Display};

/// No set has such a number, though it may have one in fewer bits.
pub const NO_SETS: [u32; 12] = [
    0,
    4,
    5,
    255,
    256,
    257,
    65_537,
    65_538,
    0x0100_0003,
    1 << 31,
    u32::MAX - 1,
    u32::MAX,
];

/// The shortest safety certificate that a translator reads: always true.
pub const ALWAYS: [u8; 4] = [0x50, 0x12, 0x01, 0x51];

pub struct Tally {
    pub rng: Rng,
    /// How many random cases are wanted, in rounds.
    pub rounds: usize,
    pub part: &'static str,
    pub counts: Counts,
    rubbish: Rubbish,
    scratch: Vec<u16>,
}

impl Tally {
    pub fn new(seed: u64, rounds: usize) -> Tally {
        let mut rng = Rng::new(seed);
        let rubbish = Rubbish::new(&mut rng);
        Tally {
            rng,
            rounds,
            part: "",
            counts: Counts::default(),
            rubbish,
            scratch: vec![0; 3 * CLAUSES],
        }
    }

    /// A verdict with enough workspace, now and then one with too little, and a
    /// translation of the same bytes.
    pub fn ask(&mut self, what: impl Display, sheet: &[u8], cert: &[u8]) -> second::Answer {
        let places = self.enough_places();
        let answer = self.check(&what, sheet, cert, places);
        if self.rng.one_in(40) {
            let places = self.rng.pick(&[0, 1, 2, 4_096, 32_766, 32_767]);
            self.check(&what, sheet, cert, places);
        }
        self.translate_once(&what, sheet, cert);
        if cert.first() != Some(&SAFE) && self.rng.one_in(2) {
            self.translate_once(&what, sheet, &ALWAYS);
        }
        answer
    }

    fn enough_places(&mut self) -> usize {
        let more = self.rng.below(2_000);
        Sheet::WORKSPACE + self.rng.pick(&[0, 0, 0, 0, 1, 7, more])
    }

    /// A verdict with a workspace of so many places.
    pub fn check(
        &mut self,
        what: &dyn Display,
        sheet: &[u8],
        certificate: &[u8],
        places: usize,
    ) -> second::Answer {
        let before = self.rubbish.lend(&mut self.rng, places);
        let (mut ours, mut theirs) = (before.clone(), before.clone());
        let wanted = second::check(sheet, certificate, theirs.part());
        let inputs = [sheet, certificate].concat();
        let got = library::check(sheet, certificate, ours.part());
        let case = Case {
            part: self.part,
            what,
            set: None,
            sheet,
            certificate,
            lent: places,
        };
        case.same_answer(got, wanted.into());
        case.same_memory(&ours, &theirs, "second");
        let ruled = match places < Sheet::WORKSPACE {
            true => before,
            false => before.zeroed(Sheet::WORKSPACE),
        };
        case.same_memory(&ours, &ruled, "by the rule of the workspace");
        case.right(inputs == [sheet, certificate].concat(), "inputs changed");
        self.counts.verdict(got);
        wanted
    }

    /// A translation into a room of so many places.
    pub fn translate(
        &mut self,
        what: &dyn Display,
        set: u32,
        sheet: &[u8],
        certificate: &[u8],
        room: usize,
    ) -> (Answer, Vec<u16>) {
        let before = self.rubbish.lend(&mut self.rng, room);
        let (mut ours, mut theirs) = (before.clone(), before.clone());
        let wanted = second::translate(set, sheet, certificate, theirs.part()).into();
        let inputs = [sheet, certificate].concat();
        let got = library::translate(set, sheet, certificate, ours.part());
        let case = Case {
            part: self.part,
            what,
            set: Some(set),
            sheet,
            certificate,
            lent: room,
        };
        case.same_answer(got, wanted);
        case.same_memory(&ours, &theirs, "second");
        let written = if got.kind == DONE { 3 * got.number } else { 0 };
        let ruled = before.with_first(written, &ours);
        case.same_memory(&ours, &ruled, "as it was before");
        case.right(inputs == [sheet, certificate].concat(), "inputs changed");
        self.counts.translation(got);
        (got, ours.part()[..written].to_vec())
    }

    /// One set, mostly one that there is, into a room that is mostly near to
    /// what the set needs.
    fn translate_once(&mut self, what: &dyn Display, sheet: &[u8], cert: &[u8]) {
        let set = match self.rng.one_in(16) {
            true => self.rng.pick(&NO_SETS),
            false => self.rng.between(1, 3) as u32,
        };
        // The first is no room at all, which says little.
        let rooms = self.rooms(set, sheet, cert);
        let room = self.rng.pick(&rooms[1..]);
        self.translate(what, set, sheet, cert, room);
    }

    /// Every set, there or not, into rooms of every kind.
    pub fn translations(&mut self, what: &dyn Display, sheet: &[u8], cert: &[u8]) {
        for set in (1..=3).chain(NO_SETS) {
            for room in self.rooms(set, sheet, cert) {
                self.translate(what, set, sheet, cert, room);
            }
        }
    }

    /// Rooms for a set: none, short by one place, just enough, more.
    fn rooms(&mut self, set: u32, sheet: &[u8], cert: &[u8]) -> Vec<usize> {
        let more = self.rng.below(60);
        match second::translate(set, sheet, cert, &mut self.scratch) {
            Ok(count) => vec![0, 3 * count - 1, 3 * count, 3 * count + 1, 3 * count + more],
            Err(_) => vec![0, more],
        }
    }

    pub fn answers(
        &mut self,
        what: impl Display,
        sheet: &[u8],
        cert: &[u8],
        wanted: second::Answer,
    ) {
        let got = self.ask(&what, sheet, cert);
        self.same(what, got, wanted);
    }

    pub fn refuses(
        &mut self,
        what: impl Display,
        sheet: &[u8],
        cert: &[u8],
        no: u32,
        place: usize,
    ) {
        self.answers(what, sheet, cert, refused(no, place));
    }

    /// What a case says by itself; both programs agree by then, so a failure
    /// here is a fault of both or of the case.
    pub fn same<T: PartialEq + Debug>(&mut self, what: impl Display, got: T, wanted: T) {
        if got != wanted {
            println!(
                "\nWRONG in {}: {what}: got {got:?}, wanted {wanted:?}",
                self.part
            );
            std::process::exit(1);
        }
    }

    pub fn right(&mut self, what: impl Display, right: bool) {
        self.same(what, right, true);
    }

    /// For cases that count what they saw; here the counts do it.
    pub fn saw(&mut self, _no: u32) {}
}

pub fn refused(no: u32, place: usize) -> second::Answer {
    second::Answer::Refused(refusal(no, place))
}
