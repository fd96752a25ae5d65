//! Records: kinds, body lengths and the reader that walks them.

use crate::{refusal, Refusal};

pub const HEAD: u8 = 0x01;
pub const START: u8 = 0x02;
pub const INPUT: u8 = 0x10;
pub const COIL: u8 = 0x11;
pub const CONSTANT: u8 = 0x12;
pub const NOT: u8 = 0x13;
pub const AND: u8 = 0x14;
pub const OR: u8 = 0x15;
pub const RUNG: u8 = 0x20;
pub const CONDITION: u8 = 0x21;
pub const END: u8 = 0x2F;
pub const STEP: u8 = 0x40;
pub const QED: u8 = 0x41;
pub const SAFE: u8 = 0x50;
pub const INVARIANT: u8 = 0x51;
pub const TRACE: u8 = 0x60;
pub const INPUT_ON: u8 = 0x61;
pub const SCAN: u8 = 0x62;

/// The entry for "no such kind".
pub const NO_KIND: u8 = 255;

const fn body_length(kind: u8) -> u8 {
    match kind {
        HEAD | STEP => 6,
        START => 3,
        INPUT | COIL | RUNG | INPUT_ON => 2,
        CONSTANT => 1,
        NOT | AND | OR | CONDITION | END | QED => 0,
        SAFE | INVARIANT | TRACE | SCAN => 0,
        _ => NO_KIND,
    }
}

/// Body length by kind byte.
pub static BODY: [u8; 256] = body_lengths();

const fn body_lengths() -> [u8; 256] {
    let mut lengths = [NO_KIND; 256];
    let mut kind = 0;
    while kind < 256 {
        lengths[kind] = body_length(kind as u8);
        kind += 1;
    }
    lengths
}

pub fn is_formula(kind: u8) -> bool {
    (INPUT..=OR).contains(&kind)
}

/// The refusal numbers that sheet and certificate have in pairs.
pub struct Faults {
    pub ends: u32,
    pub kind: u32,
    pub range: u32,
    pub values: u32,
    pub stack: u32,
    pub records: u32,
    pub after_end: u32,
}

pub static IN_SHEET: Faults = Faults {
    ends: 2,
    kind: 3,
    range: 4,
    values: 6,
    stack: 7,
    records: 8,
    after_end: 11,
};

pub static IN_CERTIFICATE: Faults = Faults {
    ends: 12,
    kind: 13,
    range: 14,
    values: 15,
    stack: 16,
    records: 17,
    after_end: 26,
};

/// One whole record and the offset of its kind byte.
pub struct Record<'a> {
    pub place: usize,
    pub kind: u8,
    pub body: &'a [u8],
}

impl Record<'_> {
    /// The two-byte number that starts at this byte of the body.
    pub fn number(&self, at: usize) -> usize {
        self.body[at] as usize + 256 * self.body[at + 1] as usize
    }
}

pub struct Reader<'a> {
    bytes: &'a [u8],
    place: usize,
    faults: &'static Faults,
}

impl<'a> Reader<'a> {
    pub fn new(bytes: &'a [u8], faults: &'static Faults) -> Reader<'a> {
        Reader {
            bytes,
            place: 0,
            faults,
        }
    }

    /// The next record, if its kind is one that `allowed` admits at this spot.
    /// The order is the paper's: nothing left, kind, body cut.
    pub fn next(&mut self, allowed: impl Fn(u8) -> bool) -> Result<Record<'a>, Refusal> {
        let place = self.place;
        let Some(&kind) = self.bytes.get(place) else {
            return Err(refusal(self.faults.ends, self.bytes.len()));
        };
        let length = BODY[kind as usize];
        if length == NO_KIND || !allowed(kind) {
            return Err(refusal(self.faults.kind, place));
        }
        let from = place + 1;
        let to = from + length as usize;
        let Some(body) = self.bytes.get(from..to) else {
            return Err(refusal(self.faults.ends, place));
        };
        self.place = to;
        Ok(Record { place, kind, body })
    }

    /// To be asked once END is read: no byte may follow it.
    pub fn nothing_after_end(&self) -> Result<(), Refusal> {
        if self.place < self.bytes.len() {
            return Err(refusal(self.faults.after_end, self.place));
        }
        Ok(())
    }
}
