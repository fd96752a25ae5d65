//! One case put to both programs, and what is printed where they differ.

use crate::answer::Answer;
use crate::lent::Lent;
use std::fmt::Display;

pub struct Case<'a> {
    pub part: &'a str,
    pub what: &'a dyn Display,
    /// The set asked of the translator; the checker is asked for none.
    pub set: Option<u32>,
    pub sheet: &'a [u8],
    pub certificate: &'a [u8],
    pub lent: usize,
}

impl Case<'_> {
    pub fn same_answer(&self, library: Answer, second: Answer) {
        if library != second {
            self.differs(&format!("library: {library}\nsecond:  {second}"));
        }
    }

    /// `wanted` says who or what wants the memory to be so.
    pub fn same_memory(&self, library: &Lent, other: &Lent, wanted: &str) {
        if let Some((place, ours, theirs)) = library.first_difference(other) {
            self.differs(&format!(
                "place {place} of the lent memory\nlibrary: {ours}\n{wanted}: {theirs}"
            ));
        }
    }

    pub fn right(&self, right: bool, wanted: &str) {
        if !right {
            self.differs(wanted);
        }
    }

    /// Prints the case and ends the run: what comes after the first difference
    /// says little.
    pub fn differs(&self, how: &str) -> ! {
        println!("\nDIFFERENCE in {}: {}", self.part, self.what);
        match self.set {
            Some(set) => println!(
                "gustvane_translate, set {set}, room of {} places",
                self.lent
            ),
            None => println!("gustvane_check, workspace of {} places", self.lent),
        }
        println!("sheet, {} bytes: {}", self.sheet.len(), hex(self.sheet));
        let length = self.certificate.len();
        println!("certificate, {length} bytes: {}", hex(self.certificate));
        println!("{how}");
        std::process::exit(1)
    }
}

fn hex(bytes: &[u8]) -> String {
    let words: Vec<String> = bytes.iter().map(|byte| format!("{byte:02X}")).collect();
    words.join(" ")
}
