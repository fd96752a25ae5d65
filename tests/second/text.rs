//! The program's line, and a clause set as DIMACS text.

use crate::checker::{check, Answer};
use crate::clauses::Sets;
use crate::sheet::Sheet;
use crate::translator::read_both;
use crate::{refusal, Refusal};
use std::fmt::Write;

/// The longest files the program takes: what the limits of the paper add up to.
pub const SHEET_BYTES: usize = 4_873;
pub const CERTIFICATE_BYTES: usize = 49_218;

/// The line for two files as read, `None` where a name is missing or a file
/// cannot be read; without the line feed.
pub fn line(sheet_file: Option<&[u8]>, cert_file: Option<&[u8]>) -> String {
    let (Some(sheet), Some(cert)) = (sheet_file, cert_file) else {
        return unreadable();
    };
    if let Err(refusal) = within_bounds(sheet, cert) {
        return refused(refusal);
    }
    let mut work = vec![0; Sheet::WORKSPACE];
    match check(sheet, cert, &mut work) {
        Answer::Accepted => "accepted".to_string(),
        Answer::Confirmed(scan) => format!("confirmed scan {scan}"),
        Answer::Refused(refusal) => refused(refusal),
    }
}

/// All that the DIMACS program writes, last line feed included.
pub fn cnf(set_name: Option<&[u8]>, sheet_file: Option<&[u8]>, cert_file: Option<&[u8]>) -> String {
    let (Some(name), Some(sheet), Some(cert)) = (set_name, sheet_file, cert_file) else {
        return unreadable() + "\n";
    };
    let text = set_number(name)
        .and_then(|set| within_bounds(sheet, cert).map(|()| set))
        .and_then(|set| dimacs(set, sheet, cert));
    text.unwrap_or_else(|refusal| refused(refusal) + "\n")
}

/// A clause set as DIMACS: the head line counts the variables of sheet and
/// invariant whether or not this set uses them.
pub fn dimacs(set: u32, sheet: &[u8], cert: &[u8]) -> Result<String, Refusal> {
    if !(1..=3).contains(&set) {
        return Err(refusal(29, 0));
    }
    let (sheet, invariant) = read_both(sheet, cert)?;
    let sets = Sets::new(&sheet, &invariant);
    let mut text = format!("p cnf {} {}\n", sets.variables(), sets.count(set));
    sets.give(set, &mut |clause| {
        for literal in clause.into_iter().filter(|&literal| literal != 0) {
            let sign = if literal % 2 == 1 { "-" } else { "" };
            write!(text, "{sign}{} ", literal / 2).expect("text grows as needed");
        }
        text.push_str("0\n");
    });
    Ok(text)
}

fn set_number(name: &[u8]) -> Result<u32, Refusal> {
    match name {
        [digit @ b'1'..=b'3'] => Ok((digit - b'0') as u32),
        _ => Err(refusal(29, 0)),
    }
}

fn within_bounds(sheet: &[u8], cert: &[u8]) -> Result<(), Refusal> {
    if sheet.len() > SHEET_BYTES || cert.len() > CERTIFICATE_BYTES {
        return Err(refusal(27, 0));
    }
    Ok(())
}

fn unreadable() -> String {
    "unreadable".to_string()
}

fn refused(refusal: Refusal) -> String {
    format!("refused {} at {}", refusal.no, refusal.place)
}
