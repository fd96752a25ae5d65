//! A library of the same two functions, made of the second program. With it the
//! comparison must find nothing; made of an edited copy it must find the edit.

use second::{Answer, Refusal};
use std::slice::{from_raw_parts, from_raw_parts_mut};

/// # Safety
/// As include/gustvane.h says.
#[no_mangle]
pub unsafe extern "C" fn gustvane_check(
    sheet: *const u8,
    sheet_len: usize,
    certificate: *const u8,
    certificate_len: usize,
    work: *mut u16,
    work_len: usize,
    number: &mut usize,
    place: &mut usize,
) -> u8 {
    let sheet = from_raw_parts(sheet, sheet_len);
    let certificate = from_raw_parts(certificate, certificate_len);
    let work = from_raw_parts_mut(work, work_len);
    let (kind, first, second) = match second::check(sheet, certificate, work) {
        Answer::Accepted => (0, 0, 0),
        Answer::Confirmed(scan) => (1, scan, 0),
        Answer::Refused(Refusal { no, place }) => (2, no as usize, place),
    };
    (*number, *place) = (first, second);
    kind
}

/// # Safety
/// As include/gustvane.h says.
#[no_mangle]
pub unsafe extern "C" fn gustvane_translate(
    set: u32,
    sheet: *const u8,
    sheet_len: usize,
    certificate: *const u8,
    certificate_len: usize,
    room: *mut u16,
    room_len: usize,
    number: &mut usize,
    place: &mut usize,
) -> u8 {
    let sheet = from_raw_parts(sheet, sheet_len);
    let certificate = from_raw_parts(certificate, certificate_len);
    let room = from_raw_parts_mut(room, room_len);
    let (kind, first, second) = match second::translate(set, sheet, certificate, room) {
        Ok(clauses) => (0, clauses, 0),
        Err(Refusal { no, place }) => (2, no as usize, place),
    };
    (*number, *place) = (first, second);
    kind
}
