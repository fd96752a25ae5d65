//! The library under test, called as any program would call it.

use crate::answer::Answer;

extern "C" {
    fn gustvane_check(
        sheet: *const u8,
        sheet_len: usize,
        certificate: *const u8,
        certificate_len: usize,
        work: *mut u16,
        work_len: usize,
        number: *mut usize,
        place: *mut usize,
    ) -> u8;

    fn gustvane_translate(
        set: u32,
        sheet: *const u8,
        sheet_len: usize,
        certificate: *const u8,
        certificate_len: usize,
        room: *mut u16,
        room_len: usize,
        number: *mut usize,
        place: *mut usize,
    ) -> u8;
}

/// What number and place hold before a call, to see that both are written.
const RUBBISH: usize = usize::MAX - 7;

pub fn check(sheet: &[u8], certificate: &[u8], work: &mut [u16]) -> Answer {
    let (mut number, mut place) = (RUBBISH, RUBBISH);
    // SAFETY: each pointer goes with its own length, and no two slices overlap.
    let kind = unsafe {
        gustvane_check(
            sheet.as_ptr(),
            sheet.len(),
            certificate.as_ptr(),
            certificate.len(),
            work.as_mut_ptr(),
            work.len(),
            &mut number,
            &mut place,
        )
    };
    Answer {
        kind,
        number,
        place,
    }
}

pub fn translate(set: u32, sheet: &[u8], certificate: &[u8], room: &mut [u16]) -> Answer {
    let (mut number, mut place) = (RUBBISH, RUBBISH);
    // SAFETY: as above.
    let kind = unsafe {
        gustvane_translate(
            set,
            sheet.as_ptr(),
            sheet.len(),
            certificate.as_ptr(),
            certificate.len(),
            room.as_mut_ptr(),
            room.len(),
            &mut number,
            &mut place,
        )
    };
    Answer {
        kind,
        number,
        place,
    }
}
