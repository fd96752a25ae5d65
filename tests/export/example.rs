//! Checks sheet S with certificate Q of document 01 and prints the line.

const S: &[u8] = include_bytes!("../../samples/S.sheet");
const Q: &[u8] = include_bytes!("../../samples/Q.cert");

#[rustfmt::skip]
extern "C" {
    // Each slice is its pointer and then its length, as in include/gustvane.h.
    fn gustvane_check(sheet: *const u8, sheet_len: usize, certificate: *const u8, certificate_len: usize,
        work: *mut u16, work_len: usize, number: *mut usize, place: *mut usize) -> u8;
}

#[rustfmt::skip]
fn main() {
    let (mut work, mut number, mut place) = ([0; 32_768], 0, 0);
    let answer = unsafe { gustvane_check(S.as_ptr(), S.len(), Q.as_ptr(), Q.len(),
        work.as_mut_ptr(), work.len(), &mut number, &mut place) };
    match answer {
        0 => println!("accepted"),
        1 => println!("confirmed scan {number}"),
        _ => println!("refused {number} at {place}"),
    }
}
