//! `second check SHEETFILE CERTFILE` and `second cnf SET SHEETFILE CERTFILE`.

use second::text::{CERTIFICATE_BYTES, SHEET_BYTES};
use std::ffi::OsString;
use std::fs::File;
use std::io::Read;
use std::os::unix::ffi::OsStrExt;

fn main() {
    let words: Vec<OsString> = std::env::args_os().skip(1).collect();
    match words.first().and_then(|word| word.to_str()) {
        Some("check") => {
            let (sheet, cert) = (
                file(words.get(1), SHEET_BYTES),
                file(words.get(2), CERTIFICATE_BYTES),
            );
            println!("{}", second::line(sheet.as_deref(), cert.as_deref()));
        }
        Some("cnf") => {
            let set = words.get(1).map(|word| word.as_bytes());
            let (sheet, cert) = (
                file(words.get(2), SHEET_BYTES),
                file(words.get(3), CERTIFICATE_BYTES),
            );
            print!("{}", second::cnf(set, sheet.as_deref(), cert.as_deref()));
        }
        _ => {
            eprintln!("second check SHEETFILE CERTFILE\nsecond cnf SET SHEETFILE CERTFILE");
            std::process::exit(2);
        }
    }
}

/// At most one byte past the bound: enough to see that a file is too long.
fn file(name: Option<&OsString>, bound: usize) -> Option<Vec<u8>> {
    let mut bytes = Vec::new();
    File::open(name?)
        .ok()?
        .take(bound as u64 + 1)
        .read_to_end(&mut bytes)
        .ok()?;
    Some(bytes)
}
