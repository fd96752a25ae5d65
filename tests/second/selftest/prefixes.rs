//! Every proper prefix of a sheet, a safety certificate and a trace.

use crate::fixtures::*;
use crate::tally::Tally;
use second::make::damage::split;
use second::make::truncations;

pub fn run(tally: &mut Tally) {
    let (s, q) = (sheet_s(), certificate_q());
    for sheet in truncations(&s) {
        tally.refuses("prefix of S", sheet, &q, 2, last_edge(&s, sheet.len()));
    }
    for cert in truncations(&q) {
        tally.refuses("prefix of Q", &s, cert, 12, last_edge(&q, cert.len()));
    }
    let trace = hex("60 61 00 00 62 62 61 00 00 62 62 2F");
    for cert in truncations(&trace) {
        tally.refuses(
            "prefix of a trace",
            &sheet_p(),
            cert,
            12,
            last_edge(&trace, cert.len()),
        );
    }
    let other = second::ladder::Names::new("i j", "a b c");
    let rungs = [("b", "i & !j | a"), ("a", "!c & (b | j)")];
    let sheet = other.sheet("a c", &rungs, "!(a & b) | c & i");
    for cut in truncations(&sheet) {
        tally.refuses(
            "prefix of a sheet",
            cut,
            &q,
            2,
            last_edge(&sheet, cut.len()),
        );
    }
}

/// The offset of the record that a cut at `length` falls into, or the cut
/// itself where it falls between two records.
fn last_edge(whole: &[u8], length: usize) -> usize {
    let mut edge = 0;
    for record in split(whole) {
        if edge + record.len() > length {
            break;
        }
        edge += record.len();
    }
    edge
}
