//! Random cases, from fixed seeds.

use crate::slow;
use crate::tally::{refused, Tally};
use second::brute::{confirm, passes};
use second::formula::FormulaRecord;
use second::make::damage::split;
use second::make::{self, Limit, Rng, Width};
use second::records::{INVARIANT, NOT, SAFE, STEP, TRACE};
use second::{translate, Answer, Sheet};

/// Small sheets with random invariants, all states and inputs tried.
pub fn clause_sets(tally: &mut Tally) {
    let mut rng = Rng::new(1);
    for round in 0..4_000 {
        let sheet = make::small_sheet(&mut rng);
        let coils = Sheet::read(&sheet).expect("made well formed").coils;
        let records = rng.between(1, 10);
        let invariant = make::invariant(&mut rng, coils, records);
        let got = confirm(&sheet, &invariant).map(|_| ());
        tally.same(format!("clause sets {round}"), got, Ok(()));
    }
}

pub fn accepted_certificates(tally: &mut Tally) {
    let mut rng = Rng::new(2);
    let mut other_sheet = crate::fixtures::sheet_s();
    for round in 0..500 {
        let (sheet, cert) = make::accepted(&mut rng);
        tally.answers(format!("accepted {round}"), &sheet, &cert, Answer::Accepted);
        agreed(tally, &sheet, &cert);
        agreed(tally, &other_sheet, &cert);
        for _ in 0..12 {
            agreed(tally, &sheet, &make::damaged(&mut rng, &cert));
            agreed(tally, &make::damaged(&mut rng, &sheet), &cert);
        }
        if round % 50 == 0 {
            for cut in make::truncations(&cert) {
                agreed(tally, &sheet, cut);
            }
        }
        other_sheet = sheet;
    }
}

/// The answer is that of the slow judges, and if it is `accepted` the
/// invariant holds up against every state.
fn agreed(tally: &mut Tally, sheet: &[u8], cert: &[u8]) {
    let got = tally.ask("agreed", sheet, cert);
    let Ok(read) = Sheet::read(sheet) else {
        let by_sheet = matches!(got, Answer::Refused(refusal) if (2..=11).contains(&refusal.no));
        return tally.right("a bad sheet is refused", by_sheet);
    };
    if let Some(slowly) = slow::judge_safety(sheet, cert) {
        tally.same(format!("slowly {sheet:02X?} {cert:02X?}"), got, slowly);
    }
    if cert.first() == Some(&TRACE) {
        let slowly = slow::judge_trace(&read, cert);
        tally.same(format!("slowly {sheet:02X?} {cert:02X?}"), got, slowly);
    }
    if got == Answer::Accepted && read.coils + read.inputs <= 8 {
        let records = split(cert);
        let closing = records.iter().position(|record| record[0] == INVARIANT);
        let formula = records[1..closing.unwrap_or(1)].concat();
        tally.same("accepted means safe", passes(&read, &formula), [true; 3]);
    }
}

pub fn traces(tally: &mut Tally) {
    let mut rng = Rng::new(3);
    for round in 0..600 {
        let sheet = if round % 3 == 0 {
            make::medium_sheet(&mut rng)
        } else {
            make::small_sheet(&mut rng)
        };
        let inputs = Sheet::read(&sheet).expect("made well formed").inputs;
        let scans = rng.pick(&[1, 2, 3, 8, 63, 64, 65]);
        let trace = make::trace(&mut rng, inputs, scans);
        agreed(tally, &sheet, &trace);
        for _ in 0..8 {
            agreed(tally, &sheet, &make::damaged(&mut rng, &trace));
        }
        if let Some(trace) = make::confirmed_trace(&mut rng, &sheet) {
            let confirmed = matches!(tally.ask("confirmed", &sheet, &trace), Answer::Confirmed(_));
            tally.right("confirmed", confirmed);
            agreed(tally, &sheet, &trace);
        }
        disorder(tally, &mut rng, &sheet);
    }
}

/// Records in no order: any answer will do that keeps the workspace rule and
/// is the slow one's where that has one.
fn disorder(tally: &mut Tally, rng: &mut Rng, sheet: &[u8]) {
    let head = make::encode::head(rng.below(3), rng.between(1, 3), rng.below(3));
    let records = rng.between(0, 12);
    let bytes = make::soup(rng, head, records);
    agreed(tally, &bytes, &[TRACE]);
    let opening = vec![rng.pick(&[SAFE, TRACE])];
    let cert = make::soup(rng, opening, records);
    agreed(tally, sheet, &cert);
}

pub fn limits(tally: &mut Tally) {
    let mut rng = Rng::new(4);
    for limit in Limit::EACH {
        for _ in 0..4 {
            at_limit(tally, &mut rng, limit);
        }
    }
}

fn at_limit(tally: &mut Tally, rng: &mut Rng, limit: Limit) {
    let bytes = make::sheet_at(rng, limit);
    let Ok(sheet) = Sheet::read(&bytes) else {
        return tally.right(format!("{limit:?}: well formed"), false);
    };
    let records = sheet.rung_records() + sheet.condition().len();
    let deepest = sheet
        .rungs
        .iter()
        .map(|rung| depth(sheet.rung_formula(rung)))
        .max();
    let deepest = deepest.unwrap_or(0).max(depth(sheet.condition()));
    let reached = match limit {
        Limit::Inputs => sheet.inputs == 256,
        Limit::Coils => sheet.coils == 256,
        Limit::Rungs => sheet.rungs.len() == 256,
        Limit::Records => records == 1_024,
        Limit::Stack => deepest == 32,
        Limit::All => {
            let counts = [sheet.inputs, sheet.coils, sheet.rungs.len()];
            counts == [256; 3] && records == 1_024 && deepest == 32
        }
    };
    tally.right(format!("{limit:?}: reached"), reached);
    let trace = make::trace(rng, sheet.inputs, 64);
    agreed(tally, &bytes, &trace);
    translated(tally, rng, &bytes, &sheet);
}

/// The most values that stand on the stack at once.
fn depth(formula: &[FormulaRecord]) -> usize {
    let mut values = 0;
    let mut most = 0;
    for record in formula {
        match record {
            FormulaRecord::Not => {}
            FormulaRecord::And | FormulaRecord::Or => values -= 1,
            _ => values += 1,
        }
        most = most.max(values);
    }
    most
}

/// All three sets with an invariant of 256 records fit the workspace's
/// clauses, leave further room alone and name only variables there are.
fn translated(tally: &mut Tally, rng: &mut Rng, bytes: &[u8], sheet: &Sheet) {
    let invariant = make::invariant(rng, sheet.coils, 256);
    let cert = [vec![SAFE], invariant.clone(), vec![INVARIANT]].concat();
    let records = sheet.rung_records() + sheet.condition().len();
    let variables = sheet.coils + sheet.inputs + records + 512;
    for set in 1..=3 {
        let mut room = vec![0xFFFF; 3 * second::clauses::CLAUSES + 5];
        let count = translate(set, bytes, &cert, &mut room).unwrap_or(0);
        let (written, others) = room.split_at(3 * count);
        tally.right("some clauses", count > 256);
        tally.right(
            "variables",
            written.iter().all(|&l| l as usize / 2 <= variables),
        );
        tally.right("room past it", others.iter().all(|&place| place == 0xFFFF));
    }
    let longer = [vec![SAFE], invariant, vec![NOT, INVARIANT]].concat();
    let place = longer.len() - 2;
    tally.answers("257 records", bytes, &longer, refused(17, place));
}

pub fn long_refutations(tally: &mut Tally) {
    let mut rng = Rng::new(5);
    for width in [Width::Narrow, Width::Wide] {
        let mut widest = 0;
        for _ in 0..40 {
            let (sheet, cert) = make::benchmark(&mut rng, width);
            tally.answers(format!("{width:?}"), &sheet, &cert, Answer::Accepted);
            let lengths = step_counts(&cert);
            let long = lengths.iter().all(|steps| (400..=512).contains(steps));
            tally.right(
                format!("{width:?}: {lengths:?} steps"),
                long && lengths.len() == 3,
            );
            agreed(tally, &sheet, &cert);
            for _ in 0..4 {
                agreed(tally, &sheet, &make::damaged(&mut rng, &cert));
            }
            if let Some(cert) = make::too_wide(&mut rng, &sheet, &cert) {
                let got = tally.ask("too wide", &sheet, &cert);
                tally.right(
                    "too wide",
                    matches!(got, Answer::Refused(refusal) if refusal.no == 20),
                );
                agreed(tally, &sheet, &cert);
            }
            widest = make::widths(&sheet, &cert)
                .into_iter()
                .fold(widest, usize::max);
        }
        let wanted = if width == Width::Wide { 24 } else { 4 };
        tally.same(format!("{width:?}: widest"), widest, wanted);
    }
}

fn step_counts(cert: &[u8]) -> Vec<usize> {
    let records = split(cert);
    let closing = records
        .iter()
        .position(|record| record[0] == INVARIANT)
        .unwrap_or(0);
    let mut counts: Vec<usize> = records[closing + 1..]
        .split(|record| record[0] != STEP)
        .map(|steps| steps.len())
        .collect();
    // Behind the third QED stand END and nothing.
    counts.truncate(3);
    counts
}
