//! The programs themselves: files in, one line or one clause set out.

use crate::child::{shown, Run};
use crate::files::{endless, is_root, nothing, odd_names, standard_input, Folder, Named};
use crate::fixtures::{certificate_q, hex, sheet_n, sheet_p, sheet_s};
use crate::tally::Tally;
use second::make::encode::{constant, head, trace};
use second::make::{self, Rng};
use second::records::{CONDITION, END};
use second::text::{CERTIFICATE_BYTES, SHEET_BYTES};
use std::ffi::OsString;
use std::fs;
use std::os::unix::ffi::{OsStrExt, OsStringExt};
use std::path::{Path, PathBuf};

/// Runs those of the two programs that stand in `built`, in a folder of its own.
pub fn run(tally: &mut Tally, built: &Path, folder: &Path) {
    let mut folder = Folder::new(folder);
    let pairs = pairs(&mut tally.rng, &mut folder);
    if let Some(program) = copied(built, "gustvane", &folder) {
        let checker = Program::new(program, &folder, says_line);
        checker.all_pairs(tally, &pairs, &[]);
        checker.all_others(tally, &mut folder, &[]);
    }
    if let Some(program) = copied(built, "cnf", &folder) {
        let cnf = Program::new(program, &folder, second::cnf);
        for set in ["1", "2", "3"] {
            cnf.all_pairs(tally, &pairs, &[set.into()]);
        }
        cnf.all_others(tally, &mut folder, &["2".into()]);
        set_names(tally, &cnf, &mut folder);
    }
}

/// A copy of a program, if it is built: a user who may not enter the repository
/// is to run it too.
fn copied(built: &Path, name: &str, folder: &Folder) -> Option<PathBuf> {
    let from = built.join(name);
    if from.is_file() {
        return Some(folder.program(&from, name));
    }
    println!("not there, so not run: {}", from.display());
    None
}

type File<'a> = Option<&'a [u8]>;

/// What a program should write; the checker takes no set.
type Says = fn(File, File, File) -> String;

fn says_line(_set: File, sheet: File, cert: File) -> String {
    second::line(sheet, cert) + "\n"
}

type Pair = (Named, Named);

struct Program {
    path: PathBuf,
    folder: PathBuf,
    says: Says,
}

impl Program {
    fn new(path: PathBuf, folder: &Folder, says: Says) -> Program {
        Program {
            path,
            folder: folder.path.clone(),
            says,
        }
    }

    fn run(&self, words: Vec<OsString>) -> Run {
        Run {
            program: self.path.clone(),
            words,
            folder: self.folder.clone(),
            fed: Vec::new(),
            as_nobody: false,
        }
    }

    fn all_pairs(&self, tally: &mut Tally, pairs: &[Pair], set: &[OsString]) {
        for pair in pairs {
            self.pair(tally, set, pair);
        }
    }

    fn pair(&self, tally: &mut Tally, set: &[OsString], (sheet, cert): &Pair) {
        let words = [set, &[sheet.name.clone(), cert.name.clone()]].concat();
        let wanted = self.wanted(set, sheet, cert);
        compared(tally, &self.run(words), &wanted);
    }

    fn wanted(&self, set: &[OsString], sheet: &Named, cert: &Named) -> String {
        let set = set.first().map(|name| name.as_bytes());
        (self.says)(set, sheet.content.as_deref(), cert.content.as_deref())
    }

    /// Names missing, too many, odd or of what is no plain file.
    fn all_others(&self, tally: &mut Tally, folder: &mut Folder, set: &[OsString]) {
        self.words_missing(tally, folder, set);
        self.unreadable(tally, folder, set);
        self.odd_names(tally, folder, set);
        self.devices(tally, folder, set);
        self.in_pieces(tally, folder, set);
    }

    fn words_missing(&self, tally: &mut Tally, folder: &mut Folder, set: &[OsString]) {
        let (s, q) = (folder.file(&sheet_s()), folder.file(&certificate_q()));
        let words = [set, &[s.name.clone(), q.name.clone()]].concat();
        for count in 0..words.len() {
            compared(tally, &self.run(words[..count].to_vec()), "unreadable\n");
        }
        let more = [&words[..], &["more".into(), s.name.clone()]].concat();
        compared(tally, &self.run(more), &self.wanted(set, &s, &q));
    }

    fn unreadable(&self, tally: &mut Tally, folder: &mut Folder, set: &[OsString]) {
        let (s, q) = (folder.file(&sheet_s()), folder.file(&certificate_q()));
        let long = folder.file(&vec![0; CERTIFICATE_BYTES + 1]);
        for named in folder.unreadable() {
            for other in [&q, &long, &named] {
                self.pair(tally, set, &(named.clone(), other.clone()));
            }
            for other in [&s, &long] {
                self.pair(tally, set, &(other.clone(), named.clone()));
            }
        }
        self.locked(tally, folder, set);
    }

    /// Root may read every file, so root tries this as another user.
    fn locked(&self, tally: &mut Tally, folder: &mut Folder, set: &[OsString]) {
        let (s, q) = (folder.file(&sheet_s()), folder.file(&certificate_q()));
        let locked = folder.locked(&certificate_q());
        for (sheet, cert) in [(&s, &q), (&s, &locked), (&locked, &q), (&locked, &locked)] {
            let words = [set, &[sheet.name.clone(), cert.name.clone()]].concat();
            let run = Run {
                as_nobody: is_root(),
                ..self.run(words)
            };
            compared(tally, &run, &self.wanted(set, sheet, cert));
        }
    }

    fn odd_names(&self, tally: &mut Tally, folder: &mut Folder, set: &[OsString]) {
        let q = folder.file(&certificate_q());
        for name in odd_names() {
            let whole = folder.named(name, &sheet_s());
            let bare = folder.relative(name, &sheet_s());
            self.pair(tally, set, &(whole.clone(), q.clone()));
            self.pair(tally, set, &(bare.clone(), q.clone()));
            self.pair(tally, set, &(bare, whole));
        }
    }

    fn devices(&self, tally: &mut Tally, folder: &mut Folder, set: &[OsString]) {
        let (s, q) = (folder.file(&sheet_s()), folder.file(&certificate_q()));
        let nowhere = folder.unreadable_one();
        for pair in [
            (endless(), q.clone()),
            (s.clone(), endless()),
            (endless(), endless()),
            (endless(), nowhere.clone()),
            (nowhere, endless()),
            (nothing(), q),
            (s, nothing()),
            (nothing(), nothing()),
        ] {
            self.pair(tally, set, &pair);
        }
    }

    /// Through a pipe, which gives a file piece by piece.
    fn in_pieces(&self, tally: &mut Tally, folder: &mut Folder, set: &[OsString]) {
        let (s, q) = (sheet_s(), certificate_q());
        let (sheet, cert) = (folder.file(&s), folder.file(&q));
        self.fed(tally, set, &s, &(standard_input(&s), cert));
        self.fed(tally, set, &q, &(sheet, standard_input(&q)));
    }

    fn fed(&self, tally: &mut Tally, set: &[OsString], content: &[u8], (sheet, cert): &Pair) {
        let words = [set, &[sheet.name.clone(), cert.name.clone()]].concat();
        let run = Run {
            fed: content.chunks(25).map(<[u8]>::to_vec).collect(),
            ..self.run(words)
        };
        compared(tally, &run, &self.wanted(set, sheet, cert));
    }
}

fn compared(tally: &mut Tally, run: &Run, wanted: &str) {
    tally.counts.runs += 1;
    let how = match run.written() {
        Ok(written) if written == wanted.as_bytes() => return,
        Ok(written) => format!("wrote:  {}", shown(&written)),
        Err(how) => how,
    };
    println!("\nDIFFERENCE in {}: {:?}", tally.part, run.program);
    println!("words: {:?}", run.words);
    for word in &run.words {
        print_content(&run.folder.join(word));
    }
    println!("{how}\nwanted: {}", shown(wanted.as_bytes()));
    std::process::exit(1)
}

/// Of plain files alone, for others may have no end.
fn print_content(path: &Path) {
    let plain = fs::metadata(path).is_ok_and(|it| it.is_file() && it.len() < 2_000);
    if let (true, Ok(bytes)) = (plain, fs::read(path)) {
        println!("{path:?}: {bytes:02X?}");
    }
}

/// Files of all lengths and answers.
fn pairs(rng: &mut Rng, folder: &mut Folder) -> Vec<Pair> {
    let mut pairs = sample_pairs();
    pairs.extend(pairs_at_the_bounds());
    for _ in 0..8 {
        let (sheet, cert) = make::accepted(rng);
        pairs.push((make::damaged(rng, &sheet), cert.clone()));
        pairs.push((sheet.clone(), make::damaged(rng, &cert)));
        pairs.push((sheet, cert));
    }
    for width in [make::Width::Narrow, make::Width::Wide] {
        pairs.push(make::benchmark(rng, width));
    }
    let files = pairs.iter();
    files
        .map(|(sheet, cert)| (folder.file(sheet), folder.file(cert)))
        .collect()
}

fn sample_pairs() -> Vec<(Vec<u8>, Vec<u8>)> {
    let (s, p, n, q) = (sheet_s(), sheet_p(), sheet_n(), certificate_q());
    let more = [&q[..], &[0]].concat();
    let mut pairs = vec![
        (s.clone(), q.clone()),
        (s.clone(), q[..112].to_vec()),
        (s.clone(), more),
        (s[..35].to_vec(), q.clone()),
        (vec![], q),
        (s.clone(), vec![]),
        (s, hex("50 12 01 51 41")),
        (n, hex("60 62 2F")),
    ];
    let traces = [
        "60 62 2F",
        "60 61 00 00 62 2F",
        "60 61 00 00 62 62 2F",
        "60 62 61 00 00 62 2F",
        "60 2F",
        "60 61 01 00 62 2F",
    ];
    pairs.extend(traces.map(|trace| (p.clone(), hex(trace))));
    pairs
}

/// Files at the program's two bounds, one byte short of them and one over, and
/// the longest trace there is, which has just as many bytes as may be.
fn pairs_at_the_bounds() -> Vec<(Vec<u8>, Vec<u8>)> {
    let (s, q) = (sheet_s(), certificate_q());
    let grown = |bytes: &[u8], length: usize| [bytes, &vec![0; length - bytes.len()]].concat();
    let mut pairs = Vec::new();
    for by in [0, 1, 2] {
        let (sheet, cert) = (SHEET_BYTES - 1 + by, CERTIFICATE_BYTES - 1 + by);
        pairs.push((grown(&s, sheet), q.clone()));
        pairs.push((s.clone(), grown(&q, cert)));
        pairs.push((vec![], grown(&q, cert)));
        pairs.push((grown(&s, sheet), vec![]));
        pairs.push((grown(&s, sheet), grown(&q, cert)));
    }
    pairs.push((grown(&s, 100_000), grown(&q, 300_000)));
    let never = [head(256, 1, 0), constant(0), vec![CONDITION, END]].concat();
    let longest = trace(&vec![vec![true; 256]; 64]);
    pairs.push((never.clone(), longest.clone()));
    pairs.push((never, [longest, vec![0]].concat()));
    pairs
}

/// Words for the set, with files of each answer that comes before or after 29.
fn set_names(tally: &mut Tally, cnf: &Program, folder: &mut Folder) {
    let (s, q) = (folder.file(&sheet_s()), folder.file(&certificate_q()));
    let long = folder.file(&vec![0; SHEET_BYTES + 1]);
    let empty = folder.file(&[]);
    let nowhere = folder.unreadable_one();
    let names: [&[u8]; 16] = [
        b"0", b"1", b"2", b"3", b"4", b"9", b"", b"01", b"1 ", b" 1", b"11", b"+1", b"\x01",
        b"\xB1", b"1\n", b"x",
    ];
    for name in names {
        let set = [OsString::from_vec(name.to_vec())];
        for sheet in [&s, &long, &empty, &nowhere] {
            cnf.pair(tally, &set, &(sheet.clone(), q.clone()));
        }
        cnf.pair(tally, &set, &(s.clone(), empty.clone()));
        cnf.pair(tally, &set, &(s.clone(), nowhere.clone()));
    }
}
