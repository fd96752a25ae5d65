//! Files for the programs: names, and what reading them gives.

use std::ffi::{OsStr, OsString};
use std::fs::{self, File};
use std::io::Read;
use std::os::unix::ffi::OsStrExt;
use std::os::unix::fs::{symlink, MetadataExt, PermissionsExt};
use std::path::{Path, PathBuf};

/// A word for the program and the content of the file it names; none where the
/// file cannot be read.
#[derive(Clone)]
pub struct Named {
    pub name: OsString,
    pub content: Option<Vec<u8>>,
}

/// Past both bounds, so that more of an endless file makes no difference.
const PAST_THE_BOUNDS: usize = 50_000;

pub struct Folder {
    pub path: PathBuf,
    made: usize,
}

impl Folder {
    /// Open to everybody, for a program that is run as nobody.
    pub fn new(path: &Path) -> Folder {
        fs::create_dir_all(path).expect("the folder can be made");
        allow(path, 0o755);
        Folder {
            path: path.to_path_buf(),
            made: 0,
        }
    }

    /// A copy in the folder that everybody may run.
    pub fn program(&self, from: &Path, name: &str) -> PathBuf {
        let to = self.path.join(name);
        fs::copy(from, &to).expect("the program can be copied");
        allow(&to, 0o755);
        to
    }

    /// A new file with this content.
    pub fn file(&mut self, content: &[u8]) -> Named {
        self.made += 1;
        let name = format!("file-{}", self.made);
        self.named(OsStr::new(&name), content)
    }

    /// A file in the folder by a name of one's own, given to the program whole.
    pub fn named(&self, name: &OsStr, content: &[u8]) -> Named {
        let path = self.path.join(name);
        fs::write(&path, content).expect("the folder can be written to");
        allow(&path, 0o644);
        Named {
            name: path.into(),
            content: Some(content.to_vec()),
        }
    }

    /// The same, but the program gets the bare name: it is run in the folder.
    pub fn relative(&self, name: &OsStr, content: &[u8]) -> Named {
        Named {
            name: name.into(),
            ..self.named(name, content)
        }
    }

    /// Names of what cannot be read.
    pub fn unreadable(&mut self) -> Vec<Named> {
        let file = self.file(b"no folder").name;
        let [lost, circle] = ["lost", "circle"].map(|name| self.path.join(name));
        // Where a link cannot be made, or is there already, its name will still do.
        let _ = symlink(self.path.join("nowhere"), &lost);
        let _ = symlink(&circle, &circle);
        let mut names = vec![
            self.path.join("nowhere").into(),
            OsString::new(),
            self.path.clone().into(),
            OsString::from("."),
            OsString::from("/"),
            Path::new(&file).join("below").into(),
            self.path.join("x".repeat(300)).into(),
            OsString::from("/x".repeat(3_000)),
            lost.into(),
            circle.into(),
        ];
        names.extend(fails_when_read());
        names.into_iter().map(not_read).collect()
    }

    /// One of them.
    pub fn unreadable_one(&self) -> Named {
        not_read(self.path.join("nowhere").into())
    }

    /// A file that only its owner could make readable, for the nobody user.
    pub fn locked(&mut self, content: &[u8]) -> Named {
        let file = self.file(content);
        allow(Path::new(&file.name), 0);
        not_read(file.name)
    }
}

fn allow(path: &Path, mode: u32) {
    fs::set_permissions(path, fs::Permissions::from_mode(mode)).expect("its owner may");
}

fn not_read(name: OsString) -> Named {
    Named {
        name,
        content: None,
    }
}

/// A file that opens but fails when read, where the system has such a one.
fn fails_when_read() -> Option<OsString> {
    let name = "/proc/self/mem";
    let mut byte = [0];
    let fails = File::open(name).ok()?.read(&mut byte).is_err();
    fails.then(|| OsString::from(name))
}

pub fn endless() -> Named {
    Named {
        name: "/dev/zero".into(),
        content: Some(vec![0; PAST_THE_BOUNDS]),
    }
}

pub fn nothing() -> Named {
    Named {
        name: "/dev/null".into(),
        content: Some(Vec::new()),
    }
}

pub fn standard_input(content: &[u8]) -> Named {
    Named {
        name: "/dev/stdin".into(),
        content: Some(content.to_vec()),
    }
}

/// Names that a program could stumble over.
pub fn odd_names() -> Vec<&'static OsStr> {
    let names: [&[u8]; 6] = [b"a b", b"-x", b"--", b"line\nfeed", b"\xFF\xFE", b"%s%n"];
    names.into_iter().map(OsStr::from_bytes).collect()
}

pub fn is_root() -> bool {
    fs::metadata("/proc/self").is_ok_and(|process| process.uid() == 0)
}
