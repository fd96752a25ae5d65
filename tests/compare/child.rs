//! One run of a program: its words, what it is fed, what it wrote.

use std::ffi::OsString;
use std::fs::{self, File};
use std::io::Write;
use std::os::unix::process::CommandExt;
use std::path::{Path, PathBuf};
use std::process::{Child, Command, ExitStatus, Stdio};
use std::time::{Duration, Instant};

/// Far more than any run needs, on however busy a machine.
const LONGEST: Duration = Duration::from_secs(20);

/// A user that may read what everybody may.
const NOBODY: u32 = 65_534;

pub struct Run {
    pub program: PathBuf,
    pub words: Vec<OsString>,
    /// Where relative names start, and where the output is kept.
    pub folder: PathBuf,
    /// What standard input gives, piece after piece.
    pub fed: Vec<Vec<u8>>,
    pub as_nobody: bool,
}

impl Run {
    /// All that was written to standard output, or what went wrong.
    pub fn written(&self) -> Result<Vec<u8>, String> {
        let (output, errors) = (self.folder.join("output"), self.folder.join("errors"));
        let mut child = self.spawn(&output, &errors).map_err(said)?;
        self.feed(&mut child);
        let status = wait(&mut child)?;
        if status.code().is_none() {
            return Err(format!("ended by a signal: {status}"));
        }
        match read(&errors)? {
            errors if errors.is_empty() => read(&output),
            errors => Err(format!("wrote errors: {}", shown(&errors))),
        }
    }

    fn spawn(&self, output: &Path, errors: &Path) -> std::io::Result<Child> {
        let mut command = Command::new(&self.program);
        command.args(&self.words).current_dir(&self.folder);
        command.stdout(File::create(output)?);
        command.stderr(File::create(errors)?);
        command.stdin(if self.fed.is_empty() {
            Stdio::null()
        } else {
            Stdio::piped()
        });
        if self.as_nobody {
            command.uid(NOBODY).gid(NOBODY);
        }
        command.spawn()
    }

    /// In pieces with a pause between them, so that reads come out short.
    fn feed(&self, child: &mut Child) {
        let Some(mut input) = child.stdin.take() else {
            return;
        };
        for piece in &self.fed {
            // The program may have read enough and be gone.
            let _ = input.write_all(piece);
            std::thread::sleep(Duration::from_millis(10));
        }
    }
}

fn wait(child: &mut Child) -> Result<ExitStatus, String> {
    let began = Instant::now();
    loop {
        if let Some(status) = child.try_wait().map_err(said)? {
            return Ok(status);
        }
        if began.elapsed() > LONGEST {
            let _ = child.kill();
            let _ = child.wait();
            return Err(format!("did not end within {LONGEST:?}"));
        }
        std::thread::sleep(Duration::from_millis(1));
    }
}

fn read(path: &Path) -> Result<Vec<u8>, String> {
    fs::read(path).map_err(said)
}

fn said(error: std::io::Error) -> String {
    error.to_string()
}

pub fn shown(bytes: &[u8]) -> String {
    String::from_utf8_lossy(bytes).chars().take(300).collect()
}
