//! Running a program on an input.

use std::fs;
use std::io::{self, ErrorKind, Write};
use std::path::{Path, PathBuf};
use std::process::{Command, Stdio};

use crate::inputs::Input;

/// What a program printed, and the status with which it ended if it was not stopped by a signal.
#[derive(PartialEq, Eq)]
pub struct Outcome {
    pub text: Vec<u8>,
    pub status: Option<i32>,
}

/// A folder for the files of one worker.
pub struct Scratch {
    folder: PathBuf,
}

impl Scratch {
    /// Makes a folder of this process for a worker.
    pub fn new(worker: usize) -> io::Result<Scratch> {
        let folder = std::env::temp_dir().join(format!("compare-{}-{worker}", std::process::id()));
        fs::create_dir_all(&folder)?;
        Ok(Scratch { folder })
    }

    /// Writes the files of an input, which both programs read.
    pub fn write(&self, input: &Input) -> io::Result<()> {
        fs::write(self.book(), &input.book)?;
        fs::write(
            self.payments(),
            input.payments.as_deref().unwrap_or_default(),
        )
    }

    /// Where the book is.
    fn book(&self) -> PathBuf {
        self.folder.join("book")
    }

    /// Where the list of payments is.
    fn payments(&self) -> PathBuf {
        self.folder.join("payments")
    }
}

impl Drop for Scratch {
    /// Removes the folder; if that fails it is only left behind.
    fn drop(&mut self) {
        let _ = fs::remove_dir_all(&self.folder);
    }
}

/// Runs a program on an input whose files were written.
pub fn run(program: &Path, input: &Input, scratch: &Scratch) -> io::Result<Outcome> {
    let mut command = Command::new(program);
    if input.payments.is_some() {
        command.arg("--audit").arg(scratch.payments());
    }
    if input.by_file {
        command.arg(scratch.book());
    }
    let mut child = command
        .stdin(Stdio::piped())
        .stdout(Stdio::piped())
        .stderr(Stdio::null())
        .spawn()?;
    if let Some(mut stdin) = child.stdin.take().filter(|_| !input.by_file) {
        match stdin.write_all(&input.book) {
            // A program that has refused the book need not read the rest of it.
            Err(error) if error.kind() != ErrorKind::BrokenPipe => return Err(error),
            _ => {}
        }
    }
    let output = child.wait_with_output()?;
    Ok(Outcome {
        text: output.stdout,
        status: output.status.code(),
    })
}
