//! Runs the command in a folder of its own.

#![allow(dead_code)] // Each test file uses a part.

pub mod json;
pub mod terminal;

use std::path::{Path, PathBuf};
use std::process::{Command, Output, Stdio};

/// The clean mesh of the requirements paper, and the one with three faults.
pub const CLEAN: &str = "(2 2)(10 (0 1 3 0 2))(12 (0 1 1 0))(13 (0 1 3 0))
(10 (1 1 3 1 2)(0 0 1 0 0 1))(12 (2 1 1 1 1))
(13 (3 1 3 3 2)(1 2 0 1 2 3 0 1 3 1 0 1))
";
pub const FAULTY: &str = "(2 2)(10 (0 1 3 0 2))(12 (0 1 1 0))(13 (0 1 3 0))
(10 (1 1 3 1 2)(0 0 1 0 0 1))(12 (2 1 1 1 1))
(13 (3 1 3 3 2)(1 2 0 1 2 3 0 1 3 4 0 2))
";

/// A program, behind the words of `RAVNEKET_RUNNER` where that is set.
pub fn command(program: &Path) -> Command {
    let runner = std::env::var("RAVNEKET_RUNNER").unwrap_or_default();
    let mut words = runner.split_whitespace();
    match words.next() {
        None => Command::new(program),
        Some(first) => {
            let mut command = Command::new(first);
            command.args(words).arg(program);
            command
        }
    }
}

/// `ravneket` itself.
pub fn ravneket() -> Command {
    let mut command = command(Path::new(env!("CARGO_BIN_EXE_ravneket")));
    command.stdin(Stdio::null());
    command
}

/// A folder that is gone when it is dropped.
pub struct Folder(pub PathBuf);

impl Folder {
    pub fn new(name: &str) -> Folder {
        let path = std::env::temp_dir().join(format!("ravneket-{name}-{}", std::process::id()));
        std::fs::create_dir_all(&path).unwrap();
        Folder(path)
    }

    pub fn with(self, name: &str, bytes: impl AsRef<[u8]>) -> Folder {
        std::fs::write(self.0.join(name), bytes).unwrap();
        self
    }

    /// Runs `ravneket` in the folder.
    pub fn run(&self, arguments: &[&str]) -> Said {
        Said::of(ravneket().current_dir(&self.0).args(arguments).output().unwrap())
    }
}

impl Drop for Folder {
    fn drop(&mut self) {
        let _ = std::fs::remove_dir_all(&self.0);
    }
}

/// What a command said.
#[derive(Debug, PartialEq, Eq)]
pub struct Said {
    pub status: i32,
    pub out: String,
    pub err: String,
}

impl Said {
    pub fn of(output: Output) -> Said {
        Said {
            status: output.status.code().expect("it ended by itself"),
            out: String::from_utf8(output.stdout).unwrap(),
            err: String::from_utf8(output.stderr).unwrap(),
        }
    }
}
