//! Standard output, where a reader that goes away is no error.

use super::TROUBLE;
use std::io::{self, ErrorKind, StdoutLock, Write};

/// Why nothing more can be written.
#[derive(Debug)]
pub enum End {
    /// The reader went away, as `head` does.
    Closed,
    /// Anything else, such as a full disk. It was told on standard error.
    Failed,
}

impl End {
    /// The exit status, given the one so far.
    pub fn status(self, so_far: u8) -> u8 {
        match self {
            End::Closed => so_far,
            End::Failed => TROUBLE,
        }
    }
}

/// Standard output.
pub struct Output {
    stdout: StdoutLock<'static>,
}

impl Output {
    pub fn new() -> Self {
        Output { stdout: io::stdout().lock() }
    }

    /// Writes and flushes; answers 0.
    pub fn write(&mut self, bytes: &[u8]) -> Result<u8, End> {
        let written = self.stdout.write_all(bytes).and_then(|()| self.stdout.flush());
        match written {
            Ok(()) => Ok(0),
            Err(error) if error.kind() == ErrorKind::BrokenPipe => Err(End::Closed),
            Err(error) => {
                let _ = writeln!(io::stderr(), "ravneket: standard output can't be written: {error}");
                Err(End::Failed)
            }
        }
    }
}
