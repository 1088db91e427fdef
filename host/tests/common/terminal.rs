//! A pseudo-terminal: what a command writes to its terminal, byte by byte.

use std::ffi::CStr;
use std::fs::File;
use std::io::Read;
use std::os::fd::{AsRawFd, FromRawFd};
use std::os::unix::fs::OpenOptionsExt;
use std::process::Stdio;

/// Linux's numbers: for reading and writing, and not as this process's own terminal.
const READ_WRITE: i32 = 2;
const NOT_MINE: i32 = 0o400;

extern "C" {
    fn posix_openpt(flags: i32) -> i32;
    fn grantpt(terminal: i32) -> i32;
    fn unlockpt(terminal: i32) -> i32;
    fn ptsname_r(terminal: i32, name: *mut std::ffi::c_char, length: usize) -> i32;
}

/// The side of a terminal at which a person would sit.
pub struct Terminal {
    screen: File,
    seen: Vec<u8>,
}

impl Terminal {
    /// A new terminal, and the end of it for a command.
    pub fn new() -> (Terminal, Stdio) {
        let mut name = [0; 64];
        // SAFETY: the calls take a descriptor that was just opened, and a buffer with its length.
        let screen = unsafe {
            let opened = posix_openpt(READ_WRITE | NOT_MINE);
            assert!(opened >= 0, "this test needs a pseudo-terminal, and /dev/ptmx gives none");
            assert!(grantpt(opened) == 0 && unlockpt(opened) == 0, "the pseudo-terminal can't be unlocked");
            assert_eq!(ptsname_r(opened, name.as_mut_ptr(), name.len()), 0);
            File::from_raw_fd(opened)
        };
        // SAFETY: `ptsname_r` ends the name with a zero.
        let name = unsafe { CStr::from_ptr(name.as_ptr()) }.to_str().unwrap();
        let end = File::options().read(true).write(true).custom_flags(NOT_MINE).open(name);
        let end = end.unwrap_or_else(|error| panic!("{name}, terminal {}: {error}", screen.as_raw_fd()));
        (Terminal { screen, seen: Vec::new() }, end.into())
    }

    /// Reads once; false at the end, when no command has the terminal any more (Linux calls that an error).
    fn more(&mut self) -> bool {
        let mut bytes = [0; 4096];
        let count = self.screen.read(&mut bytes).unwrap_or(0);
        self.seen.extend(&bytes[..count]);
        count > 0
    }

    /// Waits until a text was written.
    pub fn wait_for(&mut self, text: &str) {
        while !self.text().contains(text) {
            assert!(self.more(), "{text:?} was never written, only {:?}", self.text());
        }
    }

    /// All that is written until the end.
    pub fn to_the_end(mut self) -> String {
        while self.more() {}
        self.text()
    }

    fn text(&self) -> String {
        String::from_utf8(self.seen.clone()).unwrap()
    }
}
