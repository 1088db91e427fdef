//! The report program's own answers, byte for byte.

use super::{CLEAN, FAULTS, REFUSED};
use ravneket::raw;
use std::ffi::OsStr;
use std::os::unix::ffi::OsStrExt;

/// The report program's buffer.
const MOST: usize = 65_536;
/// Room for its longest answer: 1,365 lines of at most 8 bytes, and the first.
const ROOM: usize = 16_384;

/// The report, behind a line with the file's name where there are several, and the exit status.
pub fn report(name: &OsStr, text: &[u8], several: bool) -> (Vec<u8>, u8) {
    let mut out = Vec::new();
    if several {
        out.extend_from_slice(b"== ");
        out.extend_from_slice(name.as_bytes());
        out.push(b'\n');
    }
    if text.len() > MOST {
        out.extend_from_slice(b"input over 65536\n");
        return (out, REFUSED);
    }
    let mut bytes = [0; ROOM];
    let length = raw::report(text, &mut bytes);
    let status = match bytes[0] {
        b'c' => CLEAN,
        b'f' => FAULTS,
        _ => REFUSED,
    };
    out.extend_from_slice(&bytes[..length]);
    (out, status)
}
