//! The command: what it is asked, file by file what it found, and the exit status.

mod args;
mod batch;
mod help;
mod input;
mod json;
mod look;
mod output;
mod paper;
mod style;
mod summary;
mod text;
mod write;

use args::Wanted;
use output::Output;
use std::io::Write;
use std::process::ExitCode;

/// All files are clean; the text is written.
pub const CLEAN: u8 = 0;
/// Some file has faults.
pub const FAULTS: u8 = 1;
/// Some file was refused, or tables that no text could give.
pub const REFUSED: u8 = 2;
/// The command was called wrongly, a file could not be read or written, or a correction is bad.
pub const TROUBLE: u8 = 3;

/// Runs the command with the arguments of this process.
pub fn main() -> ExitCode {
    let status = match args::parse(std::env::args_os().skip(1)) {
        Ok(Wanted::Help) => say(&help::text()),
        Ok(Wanted::Version) => say(&format!("ravneket {}\n", env!("CARGO_PKG_VERSION"))),
        Ok(Wanted::Audit(options)) => batch::run(&options, &mut Output::new()),
        Ok(Wanted::Write(options)) => write::run(&options, &mut Output::new()),
        Err(reason) => {
            let _ = writeln!(std::io::stderr(), "ravneket: {reason}; `ravneket --help` says how");
            TROUBLE
        }
    };
    ExitCode::from(status)
}

fn say(text: &str) -> u8 {
    Output::new().write(text.as_bytes()).unwrap_or_else(|end| end.status(CLEAN))
}
