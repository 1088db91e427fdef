//! One file: what it is, and what is said of it.

use super::args::{Format, Options};
use super::style::{shown_name, Style};
use super::{input, json, paper, text, CLEAN, FAULTS, REFUSED, TROUBLE};
use ravneket::{Audit, Mesh, Refusal};
use std::ffi::OsStr;
use std::panic::{catch_unwind, AssertUnwindSafe};

/// What the proved functions say of a text.
pub enum Verdict {
    Refused(Refusal),
    Read(Mesh, Audit),
}

impl Verdict {
    pub fn of(text: &[u8]) -> Verdict {
        match Mesh::read(text) {
            Err(refusal) => Verdict::Refused(refusal),
            Ok(mesh) => {
                let audit = mesh.audit();
                Verdict::Read(mesh, audit)
            }
        }
    }

    pub fn status(&self) -> u8 {
        match self {
            Verdict::Refused(_) => REFUSED,
            Verdict::Read(_, audit) if audit.total > 0 => FAULTS,
            Verdict::Read(..) => CLEAN,
        }
    }
}

/// What is said of a file.
pub struct Outcome {
    /// For standard output.
    pub out: Vec<u8>,
    /// For standard error, a line without its end.
    pub trouble: Option<String>,
    pub status: u8,
}

/// Looks at one file. Whatever happens, the other files are still looked at.
pub fn look(name: &OsStr, options: &Options, style: Style) -> Outcome {
    let outcome = catch_unwind(AssertUnwindSafe(|| match input::load(name) {
        Ok(bytes) => said(name, &bytes, options, style),
        Err(reason) => unread(name, &reason, options),
    }));
    // A panic has told its reason on standard error.
    outcome.unwrap_or_else(|_| unread(name, "could not be audited: this is a flaw of ravneket", options))
}

fn said(name: &OsStr, bytes: &[u8], options: &Options, style: Style) -> Outcome {
    let trouble = bytes.is_empty().then(|| format!("{}: is empty", shown_name(name)));
    if options.format == Format::Paper {
        let (out, status) = paper::report(name, bytes, options.files.len() > 1);
        return Outcome { out, trouble, status };
    }
    let verdict = Verdict::of(bytes);
    let out = match options.format {
        Format::Json => json::verdict(name, bytes, &verdict, options.limit),
        _ if options.quiet && verdict.status() == CLEAN => String::new(),
        _ => text::verdict(&shown_name(name), bytes, &verdict, options.limit, style),
    };
    Outcome { out: out.into_bytes(), trouble, status: verdict.status() }
}

fn unread(name: &OsStr, reason: &str, options: &Options) -> Outcome {
    let out = match options.format {
        Format::Json => json::unread(name, reason),
        _ => String::new(),
    };
    Outcome { out: out.into_bytes(), trouble: Some(format!("{}: {reason}", shown_name(name))), status: TROUBLE }
}
