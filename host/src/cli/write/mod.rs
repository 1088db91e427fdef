//! `write`: a mesh is read, corrected and written.

pub mod args;
mod aside;
mod corrections;
mod line;
mod zones;

use super::output::Output;
use super::style::{shown_name, Style};
use super::text::{mend, refused, show, sizes};
use super::{input, CLEAN, REFUSED, TROUBLE};
use args::Options;
use corrections::Change;
use line::Bad;
use ravneket::locate::stepped_over;
use ravneket::names::counted;
use ravneket::{Lines, Mesh, Unwritten, MAX_BYTES};
use std::ffi::OsStr;
use std::io::Write;
use std::panic::{catch_unwind, AssertUnwindSafe};

/// Why nothing was written: lines for standard error, and the exit status.
struct Failed {
    told: String,
    status: u8,
}

impl Failed {
    fn trouble(name: &OsStr, reason: &str) -> Failed {
        Failed { told: format!("ravneket: {}: {reason}\n", shown_name(name)), status: TROUBLE }
    }

    fn refused(told: String) -> Failed {
        Failed { told, status: REFUSED }
    }
}

/// Writes a mesh and answers the exit status.
pub fn run(options: &Options, output: &mut Output) -> u8 {
    let flaw = |_| Err(Failed::trouble(&options.file, "could not be written: this is a flaw of ravneket"));
    // A panic has told its reason on standard error.
    let written = catch_unwind(AssertUnwindSafe(|| written(options))).unwrap_or_else(flaw);
    match written {
        Ok(out) => output.write(&out).unwrap_or_else(|end| end.status(CLEAN)),
        Err(failed) => {
            let _ = std::io::stderr().write_all(failed.told.as_bytes());
            failed.status
        }
    }
}

/// What is due on standard output once all is done: the text, or with `-o` what was changed and written.
fn written(options: &Options) -> Result<Vec<u8>, Failed> {
    if let Some(out) = &options.out {
        aside::obstacle(out, options.force).map_or(Ok(()), |reason| Err(Failed::trouble(out, &reason)))?;
    }
    let bytes = input::load(&options.file).map_err(|reason| Failed::trouble(&options.file, &reason))?;
    let name = shown_name(&options.file);
    let style = Style::of_stderr();
    let mut mesh = Mesh::read(&bytes).map_err(|refusal| Failed::refused(refused(&name, &bytes, &refusal, style)))?;
    let changes = corrected(options, &mut mesh, style)?;
    let text = mesh.to_text().map_err(|reason| Failed::refused(unwritten(&name, &reason, style)))?;
    if !options.quiet {
        tell_left_out(&name, &bytes);
    }
    let Some(out) = &options.out else { return Ok(text) };
    aside::save(out, &text, options.force).map_err(|reason| Failed::trouble(out, &reason))?;
    let mut said = String::new();
    if !options.quiet {
        let with = options.with.as_deref().map_or(String::new(), shown_name);
        said.extend(changes.iter().map(|change| format!("{with}:{}: {}\n", change.line, change.what)));
        let made = counted(changes.len(), "correction");
        said += &format!("{}: written: {}, {} bytes, {made}\n", shown_name(out), sizes(&mesh), text.len());
    }
    Ok(said.into_bytes())
}

/// Makes the corrections, if there are any.
fn corrected(options: &Options, mesh: &mut Mesh, style: Style) -> Result<Vec<Change>, Failed> {
    let Some(with) = &options.with else { return Ok(Vec::new()) };
    let text = input::load(with).map_err(|reason| Failed::trouble(with, &reason))?;
    if text.len() > MAX_BYTES {
        return Err(Failed::trouble(with, &format!("is over {MAX_BYTES} bytes")));
    }
    corrections::correct(&text, mesh).map_err(|bad| {
        let lines = Lines::new(&text);
        let told = bad.iter().map(|bad| wrong(&shown_name(with), &lines, bad, style)).collect();
        Failed { told, status: TROUBLE }
    })
}

/// What is wrong with a correction, its line, and a mark under the word.
fn wrong(name: &str, lines: &Lines, bad: &Bad, style: Style) -> String {
    let snippet = lines.snippet(bad.words.clone());
    let place = format!("{name}:{}:{}:", snippet.place.line, snippet.place.column);
    let mut told = format!("{} {}: {}\n", style.bold(&place), style.bad("bad correction"), bad.reason);
    show(&mut told, &snippet, style);
    told
}

fn unwritten(name: &str, reason: &Unwritten, style: Style) -> String {
    let kind = reason.kind();
    let title = format!("refused {} ({})", kind.number(), kind.name());
    let mut told = format!("{} {}: {}\n", style.bold(&format!("{name}:")), style.bad(&title), reason.explain());
    mend(&mut told, kind.advice(), style);
    told
}

/// The text has what the reader takes and nothing else; what is lost must not be lost silently.
fn tell_left_out(name: &str, bytes: &[u8]) {
    let left_out = stepped_over(bytes);
    if !left_out.is_empty() {
        let ids: Vec<String> =
            left_out.iter().map(|(id, number)| format!("{} {id}", counted(*number, "section"))).collect();
        let _ = writeln!(std::io::stderr(), "ravneket: {name}: not read, so not in the text: {}", ids.join(", "));
    }
}
