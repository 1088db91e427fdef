//! Answers for people, in the manner of a compiler.

use super::look::Verdict;
use super::style::Style;
use super::summary::Summary;
use ravneket::locate::{faces_naming, Rows};
use ravneket::names::{both_bases, counted, section_name, type_text};
use ravneket::{Audit, Dimension, Fault, Lines, Mesh, Refusal, RefusalKind, Snippet, Zone};
use std::fmt::Write;

/// Most faults shown of a file if nothing else is asked for.
const SHOWN: usize = 20;
/// Most faces told that name a cell.
const NAMED: usize = 12;

/// All that is said of a file.
pub fn verdict(name: &str, text: &[u8], verdict: &Verdict, limit: Option<usize>, style: Style) -> String {
    match verdict {
        Verdict::Refused(refusal) => refused(name, text, refusal, style),
        Verdict::Read(mesh, audit) if audit.total == 0 => clean(name, mesh, style),
        Verdict::Read(mesh, audit) => {
            let shown = match limit.unwrap_or(SHOWN) {
                0 => audit.faults.len(),
                most => audit.faults.len().min(most),
            };
            let mut out = listed(name, text, mesh, &audit.faults[..shown], style);
            summary(&mut out, name, mesh, audit, shown, style);
            out
        }
    }
}

pub fn refused(name: &str, text: &[u8], refusal: &Refusal, style: Style) -> String {
    let kind = refusal.kind;
    // Nothing is shown of a file that is too long.
    let text = if kind == RefusalKind::TooLong { b"" } else { text };
    let snippet = Lines::new(text).snippet(refusal.word(text));
    let title = format!("refused {} ({})", kind.number(), kind.name());
    let mut out = head(name, &snippet, &title, style);
    out += &refusal.explain(text);
    if kind == RefusalKind::TooLong {
        out += "; it was not read\n";
    } else {
        let _ = writeln!(out, " (section {}, byte {})", refusal.section, refusal.offset);
        // At the end of a file nothing stands that could be marked.
        if refusal.offset < text.len() as u64 || !snippet.line.trim().is_empty() {
            show(&mut out, &snippet, style);
        }
    }
    mend(&mut out, refusal.advice(text), style);
    out
}

fn clean(name: &str, mesh: &Mesh, style: Style) -> String {
    let zones = mesh.zones().map(|zone| format!("{} {}", both_bases(zone.zone), zone_kind(&zone)));
    let zones = zones.collect::<Vec<_>>().join(", ");
    let zones = if zones.is_empty() { "none" } else { &zones };
    format!("{}: {}: {}, zones: {zones}\n", style.bold(name), style.good("clean"), sizes(mesh))
}

fn listed(name: &str, text: &[u8], mesh: &Mesh, faults: &[Fault], style: Style) -> String {
    let rows = Rows::find(text, faults);
    let lines = Lines::new(text);
    let naming = faces_naming(mesh, faults);
    let mut told = [false; 10];
    let mut out = String::new();
    for fault in faults {
        let title = format!("fault {} ({})", fault.kind(), fault.name());
        match rows.words(fault, mesh).map(|words| lines.snippet(words)) {
            Some(snippet) => {
                let _ = writeln!(out, "{}{}", head(name, &snippet, &title, style), fault.explain(mesh));
                show(&mut out, &snippet, style);
            }
            None => {
                let _ = writeln!(out, "{}: {}: {}", style.bold(name), style.bad(&title), fault.explain(mesh));
            }
        }
        if let Some(faces) = naming.get(&fault.cell().unwrap_or(0)).filter(|_| fault.kind() == 9) {
            let _ = writeln!(out, "  {} {}", style.bold("note:"), named(faces));
        }
        // The same advice below every fault would hide the faults.
        if !std::mem::replace(&mut told[usize::from(fault.kind())], true) {
            mend(&mut out, fault.advice(), style);
        }
    }
    out
}

/// Which faces name a cell: the ones to look at where their number is wrong.
fn named(faces: &[u32]) -> String {
    let few: Vec<String> = faces.iter().take(NAMED).map(|face| both_bases(*face)).collect();
    let more = if faces.len() > NAMED { ", ..." } else { "" };
    match faces.len() {
        0 => "no face names it".to_string(),
        1 => format!("face {} names it", few[0]),
        _ => format!("faces {}{more} name it", few.join(", ")),
    }
}

fn summary(out: &mut String, name: &str, mesh: &Mesh, audit: &Audit, shown: usize, style: Style) {
    let hidden = audit.faults.len() - shown;
    if hidden > 0 {
        let _ = writeln!(out, "{name}: {} not shown; `--limit 0` shows all", counted(hidden, "more fault"));
    }
    let total = counted(audit.faults.len(), "fault");
    let _ = writeln!(out, "{}: {} in {}", style.bold(name), style.bad(&total), sizes(mesh));
    let summary = Summary::of(mesh, audit);
    let _ = writeln!(out, "  by kind:");
    for kind in &summary.kinds {
        let _ = writeln!(out, "  {:>8}  kind {}, {}", kind.total, kind.number, kind.name);
    }
    let _ = writeln!(out, "  by zone:");
    for (number, zone) in summary.zones.iter().zip(mesh.zones()).filter(|pair| *pair.0 > 0) {
        let id = both_bases(zone.zone);
        let _ = writeln!(out, "  {number:>8}  zone {id}, {} {}", zone_kind(&zone), span(&zone));
    }
}

/// `FILE:LINE:COLUMN: title: `
fn head(name: &str, snippet: &Snippet, title: &str, style: Style) -> String {
    let place = snippet.place;
    let place = format!("{name}:{}:{}:", place.line, place.column);
    format!("{} {}: ", style.bold(&place), style.bad(title))
}

pub fn show(out: &mut String, snippet: &Snippet, style: Style) {
    let _ = writeln!(out, "{:>6} | {}", snippet.place.line, snippet.line);
    let _ = writeln!(out, "{:>6} | {}", "", style.mark(&snippet.marks));
}

pub fn mend(out: &mut String, advice: &str, style: Style) {
    let _ = writeln!(out, "  {} {advice}", style.bold("mend:"));
}

pub fn sizes(mesh: &Mesh) -> String {
    let dimension = match mesh.dimension() {
        Dimension::Two => "2D",
        Dimension::Three => "3D",
    };
    let nodes = counted(mesh.node_count(), "node");
    let faces = counted(mesh.face_count(), "face");
    let cells = counted(mesh.cell_count(), "cell");
    format!("{nodes}, {faces}, {cells}, {dimension}")
}

/// `wall faces`, `nodes`.
pub fn zone_kind(zone: &Zone) -> String {
    let kind = section_name(zone.section);
    match zone.section {
        10 => kind.to_string(),
        section => format!("{} {kind}", type_text(section, zone.zone_type)),
    }
}

/// `1 to 26 (hex 1 to 1a)`.
pub fn span(zone: &Zone) -> String {
    let (first, last) = (zone.first, zone.last);
    match last {
        0..=9 => format!("{first} to {last}"),
        _ => format!("{first} to {last} (hex {first:x} to {last:x})"),
    }
}
