//! Answers for programs: one JSON object for each file, one to a line.

use super::look::Verdict;
use super::summary::{Kind, Summary};
use ravneket::locate::Rows;
use ravneket::names::{section_name, type_name};
use ravneket::{Audit, Fault, Lines, Mesh, Refusal, Side};
use std::ffi::OsStr;
use std::fmt::Write;
use std::os::unix::ffi::OsStrExt;

/// The object of a file that was read or refused, with its line feed.
pub fn verdict(name: &OsStr, text: &[u8], verdict: &Verdict, limit: Option<usize>) -> String {
    let mut out = String::new();
    match verdict {
        Verdict::Refused(refusal) => {
            start(&mut out, name, "refused");
            refused(&mut out, text, refusal);
        }
        Verdict::Read(mesh, audit) => {
            start(&mut out, name, if audit.total == 0 { "clean" } else { "faults" });
            read(&mut out, text, mesh, audit, limit.unwrap_or(0));
        }
    }
    out += "}\n";
    out
}

/// The object of a file that could not be read.
pub fn unread(name: &OsStr, reason: &str) -> String {
    let mut out = String::new();
    start(&mut out, name, "error");
    pair(&mut out, "message", &string(reason));
    out += "}\n";
    out
}

fn start(out: &mut String, name: &OsStr, status: &str) {
    let _ = write!(out, "{{\"file\":{}", string(&name.to_string_lossy()));
    if name.to_str().is_none() {
        // The name above has lost something: here are its bytes.
        let bytes: String = name.as_bytes().iter().map(|byte| format!("{byte:02x}")).collect();
        pair(out, "file_hex", &string(&bytes));
    }
    pair(out, "status", &string(status));
}

fn refused(out: &mut String, text: &[u8], refusal: &Refusal) {
    let place = refusal.place(text);
    let _ = write!(out, ",\"refusal\":{{\"number\":{}", refusal.kind.number());
    pair(out, "name", &string(refusal.kind.name()));
    pair(out, "section", &refusal.section.to_string());
    pair(out, "offset", &refusal.offset.to_string());
    pair(out, "line", &place.line.to_string());
    pair(out, "column", &place.column.to_string());
    pair(out, "message", &string(&refusal.explain(text)));
    pair(out, "mend", &string(refusal.advice(text)));
    out.push('}');
}

fn read(out: &mut String, text: &[u8], mesh: &Mesh, audit: &Audit, limit: usize) {
    pair(out, "dimension", &(mesh.dimension() as u32).to_string());
    let (nodes, faces, cells) = (mesh.node_count(), mesh.face_count(), mesh.cell_count());
    let _ = write!(out, ",\"totals\":{{\"nodes\":{nodes},\"faces\":{faces},\"cells\":{cells}}}");
    let summary = Summary::of(mesh, audit);
    zones(out, mesh, &summary);
    pair(out, "total", &audit.total.to_string());
    let kinds: Vec<String> = summary.kinds.iter().map(kind).collect();
    pair(out, "kinds", &format!("[{}]", kinds.join(",")));
    let most = if limit == 0 { audit.faults.len() } else { limit.min(audit.faults.len()) };
    faults(out, text, mesh, &audit.faults[..most]);
}

/// The advice stands here once and not with each fault: a mesh may have half a million.
fn kind(kind: &Kind) -> String {
    let Kind { total, number, name, advice } = *kind;
    format!("{{\"kind\":{number},\"name\":{},\"faults\":{total},\"mend\":{}}}", string(name), string(advice))
}

fn zones(out: &mut String, mesh: &Mesh, summary: &Summary) {
    *out += ",\"zones\":[";
    for (at, zone) in mesh.zones().enumerate() {
        let comma = if at == 0 { "" } else { "," };
        let _ = write!(out, "{comma}{{\"section\":{}", zone.section);
        pair(out, "kind", &string(section_name(zone.section)));
        pair(out, "zone", &zone.zone.to_string());
        pair(out, "first", &zone.first.to_string());
        pair(out, "last", &zone.last.to_string());
        pair(out, "type", &zone.zone_type.to_string());
        pair(out, "type_name", &string(type_name(zone.section, zone.zone_type)));
        pair(out, "element", &zone.element.to_string());
        pair(out, "faults", &summary.zones[at].to_string());
        out.push('}');
    }
    out.push(']');
}

fn faults(out: &mut String, text: &[u8], mesh: &Mesh, faults: &[Fault]) {
    let rows = Rows::find(text, faults);
    let lines = Lines::new(text);
    *out += ",\"faults\":[";
    for (at, fault) in faults.iter().enumerate() {
        let comma = if at == 0 { "" } else { "," };
        let _ = write!(out, "{comma}{{\"kind\":{},\"name\":{}", fault.kind(), string(fault.name()));
        body(out, fault);
        if let Some((_, zone)) = fault.zone(mesh) {
            pair(out, "zone", &zone.zone.to_string());
        }
        if let Some(words) = rows.words(fault, mesh) {
            let place = lines.place(words.start);
            let _ = write!(out, ",\"line\":{},\"column\":{},\"offset\":{}", place.line, place.column, words.start);
        }
        pair(out, "message", &string(&fault.explain(mesh)));
        out.push('}');
    }
    out.push(']');
}

/// The numbers of a record.
fn body(out: &mut String, fault: &Fault) {
    if let Some(face) = fault.face() {
        pair(out, "face", &face.to_string());
    }
    if let Some(cell) = fault.cell() {
        pair(out, "cell", &cell.to_string());
    }
    match *fault {
        Fault::NodeOutside { position, .. } | Fault::NodeTwice { position, .. } => {
            pair(out, "position", &position.to_string());
        }
        Fault::CellBeyond { side, .. } => {
            pair(out, "side", &side.number().to_string());
            pair(out, "side_name", if side == Side::Right { "\"right\"" } else { "\"left\"" });
        }
        Fault::FaceCount { count, .. } => pair(out, "count", &count.to_string()),
        _ => {}
    }
}

fn pair(out: &mut String, name: &str, value: &str) {
    let _ = write!(out, ",\"{name}\":{value}");
}

/// A JSON string. Besides what JSON asks for, DEL and the two line separators of Unicode are escaped, which some readers of lines trip over.
fn string(text: &str) -> String {
    let mut out = String::from("\"");
    for character in text.chars() {
        match character {
            '"' => out += "\\\"",
            '\\' => out += "\\\\",
            '\n' => out += "\\n",
            '\r' => out += "\\r",
            '\t' => out += "\\t",
            '\0'..=' ' if character != ' ' => {
                let _ = write!(out, "\\u{:04x}", character as u32);
            }
            '\u{7f}'..='\u{9f}' | '\u{2028}' | '\u{2029}' => {
                let _ = write!(out, "\\u{:04x}", character as u32);
            }
            _ => out.push(character),
        }
    }
    out.push('"');
    out
}

#[cfg(test)]
mod tests {
    use super::*;

    #[test]
    fn strings_are_escaped() {
        assert_eq!(string("a\"b\\c"), r#""a\"b\\c""#);
        assert_eq!(string("\u{0}\u{1f} \n\r\t\u{7f}\u{2028}"), r#""\u0000\u001f \n\r\t\u007f\u2028""#);
        assert_eq!(string("dü 日\u{1f600}/"), "\"dü 日\u{1f600}/\"");
    }

    #[test]
    fn names_that_are_not_utf8_are_given_as_bytes_too() {
        let object = unread(OsStr::from_bytes(b"a\xff.msh"), "is not there");
        let due = "{\"file\":\"a\u{fffd}.msh\",\"file_hex\":\"61ff2e6d7368\",\"status\":\"error\",\"message\":\"is not there\"}\n";
        assert_eq!(object, due);
        assert!(!unread(OsStr::new("a"), "x").contains("file_hex"));
    }
}
