//! Colours, and how file names are shown.

use std::ffi::OsStr;
use std::io::IsTerminal;

/// Whether colours are used.
#[derive(Clone, Copy, Debug)]
pub struct Style {
    on: bool,
}

impl Style {
    /// Colours for a terminal that knows them, unless `NO_COLOR` is set.
    pub fn of_stdout() -> Style {
        Style::of(std::io::stdout().is_terminal())
    }

    /// The same for standard error.
    pub fn of_stderr() -> Style {
        Style::of(std::io::stderr().is_terminal())
    }

    fn of(terminal: bool) -> Style {
        let unwanted = std::env::var_os("NO_COLOR").is_some_and(|value| !value.is_empty());
        let dumb = std::env::var_os("TERM").is_some_and(|name| name == "dumb");
        Style { on: !unwanted && !dumb && terminal }
    }

    fn paint(self, code: &str, text: &str) -> String {
        match self.on {
            true => format!("\x1b[{code}m{text}\x1b[0m"),
            false => text.to_string(),
        }
    }

    pub fn bold(self, text: &str) -> String {
        self.paint("1", text)
    }

    pub fn bad(self, text: &str) -> String {
        self.paint("1;31", text)
    }

    pub fn good(self, text: &str) -> String {
        self.paint("1;32", text)
    }

    pub fn mark(self, text: &str) -> String {
        self.paint("1;33", text)
    }
}

/// A file's name for people: control characters are escaped, as they could do anything to a terminal.
pub fn shown_name(name: &OsStr) -> String {
    if name == "-" {
        return "<stdin>".to_string();
    }
    let mut shown = String::new();
    for character in name.to_string_lossy().chars() {
        match character.is_control() {
            true => shown.extend(character.escape_default()),
            false => shown.push(character),
        }
    }
    shown
}

#[cfg(test)]
mod tests {
    use super::*;

    #[test]
    fn names_can_not_command_a_terminal() {
        assert_eq!(shown_name(OsStr::new("a\x1b[2J\nb.msh")), "a\\u{1b}[2J\\nb.msh");
        assert_eq!(shown_name(OsStr::new("dü se.msh")), "dü se.msh");
        assert_eq!(shown_name(OsStr::new("-")), "<stdin>");
    }

    #[test]
    fn colours_only_where_wanted() {
        assert_eq!(Style { on: true }.bad("x"), "\x1b[1;31mx\x1b[0m");
        assert_eq!(Style { on: false }.bad("x"), "x");
    }
}
