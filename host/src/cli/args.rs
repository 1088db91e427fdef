//! The arguments.

use super::write;
use std::ffi::OsString;

/// How answers are written.
#[derive(Clone, Copy, Debug, PartialEq, Eq)]
pub enum Format {
    /// For people, like a compiler.
    Text,
    /// One object to a line.
    Json,
    /// As the report program prints.
    Paper,
}

/// What `audit` is to do.
#[derive(Debug, PartialEq, Eq)]
pub struct Options {
    pub format: Format,
    /// Threads, if a number was given.
    pub jobs: Option<usize>,
    /// Most faults shown, if a number was given; 0 for all.
    pub limit: Option<usize>,
    pub quiet: bool,
    pub files: Vec<OsString>,
}

/// What the command is asked for.
#[derive(Debug, PartialEq, Eq)]
pub enum Wanted {
    Audit(Options),
    Write(write::args::Options),
    Help,
    Version,
}

/// Takes the arguments apart, the command's own name left out. An error is one line without its end.
pub fn parse(arguments: impl Iterator<Item = OsString>) -> Result<Wanted, String> {
    let mut arguments = arguments;
    let Some(command) = arguments.next() else { return Err("no command given".to_string()) };
    match command.to_str() {
        Some("audit") => audit(arguments),
        Some("write") => write::args::parse(arguments),
        Some("-h" | "--help" | "help") => Ok(Wanted::Help),
        Some("-V" | "--version") => Ok(Wanted::Version),
        Some(option) if option.starts_with("--") => {
            Err(format!("option `{option}` stands before the command `audit` or `write`, or is unknown"))
        }
        _ => Err(format!("unknown command `{0}`; perhaps `ravneket audit {0}` is meant", command.to_string_lossy())),
    }
}

fn audit(mut arguments: impl Iterator<Item = OsString>) -> Result<Wanted, String> {
    let mut options = Options { format: Format::Text, jobs: None, limit: None, quiet: false, files: Vec::new() };
    while let Some(argument) = arguments.next() {
        match argument.to_str() {
            Some("--") => {
                options.files.extend(arguments);
                break;
            }
            Some("-h" | "--help") => return Ok(Wanted::Help),
            Some("-V" | "--version") => return Ok(Wanted::Version),
            Some("-q" | "--quiet") => options.quiet = true,
            Some(option) if option.starts_with('-') && option != "-" => {
                let (name, value) = match option.split_once('=') {
                    Some((name, value)) => (name, Some(value.to_string())),
                    None => (option, None),
                };
                set(&mut options, name, value, &mut arguments)?;
            }
            _ => options.files.push(argument),
        }
    }
    check(&options.files)?;
    Ok(Wanted::Audit(options))
}

/// Sets an option that has a value, which stands behind `=` or is the next argument.
fn set(
    options: &mut Options,
    name: &str,
    value: Option<String>,
    rest: &mut impl Iterator<Item = OsString>,
) -> Result<(), String> {
    if !matches!(name, "--format" | "--jobs" | "--limit") {
        return Err(format!("unknown option `{name}`"));
    }
    let value = match value {
        Some(value) => value,
        None => rest.next().ok_or(format!("`{name}` has no value behind it"))?.to_string_lossy().into_owned(),
    };
    match name {
        "--format" => options.format = format(&value)?,
        "--jobs" => {
            options.jobs = Some(number(name, &value).and_then(|jobs| {
                if jobs == 0 {
                    Err("`--jobs` is at least 1".to_string())
                } else {
                    Ok(jobs)
                }
            })?)
        }
        _ => options.limit = Some(number(name, &value)?),
    }
    Ok(())
}

fn format(value: &str) -> Result<Format, String> {
    match value {
        "text" => Ok(Format::Text),
        "json" => Ok(Format::Json),
        "paper" => Ok(Format::Paper),
        _ => Err(format!("`--format` is text, json or paper, not `{value}`")),
    }
}

fn number(name: &str, value: &str) -> Result<usize, String> {
    // Without this `+5` would pass.
    let digits = value.bytes().all(|byte| byte.is_ascii_digit());
    value.parse().ok().filter(|_| digits).ok_or(format!("`{name}` is a whole number, not `{value}`"))
}

fn check(files: &[OsString]) -> Result<(), String> {
    match files.iter().filter(|file| *file == "-").count() {
        _ if files.is_empty() => Err("no file given (`-` is standard input)".to_string()),
        0 | 1 => Ok(()),
        _ => Err("`-` (standard input) stands more than once among the files".to_string()),
    }
}

#[cfg(test)]
mod tests {
    use super::*;

    fn given(arguments: &[&str]) -> Result<Wanted, String> {
        parse(arguments.iter().map(OsString::from))
    }

    fn options(arguments: &[&str]) -> Options {
        match given(arguments) {
            Ok(Wanted::Audit(options)) => options,
            other => panic!("{other:?}"),
        }
    }

    #[test]
    fn options_stand_anywhere_before_two_dashes() {
        let options =
            options(&["audit", "a", "--format=json", "-", "--jobs", "3", "--limit", "0", "-q", "--", "--jobs", "-x"]);
        assert_eq!(options.format, Format::Json);
        assert_eq!((options.jobs, options.limit, options.quiet), (Some(3), Some(0), true));
        assert_eq!(options.files, ["a", "-", "--jobs", "-x"]);
    }

    #[test]
    fn what_is_wrong_is_named() {
        let cases: [(&[&str], &str); 11] = [
            (&[], "no command"),
            (&["a.msh"], "`ravneket audit a.msh`"),
            (&["--format"], "before the command"),
            (&["audit"], "no file given"),
            (&["audit", "--format", "xml", "a"], "not `xml`"),
            (&["audit", "a", "--jobs"], "no value"),
            (&["audit", "a", "--jobs", "0"], "at least 1"),
            (&["audit", "a", "--limit=+5"], "not `+5`"),
            (&["audit", "a", "--limit="], "whole number"),
            (&["audit", "--colour", "a"], "`--colour`"),
            (&["audit", "-", "a", "-"], "more than once"),
        ];
        for (arguments, part) in cases {
            let error = given(arguments).unwrap_err();
            assert!(error.contains(part), "{arguments:?}: {error}");
        }
    }

    #[test]
    fn help_and_version() {
        assert_eq!(given(&["--help"]), Ok(Wanted::Help));
        assert_eq!(given(&["audit", "a", "-h"]), Ok(Wanted::Help));
        assert_eq!(given(&["-V"]), Ok(Wanted::Version));
    }
}
