//! The arguments of `write`.

use crate::cli::args::Wanted;
use std::ffi::OsString;

/// What `write` is to do.
#[derive(Debug, Default, PartialEq, Eq)]
pub struct Options {
    pub file: OsString,
    /// The file to be written; standard output if there is none.
    pub out: Option<OsString>,
    /// The file with the corrections.
    pub with: Option<OsString>,
    /// Overwrite what is there.
    pub force: bool,
    pub quiet: bool,
}

/// Takes the arguments behind `write` apart.
pub fn parse(mut arguments: impl Iterator<Item = OsString>) -> Result<Wanted, String> {
    let mut options = Options::default();
    let mut files = Vec::new();
    while let Some(argument) = arguments.next() {
        let Some(option) = argument.to_str().filter(|word| word.starts_with('-') && *word != "-") else {
            files.push(argument);
            continue;
        };
        let (name, value) = match option.split_once('=') {
            Some((name, value)) => (name, Some(OsString::from(value))),
            None => (option, None),
        };
        match (name, &value) {
            ("--", None) => files.extend(arguments.by_ref()),
            ("-h" | "--help", None) => return Ok(Wanted::Help),
            ("-V" | "--version", None) => return Ok(Wanted::Version),
            ("-q" | "--quiet", None) => options.quiet = true,
            ("--force", None) => options.force = true,
            ("-o" | "--output", _) => once(name, &mut options.out, value.or_else(|| arguments.next()))?,
            ("--with", _) => once(name, &mut options.with, value.or_else(|| arguments.next()))?,
            _ => return Err(format!("unknown option `{option}`")),
        }
    }
    options.file = match <[OsString; 1]>::try_from(files) {
        Ok([file]) => file,
        Err(files) if files.is_empty() => return Err("no file given (`-` is standard input)".to_string()),
        Err(_) => return Err("`write` takes one file".to_string()),
    };
    check(options)
}

/// Sets an option that has a value.
fn once(name: &str, place: &mut Option<OsString>, value: Option<OsString>) -> Result<(), String> {
    let value = value.filter(|value| !value.is_empty()).ok_or(format!("`{name}` has no value behind it"))?;
    match place.replace(value) {
        Some(_) => Err(format!("`{name}` stands more than once")),
        None => Ok(()),
    }
}

fn check(mut options: Options) -> Result<Wanted, String> {
    if options.file == "-" && options.with.as_ref().is_some_and(|with| with == "-") {
        return Err("`-` (standard input) is both the mesh and the corrections".to_string());
    }
    options.out = options.out.filter(|out| out != "-");
    Ok(Wanted::Write(options))
}

#[cfg(test)]
mod tests {
    use super::*;

    fn given(arguments: &[&str]) -> Result<Wanted, String> {
        parse(arguments.iter().map(OsString::from))
    }

    #[test]
    fn options_stand_anywhere_before_two_dashes() {
        let Ok(Wanted::Write(options)) = given(&["-o", "b", "--with=c", "--force", "-q", "--", "-a"]) else { panic!() };
        let due =
            Options { file: "-a".into(), out: Some("b".into()), with: Some("c".into()), force: true, quiet: true };
        assert_eq!(options, due);
        let Ok(Wanted::Write(options)) = given(&["-", "--output", "-"]) else { panic!() };
        assert_eq!(options, Options { file: "-".into(), ..Options::default() });
        assert_eq!(given(&["a", "--help"]), Ok(Wanted::Help));
    }

    #[test]
    fn what_is_wrong_is_named() {
        let cases: [(&[&str], &str); 9] = [
            (&[], "no file given"),
            (&["a", "b"], "takes one file"),
            (&["a", "-o"], "`-o` has no value"),
            (&["a", "--with="], "`--with` has no value"),
            (&["a", "-o", "b", "--output", "c"], "`--output` stands more than once"),
            (&["a", "--force=yes"], "unknown option `--force=yes`"),
            (&["a", "-x"], "unknown option `-x`"),
            (&["-", "--with", "-"], "both the mesh and the corrections"),
            (&["--jobs", "2", "a"], "unknown option `--jobs`"),
        ];
        for (arguments, part) in cases {
            let error = given(arguments).unwrap_err();
            assert!(error.contains(part), "{arguments:?}: {error}");
        }
    }
}
