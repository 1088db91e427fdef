//! A file that gets its name when it is whole: it is written aside, then renamed. Whatever fails, nothing of it is left.

use std::ffi::OsStr;
use std::fs::{self, File, Metadata};
use std::io::{ErrorKind, Write};
use std::path::{Path, PathBuf};

/// What stands in the way of a file of this name, in a few words; asked for before there is anything to write.
pub fn obstacle(name: &OsStr, force: bool) -> Option<String> {
    match fs::metadata(name) {
        Ok(there) if there.is_dir() => Some("is a folder".to_string()),
        // Renaming would put a file in the place of a device.
        Ok(there) if !there.is_file() => {
            Some("is not a plain file; without `-o` the text goes to standard output".to_string())
        }
        Ok(_) if !force => Some("is there already; `--force` overwrites it".to_string()),
        _ => None,
    }
}

/// Writes a file whole, or not at all. Only with `force` it takes the place of another.
pub fn save(name: &OsStr, bytes: &[u8], force: bool) -> Result<(), String> {
    if let Some(obstacle) = obstacle(name, force) {
        return Err(obstacle);
    }
    let there = fs::metadata(name).ok();
    // A link stays, and the file that it leads to gets the text.
    let path = fs::canonicalize(name).unwrap_or(PathBuf::from(name));
    let told = |error: std::io::Error| format!("can't be written: {error}");
    let aside = Aside::write(&path, bytes, there.as_ref()).map_err(told)?;
    if force {
        return aside.rename(&path).map_err(told);
    }
    // The name is taken first: a file that was put there meanwhile is not lost.
    match File::options().write(true).create_new(true).open(&path) {
        Ok(_) => aside.rename(&path).map_err(|error| {
            let _ = fs::remove_file(&path);
            told(error)
        }),
        Err(error) if error.kind() == ErrorKind::AlreadyExists => {
            Err("is there already; `--force` overwrites it".to_string())
        }
        Err(error) => Err(told(error)),
    }
}

/// A file that is gone when it is dropped.
struct Aside {
    path: PathBuf,
}

impl Aside {
    /// Writes a file beside another one, as readable as that is.
    fn write(beside: &Path, bytes: &[u8], as_open_as: Option<&Metadata>) -> std::io::Result<Aside> {
        let (mut file, aside) = Aside::new(beside)?;
        if let Some(there) = as_open_as {
            file.set_permissions(there.permissions())?;
        }
        file.write_all(bytes)?;
        file.sync_all()?;
        Ok(aside)
    }

    /// A new file in the folder of another one.
    fn new(beside: &Path) -> std::io::Result<(File, Aside)> {
        let mut number = 0;
        loop {
            let path = beside.with_file_name(format!(".ravneket-{}-{number}.tmp", std::process::id()));
            match File::options().write(true).create_new(true).open(&path) {
                Ok(file) => return Ok((file, Aside { path })),
                Err(error) if error.kind() == ErrorKind::AlreadyExists => number += 1,
                Err(error) => return Err(error),
            }
        }
    }

    fn rename(self, path: &Path) -> std::io::Result<()> {
        fs::rename(&self.path, path)
    }
}

impl Drop for Aside {
    fn drop(&mut self) {
        // After renaming nothing has this name any more.
        let _ = fs::remove_file(&self.path);
    }
}
