//! Reads files, watching that they are what they seem.

use ravneket::MAX_BYTES;
use std::ffi::OsStr;
use std::fs::{File, Metadata};
use std::io::{self, Read};

/// Enough to show that a file is too long; a file of gigabytes is not read to its end.
const MOST: usize = MAX_BYTES + 1;

/// The bytes of a file, or of standard input for `-`: all of them, or the first 8,388,609. An error says in a few words why there are none.
pub fn load(name: &OsStr) -> Result<Vec<u8>, String> {
    if name == "-" {
        return some_bytes(&mut io::stdin().lock(), 0).map_err(|error| plain(&error));
    }
    let mut file = File::open(name).map_err(|error| plain(&error))?;
    let before = file.metadata().map_err(|error| plain(&error))?;
    if before.is_dir() {
        return Err("is a folder".to_string());
    }
    let text = some_bytes(&mut file, before.len()).map_err(|error| plain(&error))?;
    // Pipes and devices have no size to compare with.
    if before.is_file() {
        let after = file.metadata().map_err(|error| plain(&error))?;
        same(&before, &after, text.len())?;
    }
    Ok(text)
}

fn some_bytes(source: &mut impl Read, size: u64) -> io::Result<Vec<u8>> {
    let mut text = Vec::with_capacity(usize::try_from(size).map_or(MOST, |size| size.min(MOST)) + 1);
    source.take(MOST as u64).read_to_end(&mut text)?;
    Ok(text)
}

fn same(before: &Metadata, after: &Metadata, read: usize) -> Result<(), String> {
    let changed = before.len() != after.len() || before.modified().ok() != after.modified().ok();
    if changed || before.len().min(MOST as u64) != read as u64 {
        return Err("changed while it was read; run it again when it is written to its end".to_string());
    }
    Ok(())
}

fn plain(error: &io::Error) -> String {
    match error.kind() {
        io::ErrorKind::NotFound => "is not there".to_string(),
        io::ErrorKind::PermissionDenied => "can't be read: permission denied".to_string(),
        io::ErrorKind::IsADirectory => "is a folder".to_string(),
        _ => format!("can't be read: {error}"),
    }
}

#[cfg(test)]
mod tests {
    use super::*;

    #[test]
    fn a_file_that_changes_is_told() {
        let path = std::env::temp_dir().join(format!("ravneket-input-{}", std::process::id()));
        std::fs::write(&path, b"four").unwrap();
        let before = std::fs::metadata(&path).unwrap();
        assert_eq!(same(&before, &before, 4), Ok(()));
        assert!(same(&before, &before, 3).is_err());
        std::fs::write(&path, b"seven..").unwrap();
        let after = std::fs::metadata(&path).unwrap();
        assert!(same(&before, &after, 4).unwrap_err().contains("changed while it was read"));
        // As long as before, but written again.
        let file = File::options().write(true).open(&path).unwrap();
        file.set_modified(after.modified().unwrap() + std::time::Duration::from_secs(2)).unwrap();
        let again = std::fs::metadata(&path).unwrap();
        assert!(same(&after, &again, 7).is_err());
        std::fs::remove_file(&path).unwrap();
    }
}
