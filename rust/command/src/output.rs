//! Files that are written whole or not at all: beside, and then renamed.

use crate::stop::{Done, Stop};
use std::ffi::{OsStr, OsString};
use std::fs::{self, File, OpenOptions};
use std::io::{self, Write};
use std::path::{Path, PathBuf};
use yay::shown;

/// Puts these bytes into a file in the place of what it held; if that fails it holds what it held.
pub fn replace(name: &OsStr, bytes: &[u8]) -> Done {
    let failed = |error: io::Error| Stop::File(format!("{}: {error}", shown::plain(name.as_encoded_bytes())));
    put(Path::new(name), bytes).map_err(failed)
}

fn put(name: &Path, bytes: &[u8]) -> io::Result<()> {
    let old = match fs::metadata(name) {
        Ok(about) if about.is_dir() => return Err(io::Error::other("this is a directory, not a file")),
        // A terminal, a pipe, /dev/null: nothing is kept there that could be half written.
        Ok(about) if !about.is_file() => return OpenOptions::new().write(true).open(name)?.write_all(bytes),
        Ok(about) => Some(about.permissions()),
        Err(error) if error.kind() == io::ErrorKind::NotFound => None,
        Err(error) => return Err(error),
    };
    // Behind a link it is the file that is replaced, not the link.
    let name = if old.is_some() { fs::canonicalize(name)? } else { name.to_owned() };
    let (beside, mut file) = open_beside(&name)?;
    let written = write_whole(&mut file, bytes, old).and_then(|()| fs::rename(&beside, &name));
    if written.is_err() {
        let _ = fs::remove_file(&beside);
    }
    written
}

/// A new file in the same folder.
fn open_beside(name: &Path) -> io::Result<(PathBuf, File)> {
    let last = name.file_name().ok_or(io::ErrorKind::InvalidInput)?;
    let mut taken = io::ErrorKind::AlreadyExists.into();
    for i in 0..100 {
        let mut beside = OsString::from(".");
        beside.push(last);
        beside.push(format!(".{}-{i}", std::process::id()));
        let beside = name.with_file_name(beside);
        match OpenOptions::new().write(true).create_new(true).open(&beside) {
            Ok(file) => return Ok((beside, file)),
            Err(error) if error.kind() == io::ErrorKind::AlreadyExists => taken = error,
            Err(error) => return Err(error),
        }
    }
    Err(taken)
}

fn write_whole(file: &mut File, bytes: &[u8], old: Option<fs::Permissions>) -> io::Result<()> {
    file.write_all(bytes)?;
    if let Some(permissions) = old {
        file.set_permissions(permissions)?;
    }
    // So that no name stands for bytes that are not on the disk yet.
    file.sync_all()
}
