//! A file written whole or not at all, and whether two names are one file.

use std::ffi::{OsStr, OsString};
use std::fs::{self, File, Metadata};
use std::io::{self, Write};
use std::os::unix::fs::MetadataExt;
use std::path::{Path, PathBuf};

/// Writes the bytes to the file: beside it first, to the disk, and then in its place. Where anything fails, the file is as
/// it was. What is no plain file, such as a device or a pipe, is written as it stands, since it must not be replaced.
pub fn whole(file: &OsStr, bytes: &[u8]) -> io::Result<()> {
    let there = fs::metadata(file).ok();
    if there.as_ref().is_some_and(|it| !it.is_file()) {
        return File::options().write(true).open(file)?.write_all(bytes);
    }
    // behind a symbolic link the file that it names is replaced, and not the link
    let place = if there.is_some() { fs::canonicalize(file)? } else { PathBuf::from(file) };
    let beside = beside(&place)?;
    let written = written_beside(&beside, there.as_ref(), bytes).and_then(|()| fs::rename(&beside, &place));
    if written.is_err() {
        // the first error is told; a file that could not be made need not be there
        let _ = fs::remove_file(&beside);
    }
    written
}

/// A name in the folder of the file that no other call takes.
fn beside(place: &Path) -> io::Result<PathBuf> {
    let no_name = || io::Error::new(io::ErrorKind::InvalidInput, "the name of a folder, not of a file");
    let mut name = OsString::from(".");
    name.push(place.file_name().ok_or_else(no_name)?);
    name.push(format!(".{}.new", std::process::id()));
    Ok(place.with_file_name(name))
}

fn written_beside(beside: &Path, there: Option<&Metadata>, bytes: &[u8]) -> io::Result<()> {
    let mut new = File::options().write(true).create_new(true).open(beside)?;
    if let Some(there) = there {
        new.set_permissions(there.permissions())?;
    }
    new.write_all(bytes)?;
    new.sync_all()
}

/// Whether both names are there and mean one file, through whatever links.
pub fn is_same(a: &OsStr, b: &OsStr) -> bool {
    let place = |file: &OsStr| fs::metadata(file).map(|it| (it.dev(), it.ino())).ok();
    place(a).is_some_and(|a| place(b) == Some(a))
}
