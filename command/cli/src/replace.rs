//! Writing a file anew in place: at every moment its name leads to the old bytes or to the new ones, whole.

use crate::files::told;
use std::ffi::OsString;
use std::fs::{self, File, OpenOptions};
use std::io::{self, Write};
use std::os::unix::fs::{fchown, MetadataExt, OpenOptionsExt};
use std::path::{Path, PathBuf};

/// How much of a file's name a temporary name takes over: names end at 255 bytes.
const NAME: usize = 200;

/// For the tests: ends the process here if the environment names this moment.
fn fault(moment: &str) {
    if std::env::var_os("HIRVELAN_FAULT").is_some_and(|v| v == moment) {
        std::process::abort();
    }
}

/// `.NAME.hirvelan-PID` in the same folder; with a number behind it if that is there already.
fn create(file: &Path) -> io::Result<(PathBuf, File)> {
    let name = file.file_name().unwrap_or_default().as_encoded_bytes();
    let name = String::from_utf8_lossy(&name[..name.len().min(NAME)]).into_owned();
    let mut last = io::Error::from(io::ErrorKind::AlreadyExists);
    for turn in 0..100 {
        let mut temporary = OsString::from(format!(".{name}.hirvelan-{}", std::process::id()));
        if turn > 0 {
            temporary.push(format!("-{turn}"));
        }
        let path = file.with_file_name(temporary);
        match OpenOptions::new().write(true).create_new(true).mode(0o600).open(&path) {
            Ok(made) => return Ok((path, made)),
            Err(error) if error.kind() == io::ErrorKind::AlreadyExists => last = error,
            Err(error) => return Err(error),
        }
    }
    Err(last)
}

/// Puts the bytes into the temporary file, with the old file's rights, and on the disk.
fn fill(made: &mut File, like: &fs::Metadata, bytes: &[u8]) -> io::Result<()> {
    fault("before-write");
    let (first, second) = bytes.split_at(bytes.len() / 2);
    made.write_all(first)?;
    fault("half-written");
    made.write_all(second)?;
    // the owner stays as far as the system allows it; rights come last, since a new owner may take some away
    let new = made.metadata()?;
    if (new.uid(), new.gid()) != (like.uid(), like.gid()) {
        let _ = fchown(&*made, Some(like.uid()), Some(like.gid()));
    }
    made.set_permissions(like.permissions())?;
    made.sync_all()
}

/// A replacing that failed: why, and whether the new bytes are in place all the same.
#[derive(Debug)]
pub struct Failed {
    pub why: String,
    pub written: bool,
}

fn failed(what: &str, error: io::Error) -> Failed {
    Failed { why: format!("{what}: {}", told(&error)), written: false }
}

/// Replaces the bytes of a file, which must still be the old ones. A link stays: the file that it leads to is replaced.
pub fn replace(path: &Path, old: &[u8], new: &[u8]) -> Result<(), Failed> {
    let file = fs::canonicalize(path).map_err(|e| failed("it can't be found", e))?;
    let like = fs::metadata(&file).map_err(|e| failed("it can't be found", e))?;
    if !like.is_file() {
        return Err(Failed { why: "it is no ordinary file".to_string(), written: false });
    }
    // a file that its owner made read-only stays
    OpenOptions::new().write(true).open(&file).map_err(|e| failed("it is read-only", e))?;
    let (temporary, mut made) = create(&file).map_err(|e| failed("its folder takes no new file", e))?;
    let done = fill(&mut made, &like, new).map_err(|e| failed("its print can't be stored", e)).and_then(|()| {
        if !fs::read(&file).is_ok_and(|now| now == old) {
            return Err(Failed { why: "it was changed by someone else meanwhile".to_string(), written: false });
        }
        fault("before-rename");
        fs::rename(&temporary, &file).map_err(|e| failed("its print can't take its place", e))
    });
    if let Err(failed) = done {
        let _ = fs::remove_file(&temporary);
        return Err(failed);
    }
    fault("after-rename");
    flush_folder(&file).map_err(|e| Failed { why: format!("its folder can't be flushed: {}", told(&e)), written: true })
}

/// The new name, too, is on the disk. Some file systems have no such flush, and a folder may be closed to reading.
fn flush_folder(file: &Path) -> io::Result<()> {
    let folder = file.parent().unwrap_or(Path::new("/"));
    match File::open(folder).and_then(|f| f.sync_all()) {
        Err(error) if !matches!(error.kind(), io::ErrorKind::InvalidInput | io::ErrorKind::Unsupported | io::ErrorKind::PermissionDenied) => Err(error),
        _ => Ok(()),
    }
}

#[cfg(test)]
mod tests {
    use super::*;

    #[test]
    fn a_file_that_was_changed_meanwhile_stays() {
        let folder = Path::new(env!("CARGO_MANIFEST_DIR")).join("../target").join(format!("meanwhile-{}", std::process::id()));
        fs::create_dir_all(&folder).unwrap();
        let file = folder.join("a.thrift");
        fs::write(&file, "theirs").unwrap();
        let failed = replace(&file, b"as it was read", b"ours").unwrap_err();
        assert!(!failed.written && failed.why.contains("meanwhile"));
        assert_eq!(fs::read(&file).unwrap(), b"theirs");
        assert_eq!(fs::read_dir(&folder).unwrap().count(), 1);
        assert!(replace(&file, b"theirs", b"ours").is_ok());
        assert_eq!(fs::read(&file).unwrap(), b"ours");
        fs::remove_dir_all(&folder).unwrap();
    }
}
