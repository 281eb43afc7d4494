//! Finding and reading files.

use crate::arguments::STANDARD_INPUT;
use std::ffi::{OsStr, OsString};
use std::fs::{self, File};
use std::io::{self, Read};
use std::path::{Path, PathBuf};

/// What is to be read.
pub enum Input {
    Standard,
    File(PathBuf),
}

/// A file or a folder that can't be used, and why.
pub struct Trouble {
    pub name: OsString,
    pub why: String,
}

impl Input {
    pub fn name(&self) -> &OsStr {
        match self {
            Input::Standard => OsStr::new("<standard input>"),
            Input::File(path) => path.as_os_str(),
        }
    }

    /// Its bytes; of a text that is too long one more than is read, so that the library sees it.
    pub fn read(&self) -> io::Result<Vec<u8>> {
        let mut text = Vec::new();
        let most = hirvelan::LONGEST as u64 + 1;
        match self {
            Input::Standard => io::stdin().lock().take(most).read_to_end(&mut text)?,
            Input::File(path) => File::open(path)?.take(most).read_to_end(&mut text)?,
        };
        Ok(text)
    }
}

/// An error in plain words.
pub fn told(error: &io::Error) -> String {
    match error.kind() {
        io::ErrorKind::NotFound => "there is no such file or folder".to_string(),
        io::ErrorKind::PermissionDenied => "permission denied".to_string(),
        io::ErrorKind::StorageFull => "the disk is full".to_string(),
        _ => {
            let text = error.to_string();
            text.split(" (os error").next().unwrap_or(&text).to_string()
        }
    }
}

fn trouble(path: &Path, why: String) -> Trouble {
    Trouble { name: path.as_os_str().to_os_string(), why }
}

/// All inputs that the words name, folders walked, and what could not be entered.
pub fn find(words: &[OsString]) -> (Vec<Input>, Vec<Trouble>) {
    let (mut inputs, mut troubles) = (Vec::new(), Vec::new());
    for word in words {
        if word == STANDARD_INPUT {
            inputs.push(Input::Standard);
            continue;
        }
        let path = PathBuf::from(word);
        match fs::metadata(&path) {
            Ok(data) if data.is_dir() => {
                let before = (inputs.len(), troubles.len());
                walk(&path, &mut inputs, &mut troubles);
                if before == (inputs.len(), troubles.len()) {
                    troubles.push(trouble(&path, "no file in this folder ends in .thrift".to_string()));
                }
            }
            Ok(_) => inputs.push(Input::File(path)),
            Err(error) => troubles.push(trouble(&path, format!("can't be read: {}", told(&error)))),
        }
    }
    (inputs, troubles)
}

/// The `*.thrift` of a folder and below, by name. A link to a folder is not followed, so a walk ends.
fn walk(folder: &Path, inputs: &mut Vec<Input>, troubles: &mut Vec<Trouble>) {
    let mut waiting = vec![folder.to_path_buf()];
    while let Some(path) = waiting.pop() {
        if fs::symlink_metadata(&path).is_ok_and(|data| data.is_dir()) || path == folder {
            match entries(&path) {
                Ok(mut found) => {
                    found.sort();
                    waiting.extend(found.into_iter().rev());
                }
                Err(error) => troubles.push(trouble(&path, format!("this folder can't be read: {}", told(&error)))),
            }
        } else if path.extension() == Some(OsStr::new("thrift")) {
            match fs::metadata(&path) {
                Ok(data) if data.is_file() => inputs.push(Input::File(path)),
                Ok(_) => {}
                Err(error) => troubles.push(trouble(&path, format!("can't be read: {}", told(&error)))),
            }
        }
    }
}

/// What lies in a folder, without names that start with a dot.
fn entries(folder: &Path) -> io::Result<Vec<PathBuf>> {
    let mut found = Vec::new();
    for entry in fs::read_dir(folder)? {
        let entry = entry?;
        if !entry.file_name().as_encoded_bytes().starts_with(b".") {
            found.push(entry.path());
        }
    }
    Ok(found)
}
