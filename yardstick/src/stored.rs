//! The stored journals on disk: `data/NAME` for each, `args` with their names
//! and `stdout` with what a program is to write for them.

use std::fs;
use std::io;
use std::path::{Path, PathBuf};

use crate::counts::Counts;
use crate::files::write_whole;
use crate::picked::{picked_journals, Picked};
use crate::replay::replay;

/// The directory of the journals, below the one given.
const DATA: &str = "data";

/// A file to be stored: its path below the directory given, and its bytes.
struct File {
    path: PathBuf,
    bytes: Vec<u8>,
}

/// Writes the stored files, then checks what stands there.
pub fn write(directory: &Path) -> Result<(), String> {
    let data = directory.join(DATA);
    fs::create_dir_all(&data).map_err(|error| about(&data, &error))?;
    for file in files()? {
        let path = directory.join(&file.path);
        write_whole(&path, &file.bytes).map_err(|error| about(&path, &error))?;
    }
    check(directory)
}

/// Says which file is the first that is not as it would be written, if any,
/// or stands beside the journals and is none of them.
pub fn check(directory: &Path) -> Result<(), String> {
    let files = files()?;
    for file in &files {
        let path = directory.join(&file.path);
        let found = fs::read(&path).map_err(|error| about(&path, &error))?;
        if found != file.bytes {
            return Err(format!("{} differs", path.display()));
        }
    }
    let data = directory.join(DATA);
    let found = names_in(&data).map_err(|error| about(&data, &error))?;
    let is_stored = |path: &PathBuf| files.iter().any(|file| directory.join(&file.path) == *path);
    match found.iter().find(|path| !is_stored(path)) {
        Some(other) => Err(format!("{} is not a stored journal", other.display())),
        None => Ok(()),
    }
}

/// What is to be said of the journals picked: none if they reach every case.
pub fn complaint(journals: &[Picked]) -> Option<String> {
    let mut counts = Counts::default();
    for picked in journals {
        counts.add_journal(&picked.journal);
    }
    counts.complaint()
}

/// All files to be stored.
fn files() -> Result<Vec<File>, String> {
    let journals = picked_journals();
    if let Some(complaint) = complaint(&journals) {
        return Err(format!("the stored journals: {complaint}"));
    }
    let (mut args, mut stdout) = (String::new(), String::new());
    let mut files = Vec::new();
    for picked in journals {
        let name = format!("{}\n", picked.name);
        args.push_str(&name);
        stdout.push_str(&name);
        stdout.push_str(&replay(&picked.journal));
        files.push(File {
            path: Path::new(DATA).join(&picked.name),
            bytes: picked.journal,
        });
    }
    for (name, text) in [("args", args), ("stdout", stdout)] {
        files.push(File {
            path: PathBuf::from(name),
            bytes: text.into_bytes(),
        });
    }
    Ok(files)
}

/// The paths of everything in a directory, in order.
fn names_in(directory: &Path) -> io::Result<Vec<PathBuf>> {
    let mut paths = Vec::new();
    for entry in fs::read_dir(directory)? {
        paths.push(entry?.path());
    }
    paths.sort();
    Ok(paths)
}

/// A message about a file.
fn about(path: &Path, error: &io::Error) -> String {
    format!("{}: {error}", path.display())
}
