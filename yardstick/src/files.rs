//! Reading files whole, and writing them so that none is ever seen half
//! written.

use std::ffi::OsString;
use std::fs::{self, File, Permissions};
use std::io::{self, Read, Write};
use std::path::{Path, PathBuf};
use std::process;

/// The name that stands for standard input or output.
pub const STANDARD: &str = "-";

/// The longest journal that is read or made, and the longest text that is
/// read: the text of a journal is not four times as long, but for the comments
/// on its first bytes.
pub const LONGEST_JOURNAL: usize = 16 << 20;
pub const LONGEST_TEXT: usize = 4 * LONGEST_JOURNAL;

/// Reads a whole file, or standard input. The end has to come within so many
/// bytes: a device may have none.
pub fn read_whole(name: &str, longest: usize) -> io::Result<Vec<u8>> {
    let bytes = read_first(name, longest.saturating_add(1))?;
    if bytes.len() > longest {
        return Err(io::Error::other(format!("longer than {longest} bytes")));
    }
    Ok(bytes)
}

/// Reads the first bytes of a file, or of standard input: no more than so many.
pub fn read_first(name: &str, most: usize) -> io::Result<Vec<u8>> {
    let mut bytes = Vec::new();
    if name == STANDARD {
        let stdin = io::stdin().lock();
        stdin.take(most as u64).read_to_end(&mut bytes)?;
    } else {
        let file = File::open(name)?;
        file.take(most as u64).read_to_end(&mut bytes)?;
    }
    Ok(bytes)
}

/// Writes a file under another name beside its own, then gives it its own. A
/// file of that name is replaced and its permissions are kept, but nothing
/// else is: neither a directory nor a device nor a link, nor a file that may
/// not be written.
pub fn write_whole(path: &Path, bytes: &[u8]) -> io::Result<()> {
    let permissions = permissions_to_keep(path)?;
    let partial = partial_name(path)?;
    let mut file = File::create_new(&partial)?;
    // The permissions come first: nobody else may read the bytes meanwhile.
    let done = permissions
        .map_or(Ok(()), |kept| file.set_permissions(kept))
        .and_then(|()| file.write_all(bytes))
        .and_then(|()| fs::rename(&partial, path));
    if done.is_err() {
        // What failed is told; that a part is left behind is the lesser harm.
        let _ = fs::remove_file(&partial);
    }
    done
}

/// The permissions of the file that is replaced, if there is one, or why it
/// is not to be replaced.
fn permissions_to_keep(path: &Path) -> io::Result<Option<Permissions>> {
    let Ok(found) = fs::symlink_metadata(path) else {
        return Ok(None);
    };
    let no = |why| Err(io::Error::other(format!("{why}, so it is not replaced")));
    let permissions = found.permissions();
    if !found.is_file() {
        no("not a regular file")
    } else if permissions.readonly() {
        no("read-only")
    } else {
        Ok(Some(permissions))
    }
}

/// A name beside a file's own that no other process takes.
fn partial_name(path: &Path) -> io::Result<PathBuf> {
    let name = path
        .file_name()
        .ok_or_else(|| io::Error::other("this names no file"))?;
    let mut partial = OsString::from(".");
    partial.push(name);
    partial.push(format!(".{}.partial", process::id()));
    Ok(path.with_file_name(partial))
}
