//! Files read and written. What goes wrong is told as the line to be said of it.

use std::ffi::OsStr;
use std::fs::{self, File, OpenOptions};
use std::io::{self, Read, Write};
use std::path::{Path, PathBuf};
use std::process;

/// A text and the name by which it is spoken of.
pub struct Input {
    pub name: String,
    pub text: Vec<u8>,
}

/// One byte more than the library takes, so that it notices a text that is too long.
const ENOUGH: u64 = dowrhesk::MOST_BYTES as u64 + 1;

/// The text of a file, or of standard input for `-`.
pub fn read(file: &OsStr) -> Result<Input, String> {
    let (name, text) = if file == "-" {
        ("standard input".to_string(), beginning(io::stdin().lock()))
    } else {
        let path = Path::new(file);
        (shown(path), File::open(path).and_then(beginning))
    };
    match text {
        Ok(text) => Ok(Input { name, text }),
        Err(error) => Err(format!("{name}: cannot be read: {error}")),
    }
}

fn beginning(from: impl Read) -> io::Result<Vec<u8>> {
    let mut text = Vec::new();
    from.take(ENOUGH).read_to_end(&mut text)?;
    Ok(text)
}

/// A path as it is spoken of.
pub fn shown(path: &Path) -> String {
    path.to_string_lossy().into_owned()
}

/// Writes a file: a new one beside it, which then takes its name. So the old content stays until the
/// new one is whole. What is no file but a device or a pipe is written to directly.
pub fn write(path: &Path, content: &[u8]) -> Result<(), String> {
    let there = fs::metadata(path).ok();
    let written = match &there {
        Some(there) if !there.is_file() => direct(path, content),
        _ => beside(path).and_then(|beside| {
            let moved = fill(&beside, content, there).and_then(|()| fs::rename(&beside, path));
            if moved.is_err() {
                let _ = fs::remove_file(&beside);
            }
            moved
        }),
    };
    written.map_err(|error| format!("{}: cannot be written: {error}", shown(path)))
}

fn direct(path: &Path, content: &[u8]) -> io::Result<()> {
    OpenOptions::new()
        .write(true)
        .open(path)?
        .write_all(content)
}

/// A name in the same folder that belongs to this process.
fn beside(path: &Path) -> io::Result<PathBuf> {
    let Some(name) = path.file_name() else {
        return Err(io::Error::other("this names no file"));
    };
    let mut hidden = OsStr::new(".").to_os_string();
    hidden.push(name);
    hidden.push(format!(".{}.part", process::id()));
    Ok(path.with_file_name(hidden))
}

/// A new file with the content, and with the rights of the one whose place it takes.
fn fill(beside: &Path, content: &[u8], there: Option<fs::Metadata>) -> io::Result<()> {
    let mut file = OpenOptions::new()
        .write(true)
        .create_new(true)
        .open(beside)?;
    file.write_all(content)?;
    if let Some(there) = there {
        file.set_permissions(there.permissions())?;
    }
    file.sync_all()
}

/// Whether two paths lead to one file.
pub fn same_file(one: &Path, other: &Path) -> bool {
    match (fs::canonicalize(one), fs::canonicalize(other)) {
        (Ok(one), Ok(other)) => one == other,
        _ => false,
    }
}
