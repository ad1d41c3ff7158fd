//! The functions of a folder and the lists beside them, by their names.

use crate::files::shown;
use std::collections::BTreeMap;
use std::fs;
use std::io;
use std::path::{Path, PathBuf};

/// The word in the name of the list that is written.
pub const NEW: &str = "new";

/// A function's file, and the lists beside it by their words. The new list is not among them.
#[derive(PartialEq, Eq, Debug)]
pub struct Case {
    pub name: String,
    pub function: PathBuf,
    pub lists: BTreeMap<String, PathBuf>,
}

impl Case {
    /// Where the new list stands.
    pub fn new_list(&self) -> PathBuf {
        self.function.with_extension(format!("{NEW}.pla"))
    }
}

/// What is in a folder: its functions by name, and the lists that have no function beside them.
#[derive(Default, PartialEq, Eq, Debug)]
pub struct Folder {
    pub cases: Vec<Case>,
    pub strays: Vec<PathBuf>,
}

/// Looks through a folder.
pub fn look(folder: &Path) -> Result<Folder, String> {
    let files =
        files(folder).map_err(|error| format!("{}: cannot be read: {error}", shown(folder)))?;
    let mut cases: BTreeMap<String, Case> = BTreeMap::new();
    for (stem, path) in &files {
        if !stem.contains('.') {
            let case = Case {
                name: stem.clone(),
                function: path.clone(),
                lists: BTreeMap::new(),
            };
            cases.insert(stem.clone(), case);
        }
    }
    let mut strays = Vec::new();
    for (stem, path) in files {
        if let Some((name, word)) = stem.split_once('.') {
            match cases.get_mut(name) {
                None => strays.push(path),
                Some(_) if word == NEW => {}
                Some(case) => {
                    case.lists.insert(word.to_string(), path);
                }
            }
        }
    }
    let cases = cases.into_values().collect();
    Ok(Folder { cases, strays })
}

/// The files whose names end in `.pla`, each with its name up to there. Hidden ones are passed over.
fn files(folder: &Path) -> io::Result<BTreeMap<String, PathBuf>> {
    let mut files = BTreeMap::new();
    for entry in fs::read_dir(folder)? {
        let path = entry?.path();
        let name = path.file_name().unwrap_or_default().to_string_lossy();
        match name.strip_suffix(".pla") {
            Some(stem) if !stem.is_empty() && !stem.starts_with('.') && !path.is_dir() => {
                files.insert(stem.to_string(), path);
            }
            _ => {}
        }
    }
    Ok(files)
}
