//! What the tests share: a folder of their own, the built binary run in it, and texts.
#![allow(dead_code)]

use std::fs;
use std::io::{ErrorKind, Write};
use std::path::{Path, PathBuf};
use std::process::{Command, Stdio};
use std::sync::atomic::{AtomicUsize, Ordering};

pub const EXAMPLE: &str = ".i 2\n.o 1\n01 1\n10 1\n11 -\n.e\n";
pub const EXAMPLE_LIST: &str = ".i 2\n.o 1\n.p 2\n1- 1\n-1 1\n.e\n";

/// A temporary folder, removed at the end.
pub struct Desk {
    pub folder: PathBuf,
}

/// What a run of the binary gave.
#[derive(PartialEq, Eq, Debug)]
pub struct Run {
    pub status: i32,
    pub out: String,
    pub err: String,
}

static DESKS: AtomicUsize = AtomicUsize::new(0);

impl Desk {
    pub fn new() -> Desk {
        let number = DESKS.fetch_add(1, Ordering::Relaxed);
        let name = format!("desk-{}-{number}", std::process::id());
        let folder = PathBuf::from(env!("CARGO_TARGET_TMPDIR")).join(name);
        fs::create_dir_all(&folder).unwrap();
        Desk { folder }
    }

    /// A desk with these files on it.
    pub fn with(files: &[(&str, &str)]) -> Desk {
        let desk = Desk::new();
        for (name, text) in files {
            desk.put(name, text);
        }
        desk
    }

    pub fn path(&self, name: &str) -> PathBuf {
        self.folder.join(name)
    }

    pub fn put(&self, name: &str, text: &str) {
        let path = self.path(name);
        fs::create_dir_all(path.parent().unwrap()).unwrap();
        fs::write(path, text).unwrap();
    }

    pub fn text(&self, name: &str) -> String {
        fs::read_to_string(self.path(name)).unwrap()
    }

    /// The names in a folder of the desk, sorted.
    pub fn names(&self, folder: &str) -> Vec<String> {
        let entries = fs::read_dir(self.path(folder)).unwrap();
        let mut names: Vec<String> = entries
            .map(|entry| entry.unwrap().file_name().into_string().unwrap())
            .collect();
        names.sort();
        names
    }

    /// Runs the binary on this desk.
    pub fn run(&self, words: &[&str]) -> Run {
        self.run_with(words, "")
    }

    /// The same with a text on standard input.
    pub fn run_with(&self, words: &[&str], input: &str) -> Run {
        let mut child = Command::new(env!("CARGO_BIN_EXE_dowrhesk"))
            .args(words)
            .current_dir(&self.folder)
            .stdin(Stdio::piped())
            .stdout(Stdio::piped())
            .stderr(Stdio::piped())
            .spawn()
            .unwrap();
        let mut stdin = child.stdin.take().unwrap();
        match stdin.write_all(input.as_bytes()) {
            // The binary may end without reading all, or any.
            Err(error) if error.kind() == ErrorKind::BrokenPipe => {}
            written => written.unwrap(),
        }
        drop(stdin);
        let output = child.wait_with_output().unwrap();
        Run {
            status: output.status.code().unwrap(),
            out: String::from_utf8(output.stdout).unwrap(),
            err: String::from_utf8(output.stderr).unwrap(),
        }
    }
}

impl Drop for Desk {
    fn drop(&mut self) {
        let _ = fs::remove_dir_all(&self.folder);
    }
}

/// What is expected of a run.
pub fn run(status: i32, out: &str, err: &str) -> Run {
    Run {
        status,
        out: out.to_string(),
        err: err.to_string(),
    }
}

/// The top of the repository.
pub fn top() -> PathBuf {
    Path::new(env!("CARGO_MANIFEST_DIR")).join("..")
}

/// A xorshift generator: the same numbers on every run.
pub struct Random(u64);

impl Random {
    pub fn new(seed: u64) -> Random {
        Random(seed.wrapping_mul(0x9e37_79b9_7f4a_7c15) | 1)
    }

    pub fn below(&mut self, bound: usize) -> usize {
        self.0 ^= self.0 << 13;
        self.0 ^= self.0 >> 7;
        self.0 ^= self.0 << 17;
        ((self.0 >> 11) % bound as u64) as usize
    }

    pub fn pick<T: Copy>(&mut self, from: &[T]) -> T {
        from[self.below(from.len())]
    }

    pub fn signs(&mut self, columns: usize, from: &[char]) -> String {
        (0..columns).map(|_| self.pick(from)).collect()
    }
}

/// A text whose sets take more than 4,096 records: many points far from each other.
pub fn too_many_records() -> String {
    let mut random = Random::new(61);
    let row = |_| random.signs(16, &['0', '1']) + " 1\n";
    let rows: String = (0..1_000).map(row).collect();
    format!(".i 16\n.o 1\n{rows}.e\n")
}

/// A text whose list has 1,792 rows: blocks of 14, 4, 4 and 8 rows that multiply.
pub fn too_many_rows() -> String {
    let two_or_three = [turned("11-00"), turned("101-0")].concat();
    let three = turned("01-");
    product(&[two_or_three, three.clone(), three, turned("01---")])
}

/// A text whose list fills the room of 1,536 rows.
pub fn a_full_room() -> String {
    let (three, four) = (turned("01-"), turned("01--"));
    product(&[three.clone(), three.clone(), three.clone(), three, four])
}

/// The rows got by turning the signs of one row.
fn turned(row: &str) -> Vec<String> {
    let turn = |k: usize| format!("{}{}", &row[k..], &row[..k]);
    (0..row.len()).map(turn).collect()
}

/// The text whose function is on where each block of columns is covered by one of its rows.
fn product(blocks: &[Vec<String>]) -> String {
    let mut rows = vec![String::new()];
    for block in blocks {
        let longer = |row: &String| -> Vec<String> {
            block.iter().map(|signs| format!("{row}{signs}")).collect()
        };
        rows = rows.iter().flat_map(longer).collect();
    }
    let body: String = rows.iter().map(|row| format!("{row} 1\n")).collect();
    format!(".i {}\n.o 1\n{body}.e\n", rows[0].len())
}
