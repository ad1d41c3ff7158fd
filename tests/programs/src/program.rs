//! One of the two programs: its answer to an input by the export of the proved code, by the second
//! program, and where the built one stands.

use compare::library::{check_answer, list_answer};
use second::programs::{check_program, list_program};
use std::fs;
use std::path::{Path, PathBuf};
use std::time::SystemTime;

#[derive(Clone, Copy, PartialEq, Eq, Debug)]
pub enum Program {
    List,
    Check,
}

/// The least room for an answer: the text of 1,536 rows of 16 columns.
pub const ROOM: usize = 29_206;

/// What a room holds before a call, so that a byte that was not written is noticed.
const UNWRITTEN: u8 = 0xa5;

impl Program {
    pub const BOTH: [Program; 2] = [Program::List, Program::Check];

    pub fn name(self) -> &'static str {
        match self {
            Program::List => "pla_list",
            Program::Check => "pla_check",
        }
    }

    /// The second program's answer.
    pub fn by_second(self, input: &[u8]) -> Vec<u8> {
        match self {
            Program::List => list_program(input),
            Program::Check => check_program(input),
        }
    }

    /// What the export leaves of a room of so many bytes, and the number that it returns.
    pub fn in_room(self, input: &[u8], bytes: usize) -> (usize, Vec<u8>) {
        let mut room = vec![UNWRITTEN; bytes];
        let returned = match self {
            Program::List => list_answer(input, &mut room),
            Program::Check => check_answer(input, &mut room),
        };
        (returned, room)
    }

    /// The export answers an input in a room as told: the answer and then zeros, or, in a room that
    /// not every answer fits, nothing.
    pub fn assert_answer(self, input: &[u8], bytes: usize, told: &[u8]) {
        let (returned, room) = self.in_room(input, bytes);
        if bytes < ROOM {
            let untouched = room.iter().all(|&byte| byte == UNWRITTEN);
            assert!(returned == 0 && untouched, "{}", self.differs(input, bytes));
            return;
        }
        let right = returned == told.len()
            && room[..returned] == *told
            && room[returned..].iter().all(|&byte| byte == 0);
        let given = &room[..returned.min(room.len())];
        assert!(
            right,
            "{}\nanswer: {}\nsecond program: {}",
            self.differs(input, bytes),
            shown(given),
            shown(told)
        );
    }

    fn differs(self, input: &[u8], bytes: usize) -> String {
        format!("{}, a room of {bytes}, input {}", self.name(), shown(input))
    }

    /// The built program. It has to be there, and not older than a source file of a crate.
    pub fn built(self) -> PathBuf {
        let top = Path::new(env!("CARGO_MANIFEST_DIR")).join("../..");
        let name = format!("crates/{0}/out/{0}", self.name());
        let word =
            "run `rt ci` at the top of the repository, or `rt run < stdin` in the program's \
            folder; where that finds nothing changed, remove the program before";
        let Some(made) = modified(&top.join(&name)) else {
            panic!("there is no {name}: {word}");
        };
        let newest = newest(&top.join("crates")).expect("there is no source file below crates/");
        assert!(
            made >= newest,
            "{name} is older than a source file below crates/: {word}"
        );
        top.join(&name)
    }
}

fn modified(file: &Path) -> Option<SystemTime> {
    fs::metadata(file).and_then(|data| data.modified()).ok()
}

/// When the last of the source files below a folder was changed. What a build leaves in `out` has copies
/// of them.
fn newest(folder: &Path) -> Option<SystemTime> {
    let time = |entry: fs::DirEntry| {
        let path = entry.path();
        let source = path.extension().is_some_and(|kind| kind == "rt");
        match path.is_dir() {
            true if path.ends_with("out") => None,
            true => newest(&path),
            false if source => modified(&path),
            false => None,
        }
    };
    let entries = fs::read_dir(folder).into_iter().flatten().flatten();
    entries.filter_map(time).max()
}

/// The start of some bytes, in signs that can be read.
pub fn shown(bytes: &[u8]) -> String {
    let start = &bytes[..bytes.len().min(400)];
    format!("{} bytes \"{}\"", bytes.len(), start.escape_ascii())
}
