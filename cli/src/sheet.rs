//! What is found out about one function of a release: itself, and each list's verdict.

use crate::files::{read, write};
use crate::folder::{Case, NEW};
use crate::judging::{judge, Judged};
use crate::status::Status;
use crate::{words, RECORDS, ROOM};
use dowrhesk::{literals, write_list, Function, Refused};
use std::path::Path;

/// A function and its lists.
pub struct Sheet {
    pub name: String,
    pub function: Result<Function, Trouble>,
    pub lists: Vec<Listed>,
}

/// A list beside a function: the word in its name, and what was found.
pub struct Listed {
    pub word: String,
    pub found: Result<Found, Trouble>,
}

/// A list that was judged: its text, the verdict, and the verdict in words.
pub struct Found {
    pub text: Vec<u8>,
    pub judged: Judged,
    pub said: String,
}

/// Why something could not be judged, in a line or some, and in short.
pub struct Trouble {
    pub said: String,
    pub short: String,
}

impl Trouble {
    fn file(short: &str) -> impl Fn(String) -> Trouble + '_ {
        move |said| Trouble {
            said,
            short: short.to_string(),
        }
    }

    fn refused(name: &str, text: &[u8], refused: Refused) -> Trouble {
        Trouble {
            said: words::refusal(name, text, refused),
            short: format!("refused: {}", words::short_reason(refused)),
        }
    }
}

impl Sheet {
    /// Reads a function, judges the lists beside it, writes the new one and judges that.
    pub fn of(case: &Case) -> Sheet {
        let mut sheet = Sheet {
            name: case.name.clone(),
            function: read_function(&case.function),
            lists: Vec::new(),
        };
        let Ok(function) = &mut sheet.function else {
            return sheet;
        };
        for (word, path) in &case.lists {
            sheet.lists.push(Listed {
                word: word.clone(),
                found: judged_file(function, path),
            });
        }
        sheet.lists.push(Listed {
            word: NEW.to_string(),
            found: renewed(function, case),
        });
        sheet
    }

    pub fn status(&self) -> Status {
        let of_lists = self.lists.iter().map(Listed::status);
        match self.function {
            Ok(_) => of_lists.max().unwrap_or(Status::Accepted),
            Err(_) => Status::Refused,
        }
    }
}

impl Listed {
    pub fn status(&self) -> Status {
        match &self.found {
            Ok(found) => found.judged.status(),
            Err(_) => Status::Refused,
        }
    }

    /// The verdict, or why there is none, in some words.
    pub fn in_short(&self) -> &str {
        match &self.found {
            Ok(found) => words::in_short(found.judged.verdict),
            Err(trouble) => &trouble.short,
        }
    }

    /// The numbers of rows and literals, or a dash for each.
    pub fn sizes(&self) -> [String; 2] {
        match &self.found {
            Ok(Found { judged, .. }) => {
                let literals = literals(&judged.list) as usize;
                [words::grouped(judged.list.len()), words::grouped(literals)]
            }
            Err(_) => ["-".to_string(), "-".to_string()],
        }
    }
}

fn read_function(path: &Path) -> Result<Function, Trouble> {
    let input = read(path.as_os_str()).map_err(Trouble::file("not read"))?;
    Function::read(&input.text, RECORDS)
        .map_err(|refused| Trouble::refused(&input.name, &input.text, refused))
}

fn judged_file(function: &Function, path: &Path) -> Result<Found, Trouble> {
    let input = read(path.as_os_str()).map_err(Trouble::file("not read"))?;
    let judged = judge(function, &input.text)
        .map_err(|refused| Trouble::refused(&input.name, &input.text, refused))?;
    let said = words::verdict(&input.name, &input.text, function, &judged);
    Ok(Found {
        text: input.text,
        judged,
        said,
    })
}

/// Writes the new list, and judges what then stands in its file.
fn renewed(function: &mut Function, case: &Case) -> Result<Found, Trouble> {
    let text = function
        .list(ROOM)
        .and_then(|list| write_list(function.columns(), &list))
        .map_err(|refused| Trouble::refused(&case.function.to_string_lossy(), &[], refused))?;
    let path = case.new_list();
    write(&path, &text).map_err(Trouble::file("not written"))?;
    judged_file(function, &path)
}
