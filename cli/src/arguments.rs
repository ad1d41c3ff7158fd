//! What the words of the command line ask for.

use crate::help;
use std::ffi::OsString;

/// What is asked.
#[derive(PartialEq, Eq, Debug)]
pub enum Asked {
    Help(&'static str),
    List(List),
    Check(Check),
    Release(Release),
}

#[derive(PartialEq, Eq, Debug)]
pub struct List {
    pub function: OsString,
    pub out: Option<OsString>,
    pub plain: bool,
}

#[derive(PartialEq, Eq, Debug)]
pub struct Check {
    pub function: OsString,
    pub lists: Vec<OsString>,
    pub plain: bool,
}

#[derive(PartialEq, Eq, Debug)]
pub struct Release {
    pub folder: OsString,
    pub page: Option<OsString>,
}

/// What the words ask for, or what is wrong with them.
pub fn parse(mut words: impl Iterator<Item = OsString>) -> Result<Asked, String> {
    let Some(command) = words.next() else {
        return Err("no command is given; see `dowrhesk --help`".to_string());
    };
    match command.to_str() {
        Some("--help" | "-h" | "help") => Ok(Asked::Help(help::ALL)),
        Some("list") => list(words),
        Some("check") => check(words),
        Some("release") => release(words),
        _ => {
            let command = command.to_string_lossy();
            Err(format!(
                "there is no command `{command}`; see `dowrhesk --help`"
            ))
        }
    }
}

fn list(words: impl Iterator<Item = OsString>) -> Result<Asked, String> {
    let mut options = Options::split("list", words, "-o", true)?;
    if options.help {
        return Ok(Asked::Help(help::LIST));
    }
    if options.files.len() != 1 {
        return Err(options.wrong("takes one function"));
    }
    Ok(Asked::List(List {
        function: options.files.remove(0),
        out: options.value,
        plain: options.plain,
    }))
}

fn check(words: impl Iterator<Item = OsString>) -> Result<Asked, String> {
    let mut options = Options::split("check", words, "", true)?;
    if options.help {
        return Ok(Asked::Help(help::CHECK));
    }
    if options.files.len() < 2 {
        return Err(options.wrong("takes a function and one list or more"));
    }
    if options.files.iter().filter(|file| *file == "-").count() > 1 {
        return Err(options.wrong("can take standard input (-) only once"));
    }
    Ok(Asked::Check(Check {
        function: options.files.remove(0),
        lists: options.files,
        plain: options.plain,
    }))
}

fn release(words: impl Iterator<Item = OsString>) -> Result<Asked, String> {
    let mut options = Options::split("release", words, "--html", false)?;
    if options.help {
        return Ok(Asked::Help(help::RELEASE));
    }
    if options.files.len() != 1 {
        return Err(options.wrong("takes one folder"));
    }
    let page = options.value.as_ref().map(|page| page.to_string_lossy());
    if page.is_some_and(|page| page == "-" || page.ends_with(".pla")) {
        return Err(options.wrong("writes its page to a file of its own"));
    }
    Ok(Asked::Release(Release {
        folder: options.files.remove(0),
        page: options.value,
    }))
}

/// The words of a command, by kind.
struct Options {
    command: &'static str,
    help: bool,
    plain: bool,
    value: Option<OsString>,
    files: Vec<OsString>,
}

impl Options {
    /// Splits words into files, `--help`, `--plain` where it is known, and the one option that takes
    /// a value. After `--` every word is a file.
    fn split(
        command: &'static str,
        mut words: impl Iterator<Item = OsString>,
        valued: &str,
        knows_plain: bool,
    ) -> Result<Options, String> {
        let mut options = Options {
            command,
            help: false,
            plain: false,
            value: None,
            files: Vec::new(),
        };
        while let Some(word) = words.next() {
            match word.to_str() {
                Some("--") => options.files.extend(words.by_ref()),
                Some("--help" | "-h") => options.help = true,
                Some("--plain") if knows_plain => options.plain = true,
                Some(option) if !valued.is_empty() && option == valued => {
                    let value = words.next();
                    if value.is_none() || options.value.is_some() {
                        return Err(options.wrong(&format!("takes one file after {valued}")));
                    }
                    options.value = value;
                }
                Some(option) if option.starts_with('-') && option != "-" => {
                    return Err(options.wrong(&format!("knows no option `{option}`")));
                }
                _ => options.files.push(word),
            }
        }
        Ok(options)
    }

    fn wrong(&self, what: &str) -> String {
        let command = self.command;
        format!("{command} {what}; see `dowrhesk {command} --help`")
    }
}
