//! `dowrhesk release`.

use crate::arguments::Release;
use crate::files::{shown, write};
use crate::folder::{look, Folder};
use crate::page;
use crate::sheet::{Listed, Sheet};
use crate::speaker::Speaker;
use crate::status::Status;
use crate::words::counted;
use std::path::Path;

pub fn run(asked: &Release, speaker: &mut Speaker) -> Status {
    let folder = Path::new(&asked.folder);
    let found = match look(folder) {
        Ok(found) => found,
        Err(said) => {
            speaker.complain(&said);
            return Status::Refused;
        }
    };
    let mut status = strays(&found, speaker);
    if found.cases.is_empty() {
        let folder = shown(folder);
        speaker.complain(&format!("{folder}: no function (NAME.pla) in this folder"));
        return Status::Refused;
    }
    let sheets = sheets(&found, speaker);
    for line in table(&sheets, speaker) {
        speaker.say(&line);
    }
    status = sheets.iter().map(Sheet::status).fold(status, Status::max);
    speaker.say(&summary(&sheets));
    status.max(paged(asked, &sheets, speaker))
}

/// Lists that have no function beside them cannot be judged.
fn strays(found: &Folder, speaker: &mut Speaker) -> Status {
    for stray in &found.strays {
        let stray = shown(stray);
        speaker.complain(&format!("{stray}: a list without its function beside it"));
    }
    match found.strays.is_empty() {
        true => Status::Accepted,
        false => Status::Refused,
    }
}

/// Goes through the functions, and says at once what is not accepted.
fn sheets(found: &Folder, speaker: &mut Speaker) -> Vec<Sheet> {
    let mut sheets = Vec::new();
    for (done, case) in found.cases.iter().enumerate() {
        let (number, all) = (done + 1, found.cases.len());
        speaker.progress(&format!("{number} of {all}: {}", case.name));
        let sheet = Sheet::of(case);
        tell(&sheet, speaker);
        sheets.push(sheet);
    }
    speaker.clear_progress();
    sheets
}

fn tell(sheet: &Sheet, speaker: &mut Speaker) {
    if let Err(trouble) = &sheet.function {
        speaker.complain(&trouble.said);
    }
    for list in &sheet.lists {
        match &list.found {
            Ok(found) if list.status() == Status::Faulty => speaker.say(&found.said),
            Ok(_) => {}
            Err(trouble) => speaker.complain(&trouble.said),
        }
    }
}

const HEADS: [&str; 6] = ["function", "columns", "list", "rows", "literals", "verdict"];

/// The table at the end: a line for each list, and one for a function that was not read.
fn table(sheets: &[Sheet], speaker: &Speaker) -> Vec<String> {
    let mut lines = vec![(HEADS.map(str::to_string), None)];
    for sheet in sheets {
        match &sheet.function {
            Err(trouble) => {
                let dash = || "-".to_string();
                let name = sheet.name.clone();
                let cells = [name, dash(), dash(), dash(), dash(), trouble.short.clone()];
                lines.push((cells, Some(Status::Refused)));
            }
            Ok(function) => {
                let mut start = [sheet.name.clone(), function.columns().to_string()];
                for list in &sheet.lists {
                    lines.push((cells(start, list), Some(list.status())));
                    start = Default::default();
                }
            }
        }
    }
    let cells: Vec<&[String; 6]> = lines.iter().map(|(cells, _)| cells).collect();
    let widths = widths(&cells);
    let line = |(cells, status): &([String; 6], Option<Status>)| {
        let verdict = match status {
            None => cells[5].clone(),
            Some(status) => speaker.coloured(&cells[5], *status),
        };
        format!("{}  {verdict}", aligned(cells, &widths))
    };
    lines.iter().map(line).collect()
}

fn cells([name, columns]: [String; 2], list: &Listed) -> [String; 6] {
    let [rows, literals] = list.sizes();
    let (word, verdict) = (list.word.clone(), list.in_short().to_string());
    [name, columns, word, rows, literals, verdict]
}

/// The greatest width in each place.
fn widths(lines: &[&[String; 6]]) -> [usize; 6] {
    let mut widths = [0; 6];
    for line in lines {
        for (width, cell) in widths.iter_mut().zip(line.iter()) {
            *width = cell.chars().count().max(*width);
        }
    }
    widths
}

/// All but the verdict: names to the left, numbers to the right.
fn aligned(cells: &[String; 6], widths: &[usize; 6]) -> String {
    let [name, columns, word, rows, literals, _] = cells;
    let [w0, w1, w2, w3, w4, _] = widths;
    format!("{name:w0$}  {columns:>w1$}  {word:w2$}  {rows:>w3$}  {literals:>w4$}")
}

/// How many lists there are of each kind.
pub fn summary(sheets: &[Sheet]) -> String {
    let number = |wanted: Status| {
        let lists = sheets.iter().flat_map(|sheet| &sheet.lists);
        lists.filter(|list| list.status() == wanted).count()
    };
    let unread = sheets
        .iter()
        .filter(|sheet| sheet.function.is_err())
        .count();
    let mut said = format!(
        "{}: {} accepted, {} faulty",
        counted(sheets.len(), "function"),
        counted(number(Status::Accepted), "list"),
        number(Status::Faulty)
    );
    if number(Status::Refused) > 0 {
        said += &format!(", {} refused", number(Status::Refused));
    }
    if unread > 0 {
        said += &format!("; {} refused", counted(unread, "function"));
    }
    said
}

/// Writes the page if it is asked for.
fn paged(asked: &Release, sheets: &[Sheet], speaker: &mut Speaker) -> Status {
    let Some(out) = &asked.page else {
        return Status::Accepted;
    };
    let folder = shown(Path::new(&asked.folder));
    match write(Path::new(out), page::page(&folder, sheets).as_bytes()) {
        Ok(()) => Status::Accepted,
        Err(said) => {
            speaker.complain(&said);
            Status::Refused
        }
    }
}
