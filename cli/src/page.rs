//! The release as one page of HTML that needs nothing else: the table of all functions, then a section
//! for each with its lists, their verdicts and, for few columns, their maps.

use crate::judging::Judged;
use crate::map::{cells, point, side, Cell, MOST};
use crate::place::{rows, Row};
use crate::release::summary;
use crate::sheet::{Found, Listed, Sheet};
use crate::status::Status;
use crate::words::{counted, digits, grouped, sign_word};
use crate::RECORDS;
use dowrhesk::{Function, Sign, Verdict};
use std::fmt::Write;

const STYLE: &str = include_str!("page.css");

/// The whole page.
pub fn page(folder: &str, sheets: &[Sheet]) -> String {
    let folder = escaped(folder);
    let mut page = format!(
        "<!DOCTYPE html>\n<html lang=\"en\">\n<head>\n<meta charset=\"utf-8\">\n\
         <meta name=\"viewport\" content=\"width=device-width, initial-scale=1\">\n\
         <title>Release of {folder}</title>\n<style>\n{STYLE}</style>\n</head>\n<body>\n<main>\n\
         <h1>Release of {folder}</h1>\n<p class=\"soft\">{}</p>\n",
        escaped(&summary(sheets))
    );
    page += &all(sheets);
    if sheets.iter().any(has_map) {
        page += LEGEND;
    }
    for (sheet, number) in sheets.iter().zip(1..) {
        page += &section(sheet, number);
    }
    page + "</main>\n</body>\n</html>\n"
}

/// How to read a map.
const LEGEND: &str = "<p class=\"legend\">\
     <span><span class=\"box on\">1</span>on</span>\
     <span><span class=\"box\">0</span>off</span>\
     <span><span class=\"box care\">&ndash;</span>don't care</span>\
     <span><span class=\"row c0\">1</span> row 1 covers the point</span>\
     <span><span class=\"box fault\">0</span>the point of the fault; only the first fault is told</span></p>\n";

fn has_map(sheet: &Sheet) -> bool {
    let drawn = |function: &Function| function.columns() <= MOST;
    sheet.function.as_ref().is_ok_and(drawn)
}

/// What HTML would read as its own signs is written so that it does not.
fn escaped(text: &str) -> String {
    let mut escaped = String::new();
    for letter in text.chars() {
        match letter {
            '&' => escaped += "&amp;",
            '<' => escaped += "&lt;",
            '>' => escaped += "&gt;",
            '"' => escaped += "&quot;",
            '\'' => escaped += "&#39;",
            _ => escaped.push(letter),
        }
    }
    escaped
}

fn class(status: Status) -> &'static str {
    match status {
        Status::Accepted => "accepted",
        Status::Faulty => "faulty",
        Status::Refused => "refused",
    }
}

/// The table of all functions.
fn all(sheets: &[Sheet]) -> String {
    let mut table = String::from(
        "<section>\n<table class=\"all\">\n<tr><th>function</th><th class=\"number\">columns</th>\
         <th>list</th><th class=\"number\">rows</th><th class=\"number\">literals</th>\
         <th>verdict</th></tr>\n",
    );
    for (sheet, number) in sheets.iter().zip(1..) {
        let name = format!("<a href=\"#f{number}\">{}</a>", escaped(&sheet.name));
        match &sheet.function {
            Err(trouble) => {
                let short = escaped(&trouble.short);
                table += &format!(
                    "<tr><td>{name}</td><td class=\"number\">-</td><td>-</td><td class=\"number\">-\
                     </td><td class=\"number\">-</td><td class=\"refused\">{short}</td></tr>\n"
                );
            }
            Ok(function) => {
                let mut start = [name, function.columns().to_string()];
                for list in &sheet.lists {
                    table += &line(start, list);
                    start = Default::default();
                }
            }
        }
    }
    table + "</table>\n</section>\n"
}

fn line([name, columns]: [String; 2], list: &Listed) -> String {
    let [rows, literals] = list.sizes();
    let (word, verdict) = (escaped(&list.word), escaped(list.in_short()));
    let class = class(list.status());
    format!(
        "<tr><td>{name}</td><td class=\"number\">{columns}</td><td>{word}</td>\
         <td class=\"number\">{rows}</td><td class=\"number\">{literals}</td>\
         <td class=\"{class}\">{verdict}</td></tr>\n"
    )
}

/// The section of a function.
fn section(sheet: &Sheet, number: usize) -> String {
    let name = escaped(&sheet.name);
    let mut section = format!("<section id=\"f{number}\">\n<h2>{name}</h2>\n");
    match &sheet.function {
        Err(trouble) => section += &said(&trouble.said, Status::Refused),
        Ok(function) => {
            let columns = counted(function.columns().into(), "column");
            let (used, there) = (grouped(function.records()), grouped(RECORDS));
            section +=
                &format!("<p class=\"soft\">{columns}, {used} of {there} records used</p>\n");
            for list in &sheet.lists {
                section += &of_list(function, list);
            }
        }
    }
    section + "</section>\n"
}

fn said(text: &str, status: Status) -> String {
    format!(
        "<p class=\"said {}\">{}</p>\n",
        class(status),
        escaped(text)
    )
}

/// A list: its verdict, its map or none, its rows.
fn of_list(function: &Function, list: &Listed) -> String {
    let mut part = format!("<div class=\"list\">\n<h3>{}</h3>\n", escaped(&list.word));
    match &list.found {
        Err(trouble) => part += &said(&trouble.said, Status::Refused),
        Ok(found) => {
            part += &said(&found.said, list.status());
            let rows = row_list(function.columns(), found);
            part += &if function.columns() <= MOST {
                let map = map(function, &found.judged);
                format!("<div class=\"side\">\n{map}{rows}</div>\n")
            } else {
                format!("<details><summary>the rows</summary>\n{rows}</details>\n")
            };
        }
    }
    part + "</div>\n"
}

/// The point, the row and the column that a verdict names.
#[derive(Default)]
struct Marks {
    point: Option<u32>,
    row: Option<usize>,
    column: Option<usize>,
}

fn marks(verdict: Verdict) -> Marks {
    let none = Marks::default();
    match verdict {
        Verdict::Accept => none,
        Verdict::Off { cube, point } => Marks {
            point: Some(point),
            row: Some(cube),
            ..none
        },
        Verdict::Missing { point } => Marks {
            point: Some(point),
            ..none
        },
        Verdict::Literal { cube, column } => Marks {
            row: Some(cube),
            column: Some(column),
            ..none
        },
        Verdict::Cube { cube } => Marks {
            row: Some(cube),
            ..none
        },
    }
}

/// A row's number in its colour.
fn badge(row: usize) -> String {
    format!("<span class=\"row c{}\">{row}</span>", (row - 1) % 8)
}

/// The rows of a list as they stand in the file, with their lines.
fn row_list(columns: u16, found: &Found) -> String {
    let Found { text, judged, .. } = found;
    let marks = marks(judged.verdict);
    let mut table = String::from("<table class=\"rowlist\">\n");
    for (row, number) in rows(text, columns, judged.list.len()).iter().zip(1..) {
        let faulty = marks.row == Some(number);
        let class = if faulty { " class=\"fault\"" } else { "" };
        let column = marks.column.filter(|_| faulty);
        let (badge, signs, line) = (badge(number), marked(row, column), row.line);
        let _ = writeln!(
            table,
            "<tr{class}><td>{badge}</td><td class=\"signs\">{signs}</td>\
             <td class=\"line\">line {line}</td></tr>"
        );
    }
    if judged.list.is_empty() {
        table += "<tr><td class=\"soft\">no rows</td></tr>\n";
    }
    table + "</table>\n"
}

/// A row's text with the literal of a column marked.
fn marked(row: &Row, column: Option<usize>) -> String {
    let mut text = String::new();
    for (place, sign) in row.text.chars().enumerate() {
        let sign = escaped(&sign.to_string());
        text += &match column {
            Some(column) if column == place => format!("<mark>{sign}</mark>"),
            _ => sign,
        };
    }
    text
}

/// The map of a function and a list.
fn map(function: &Function, judged: &Judged) -> String {
    let columns = function.columns();
    let Ok(cells) = cells(function, &judged.list) else {
        unreachable!("a list that was judged has a map");
    };
    let (left, top) = (columns / 2, columns - columns / 2);
    let fault = marks(judged.verdict).point;
    let mut map = format!("<table class=\"map\">\n{}", heads(left, top));
    for at_left in side(left) {
        map += "<tr>";
        let _ = write!(map, "<th>{}</th>", place_digits(at_left, left));
        for at_top in side(top) {
            let point = point(at_left, left, at_top, top);
            map += &drawn(&cells[point as usize], point, columns, fault);
        }
        map += "</tr>\n";
    }
    map + "</table>\n"
}

/// The lines above the map: which columns stand where, and the digits at the top.
fn heads(left: u16, top: u16) -> String {
    let across = 1u32 << top;
    let at_top = span(left + 1, left + top);
    let at_left = match left {
        0 => String::new(),
        _ => format!("{} &darr;", span(1, left)),
    };
    let mut heads = format!(
        "<tr><th></th><th class=\"axis\" colspan=\"{across}\">{at_top} &rarr;</th></tr>\n\
         <tr><th class=\"axis\">{at_left}</th>"
    );
    for place in side(top) {
        let _ = write!(heads, "<th>{}</th>", place_digits(place, top));
    }
    heads + "</tr>\n"
}

fn span(first: u16, last: u16) -> String {
    if first == last {
        format!("column {first}")
    } else {
        format!("columns {first} to {last}")
    }
}

/// The digits of a place along a side, heaviest first.
fn place_digits(place: u32, columns: u16) -> String {
    let digit = |column: u16| char::from(b"01"[(place >> column & 1) as usize]);
    (0..columns).rev().map(digit).collect()
}

/// The rows that a cell has space for.
const SHOWN: usize = 4;

fn drawn(cell: &Cell, point: u32, columns: u16, fault: Option<u32>) -> String {
    let (class, sign) = match cell.sign {
        Sign::On => ("on", "1"),
        Sign::Off => ("off", "0"),
        Sign::DontCare => ("care", "&ndash;"),
    };
    let faulty = if fault == Some(point) { " fault" } else { "" };
    let badges: String = cell
        .rows
        .iter()
        .take(SHOWN)
        .map(|&row| badge(row))
        .collect();
    let more = match cell.rows.len().saturating_sub(SHOWN) {
        0 => String::new(),
        more => format!(" +{more}"),
    };
    let digits = digits(point, columns);
    let title = format!(
        "point {digits}: {}, {}",
        sign_word(cell.sign),
        covered(&cell.rows)
    );
    format!(
        "<td class=\"{class}{faulty}\" data-point=\"{digits}\" title=\"{}\">\
         <span class=\"sign\">{sign}</span><span class=\"rows\">{badges}{more}</span></td>",
        escaped(&title)
    )
}

fn covered(rows: &[usize]) -> String {
    let numbers: Vec<String> = rows.iter().map(usize::to_string).collect();
    match rows.len() {
        0 => "covered by no row".to_string(),
        1 => format!("covered by row {}", numbers[0]),
        _ => format!("covered by rows {}", numbers.join(", ")),
    }
}
