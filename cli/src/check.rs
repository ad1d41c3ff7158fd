//! `dowrhesk check`.

use crate::arguments::Check;
use crate::files::{read, Input};
use crate::judging::judge;
use crate::speaker::Speaker;
use crate::status::Status;
use crate::{plain, words, RECORDS};
use dowrhesk::Function;
use std::ffi::OsString;

pub fn run(asked: &Check, speaker: &mut Speaker) -> Status {
    let text = match read(&asked.function) {
        Ok(text) => text,
        Err(said) => {
            speaker.complain(&said);
            return Status::Refused;
        }
    };
    if asked.plain {
        return each(&asked.lists, speaker, |list, speaker| {
            let (line, status) = plain::checked(&text.text, &list.text);
            speaker.write(&line);
            status
        });
    }
    match Function::read(&text.text, RECORDS) {
        Ok(function) => each(&asked.lists, speaker, |list, speaker| {
            say(&function, list, speaker)
        }),
        Err(refused) => {
            speaker.complain(&words::refusal(&text.name, &text.text, refused));
            Status::Refused
        }
    }
}

/// Every list is read and told of; the greatest status counts.
fn each(
    lists: &[OsString],
    speaker: &mut Speaker,
    tell: impl Fn(&Input, &mut Speaker) -> Status,
) -> Status {
    let mut status = Status::Accepted;
    for list in lists {
        status = status.max(match read(list) {
            Ok(list) => tell(&list, speaker),
            Err(said) => {
                speaker.complain(&said);
                Status::Refused
            }
        });
    }
    status
}

/// The verdict on a list in words.
fn say(function: &Function, list: &Input, speaker: &mut Speaker) -> Status {
    match judge(function, &list.text) {
        Ok(judged) => {
            let said = words::verdict(&list.name, &list.text, function, &judged);
            let said = speaker.coloured(&said, judged.status());
            speaker.say(&said);
            judged.status()
        }
        Err(refused) => {
            speaker.complain(&words::refusal(&list.name, &list.text, refused));
            Status::Refused
        }
    }
}
