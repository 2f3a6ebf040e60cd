//! `vrbolist unpack`: the items of an image as files.

use super::image::words;
use super::Command;
use crate::answer::Answer;
use crate::args::{Given, Takes};
use crate::files;
use crate::json::{object, Json};
use crate::places::kind_name;
use crate::stop::Stop;
use crate::text::{counted, day};
use std::ffi::OsStr;
use std::fs;
use std::path::Path;
use vrbolist::Entry;

pub const COMMAND: Command = Command {
    name: "unpack",
    help: "\
vrbolist unpack IMAGE DIR [--force] [--json]

Writes each item of a trust image to a file in DIR, named by place and kind: 00-anchor.der,
01-anchor-disabled.der, 04-link.der. DIR is made, whole or not at all; it may be there where it is
empty. With --force the files are written into a folder that has others, each of them whole.

Example:
  vrbolist pack one.image --day 20261115 --anchor tests/data/made/ut-anchor-1.der --force
  vrbolist unpack one.image one --force
",
    takes: Takes { alone: &["IMAGE", "DIR"], options: &[], switches: &["--force"] },
    run,
};

fn run(given: &Given) -> Result<Answer, Stop> {
    let bytes = files::read(given.word(0))?;
    let base =
        object! { "command": "unpack", "file": files::shown(given.word(0)), "folder": files::shown(given.word(1)) };
    let image = match vrbolist::image(&bytes) {
        Ok(image) => image,
        Err(refusal) => {
            let head = format!("{}  not unpacked\n", files::shown(given.word(0)));
            return Ok(Answer::refused(head, base, refusal, &words(refusal, &bytes, None)));
        }
    };
    let entries = (0..image.entries).filter_map(|place| Some((place, vrbolist::entry(&bytes, place).ok()?)));
    let items: Vec<(String, &[u8])> = entries.map(|(place, entry)| (file_name(place, &entry), entry.item)).collect();
    write(given.word(1), &items, given.has("--force"))?;
    let head = format!(
        "{}  {} of the image of {}\n",
        files::shown(given.word(1)),
        counted(items.len(), "item"),
        day(image.day)
    );
    Ok(told(head, base.with(object! { "day": image.day }), &items))
}

fn told(head: String, base: Json, items: &[(String, &[u8])]) -> Answer {
    let lines: String = items.iter().map(|(name, item)| format!("{:>7}  {name}\n", item.len())).collect();
    let one = |(name, item): &(String, &[u8])| object! { "file": name.as_str(), "size": item.len() };
    let files: Vec<Json> = items.iter().map(one).collect();
    Answer::passed(head + &lines, base, object! { "files": files })
}

fn file_name(place: u64, entry: &Entry<'_>) -> String {
    let state = if entry.kind == 1 && entry.flags == 0 { "-disabled" } else { "" };
    format!("{place:02}-{}{state}.der", kind_name(entry.kind))
}

fn write(folder: &OsStr, items: &[(String, &[u8])], force: bool) -> Result<(), Stop> {
    let folder = Path::new(folder);
    if !force || !folder.exists() {
        return files::write_folder(folder, items);
    }
    if !fs::metadata(folder).map(|found| found.is_dir()).unwrap_or(false) {
        return Err(Stop::cannot_write(format!(
            "{}: is no folder: give another name",
            files::shown(folder.as_os_str())
        )));
    }
    items.iter().try_for_each(|(name, item)| files::write(&folder.join(name), item, true))
}
