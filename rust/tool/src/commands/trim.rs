//! `vrbolist trim`: a trust image without what is past, and its table of verdicts cut to match.

use super::chain::table_and_moment;
use super::image::words as image_words;
use super::pack::IMAGE_MOST;
use super::Command;
use crate::answer::Answer;
use crate::args::{self, Given, Takes};
use crate::explain;
use crate::files;
use crate::json::{object, Json};
use crate::places::{self, kind_name, Place, Told};
use crate::stop::Stop;
use crate::table;
use crate::text::{counted, moment};
use std::path::Path;
use vrbolist::{Refusal, Room};

pub const COMMAND: Command = Command {
    name: "trim",
    help: "\
vrbolist trim IMAGE OUT --at YYYYMMDDHHMMSS --table T --table-out U [--dry-run] [--force] [--json]

Makes room in a trust image: writes it to OUT without the certificates whose end, and the CRLs whose
next update, is before the moment, and without the items that do not pass their profile. The others
keep their order, flags and letters, and the image its day and version. The table of verdicts T is
written to U with the rows and columns of what stays, in the form that T has. From that moment on
every signer that stays has the same chain, under the new places; those that go had none.

Lists every item with its old place, its new one, and why it goes. OUT and U are both written, or
neither, and are not written over without --force. With --dry-run nothing is written.

Example:
  vrbolist pack xo.image --day 20261115 --anchor tests/data/made/xo-anchor-1.der \\
    --signer tests/data/made/ut-signer-5.der --crl tests/data/made/xo-crl.der --force
  printf '101\\n000\\n000\\n' > xo.table
  vrbolist trim xo.image new.image --at 20261115120000 \\
    --table xo.table --table-out new.table --force
",
    takes: Takes {
        alone: &["IMAGE", "OUT"],
        options: &["--at", "--table", "--table-out"],
        switches: &["--dry-run", "--force"],
    },
    run,
};

fn run(given: &Given) -> Result<Answer, Stop> {
    let at = args::number(given.wanted("--at", "YYYYMMDDHHMMSS")?, "moment YYYYMMDDHHMMSS")?;
    let (table_path, table_out) = (given.wanted("--table", "T")?, given.wanted("--table-out", "U")?);
    let (image_path, out) = (given.word(0), given.word(1));
    if out == table_out {
        return Err(Stop::usage("OUT and --table-out name the same file: give two names"));
    }
    let image = files::read(image_path)?;
    let file = files::read(table_path)?;
    let digits = table::digits(&file);
    let verdicts = table::read(file)?;
    let dry = given.has("--dry-run");
    let base = object! {
        "command": "trim", "file": files::shown(image_path), "at": at, "out": files::shown(out),
        "table_out": files::shown(table_out), "dry_run": dry,
    };
    let (mut room, mut cut) = (vec![0; IMAGE_MOST], vec![0; verdicts.len()]);
    let made = match vrbolist::make_room(&image, &verdicts, at, &mut room, &mut cut) {
        Ok(made) => made,
        Err(refusal) => {
            let head = format!("{}, {}  not written\n", files::shown(out), files::shown(table_out));
            return Ok(Answer::refused(head, base, refusal, &words(refusal, &image, &verdicts, at)));
        }
    };
    if !dry {
        let table = if digits { table::lines(made.table, made.entries) } else { made.table.to_vec() };
        files::write_both([(Path::new(out), made.image), (Path::new(table_out), &table)], given.has("--force"))?;
    }
    let done = if dry { "would be" } else { "are" };
    let last = format!("{}, {}  {done} written\n", files::shown(out), files::shown(table_out));
    Ok(told(base, &image, at, &made, &last))
}

/// The items with their places, and what was written of them.
fn told(base: Json, image: &[u8], at: u64, made: &Room<'_>, last: &str) -> Answer {
    let entries = vrbolist::image(image).map_or(0, |told| told.entries);
    let places = places::all(image, entries);
    let fates = fates(&places, at);
    let going = fates.iter().filter(|fate| fate.new.is_none()).count();
    let mut text = format!("At {} UTC: {} of {} go\n", moment(at), going, counted(fates.len(), "item"));
    if !fates.is_empty() {
        text.push_str("place  new  kind    last moment\n");
    }
    fates.iter().for_each(|fate| text.push_str(&fate.line()));
    text.push_str(&format!(
        "{} bytes become {}, {} become {}\n",
        image.len(),
        made.image.len(),
        counted(fates.len(), "place"),
        made.entries
    ));
    let fields = object! {
        "old_size": image.len(), "size": made.image.len(), "entries": made.entries,
        "places": fates.iter().map(Fate::json).collect::<Vec<_>>(),
    };
    Answer::passed(text + last, base, fields)
}

/// What becomes of the item at a place.
struct Fate<'a> {
    place: &'a Place<'a>,
    new: Option<usize>,
}

/// The new place of each item that stays: how many before it stay.
fn fates<'a>(places: &'a [Place<'a>], at: u64) -> Vec<Fate<'a>> {
    let mut next = 0..;
    places
        .iter()
        .map(|place| {
            let stays = last_moment(place).is_some_and(|last| at <= last);
            Fate { place, new: if stays { next.next() } else { None } }
        })
        .collect()
}

/// The end of a certificate, a CRL's next update; none where the item does not pass.
fn last_moment(place: &Place<'_>) -> Option<u64> {
    match &place.told {
        Told::Certificate(told) => Some(told.end),
        Told::Crl(told) => Some(told.next_update),
        Told::Refused(_) => None,
    }
}

impl Fate<'_> {
    /// Why it goes; nothing where it stays.
    fn why(&self) -> Option<String> {
        match (&self.place.told, self.new) {
            (_, Some(_)) => None,
            (Told::Certificate(_), _) => Some("its end is before the moment".to_string()),
            (Told::Crl(_), _) => Some("its next update is before the moment".to_string()),
            (Told::Refused(refusal), _) => Some(format!(
                "does not pass its profile: {}, detail {}: {}",
                refusal.number,
                refusal.detail,
                explain::short(*refusal)
            )),
        }
    }

    fn line(&self) -> String {
        let new = self.new.map_or("-".to_string(), |new| new.to_string());
        let last = last_moment(self.place).map_or("-".to_string(), moment);
        let kind = kind_name(self.place.entry.kind);
        let fate = self.why().map_or("stays".to_string(), |why| format!("goes: {why}"));
        format!("{:>5}  {new:>3}  {kind:<6}  {last:<19}  {fate}\n", self.place.number)
    }

    fn json(&self) -> Json {
        object! {
            "place": self.place.number, "new": self.new, "kind": kind_name(self.place.entry.kind),
            "last": last_moment(self.place), "why": self.why(),
        }
    }
}

fn words(refusal: Refusal, image: &[u8], table: &[u8], at: u64) -> Vec<String> {
    match (refusal.number, vrbolist::image(image)) {
        (1, Ok(told)) => table_and_moment(table, at, told.entries),
        _ => image_words(refusal, image, None),
    }
}
