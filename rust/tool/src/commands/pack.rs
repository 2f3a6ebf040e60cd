//! `vrbolist pack`: writes a trust image.

use super::image::{listing, places_json};
use super::Command;
use crate::answer::Answer;
use crate::args::{self, Given, Takes};
use crate::files;
use crate::json::{object, Json};
use crate::letters;
use crate::places;
use crate::stop::Stop;
use crate::text::{counted, day};
use std::path::Path;
use vrbolist::{Image, Refusal};

pub const COMMAND: Command = Command {
    name: "pack",
    help: "\
vrbolist pack OUT --day YYYYMMDD [--version 1|2] [--anchor F] [--disabled-anchor F] [--link F]
              [--signer F] [--crl F] .. [--force] [--json]

Writes a trust image of the given items, any number of each; their places are in the order given.
OUT is written whole or not at all, and is not written over without --force. Items are DER or PEM.
Without --version the image is of version 1. One of version 2 also has the letters of each item's
country: those that it reports, none where it does not pass.

Example:
  vrbolist pack ut.image --day 20261115 --anchor tests/data/made/ut-anchor-1.der \\
    --signer tests/data/made/ut-signer-1.der --crl tests/data/made/ut-crl-today.der --force
",
    takes: Takes {
        alone: &["OUT"],
        options: &["--day", "--version", "--anchor", "--disabled-anchor", "--link", "--signer", "--crl"],
        switches: &["--force"],
    },
    run,
};

pub const IMAGE_MOST: usize = 262_144;
pub const TOO_LONG: &str = "The image would pass 262,144 bytes: leave items out.";
const ITEM_MOST: usize = 16_384;

/// Items back to back, and the columns of the index.
#[derive(Default)]
pub struct Columns {
    pub items: Vec<u8>,
    pub kinds: Vec<u8>,
    pub flags: Vec<u8>,
    pub lengths: Vec<u32>,
}

impl Columns {
    /// Of an item that is too long one byte too many is kept, so that it is refused and takes no room.
    pub fn add(&mut self, kind: u8, flags: u8, item: &[u8]) {
        let kept = item.get(..ITEM_MOST + 1).unwrap_or(item);
        self.items.extend_from_slice(kept);
        self.kinds.push(kind);
        self.flags.push(flags);
        self.lengths.push(u32::try_from(kept.len()).unwrap_or(u32::MAX));
    }

    pub fn written(&self, version: u64, day: u64) -> Result<Vec<u8>, Refusal> {
        let mut out = vec![0; IMAGE_MOST];
        let letters = self.letters(version);
        vrbolist::write(&self.items, &self.kinds, &self.flags, &self.lengths, &letters, version, day, &mut out)
            .map(<[u8]>::to_vec)
    }

    /// Those that each item reports; zeros in version 1, and where it does not pass.
    fn letters(&self, version: u64) -> Vec<u8> {
        let mut out = Vec::new();
        let mut rest = self.items.as_slice();
        for (kind, length) in self.kinds.iter().zip(&self.lengths) {
            let (item, behind) = rest.split_at_checked(*length as usize).unwrap_or_default();
            rest = behind;
            out.extend(if version == 2 { letters::of(&places::judge(item, u64::from(*kind))) } else { [0, 0] });
        }
        out
    }
}

fn run(given: &Given) -> Result<Answer, Stop> {
    let wanted = args::number(given.wanted("--day", "YYYYMMDD")?, "day YYYYMMDD")?;
    let version = given.option("--version")?.map_or(Ok(1), |word| args::number(word, "version"))?;
    let columns = columns(given)?;
    let out = given.word(0);
    let base = object! { "command": "pack", "file": files::shown(out), "day": wanted, "version": version };
    match columns.written(version, wanted) {
        Ok(image) => {
            files::write(Path::new(out), &image, given.has("--force"))?;
            Ok(told(&files::shown(out), base, &image))
        }
        Err(refusal) => {
            let head = format!("{}  not written\n", files::shown(out));
            Ok(Answer::refused(head, base, refusal, &words(refusal, &columns, version, wanted)))
        }
    }
}

/// What was written, read back.
pub fn told(file: &str, base: Json, image: &[u8]) -> Answer {
    let read = vrbolist::image(image).unwrap_or(Image { entries: 0, day: 0, version: 0 });
    let places = places::all(image, read.entries);
    let text = format!(
        "{file}  written: {} bytes, image of {}, version {}, {}\n",
        image.len(),
        day(read.day),
        read.version,
        counted(places.len(), "place")
    );
    let fields = object! { "size": image.len(), "places": places_json(&places) };
    Answer::passed(text + &listing(&places, read.version), base, fields)
}

fn columns(given: &Given) -> Result<Columns, Stop> {
    let mut columns = Columns::default();
    for (name, path) in &given.options {
        let (kind, flags) = match *name {
            "--anchor" => (1, 1),
            "--disabled-anchor" => (1, 0),
            "--link" => (2, 0),
            "--signer" => (3, 0),
            "--crl" => (4, 0),
            _ => continue,
        };
        columns.add(kind, flags, &files::read_item(path)?.bytes);
    }
    Ok(columns)
}

/// Which argument of a writing was refused.
fn words(refusal: Refusal, columns: &Columns, version: u64, wanted: u64) -> Vec<String> {
    let mut out = Vec::new();
    if refusal.number == 3 {
        out.push(TOO_LONG.to_string());
    }
    if refusal.number == 1 && !(1..=2).contains(&version) {
        out.push(format!("There is no version {version} of images: 1 and 2 there are."));
    }
    if refusal.number == 1 && vrbolist::day_difference(wanted, wanted).is_err() {
        out.push(format!("{wanted} is not a real day of 1950 to 2099."));
    }
    if refusal.number == 1 && columns.kinds.len() > 96 {
        out.push(format!("There are {} items; an image may have 96.", columns.kinds.len()));
    }
    let wrong = |length: &u32| !(1..=16_384).contains(length);
    if let Some(place) = columns.lengths.iter().position(wrong).filter(|_| refusal.number == 1) {
        out.push(format!("The item for place {place} is empty or has more than 16,384 bytes."));
    }
    out
}
