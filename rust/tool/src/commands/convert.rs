//! `vrbolist convert`: a trust image in the other version.

use super::image::of_version;
use super::pack::{told, IMAGE_MOST, TOO_LONG};
use super::Command;
use crate::answer::Answer;
use crate::args::{self, Given, Takes};
use crate::files;
use crate::json::object;
use crate::stop::Stop;
use std::path::Path;
use vrbolist::Refusal;

pub const COMMAND: Command = Command {
    name: "convert",
    help: "\
vrbolist convert IMAGE OUT --to 1|2 [--force] [--json]

Writes a trust image of version 1 in version 2, or the other way round: the same items, flags and
day. To version 2 each item gets the letters of its issuer's country, none where it does not pass;
to version 1 the letters are left out. There and back gives the same file. OUT is written whole or
not at all, and is not written over without --force.

Example:
  vrbolist pack one.image --day 20261115 --anchor tests/data/made/ut-anchor-1.der --force
  vrbolist convert one.image two.image --to 2 --force
",
    takes: Takes { alone: &["IMAGE", "OUT"], options: &["--to"], switches: &["--force"] },
    run,
};

fn run(given: &Given) -> Result<Answer, Stop> {
    let to = args::number(given.wanted("--to", "1|2")?, "version")?;
    let bytes = files::read(given.word(0))?;
    let out = given.word(1);
    let base = object! {
        "command": "convert", "file": files::shown(given.word(0)), "out": files::shown(out), "version": to,
    };
    match moved(&bytes, to)? {
        Ok(image) => {
            files::write(Path::new(out), &image, given.has("--force"))?;
            Ok(told(&files::shown(out), base, &image))
        }
        Err(refusal) => {
            let head = format!("{}  not written\n", files::shown(out));
            Ok(Answer::refused(head, base, refusal, &words(refusal, &bytes, to)))
        }
    }
}

fn moved(image: &[u8], to: u64) -> Result<Result<Vec<u8>, Refusal>, Stop> {
    let mut out = vec![0; IMAGE_MOST];
    let written = match to {
        1 => vrbolist::move_to_1(image, &mut out),
        2 => vrbolist::move_to_2(image, &mut out),
        _ => return Err(Stop::usage(format!("--to {to} is no version: 1 or 2 is wanted"))),
    };
    Ok(written.map(<[u8]>::to_vec))
}

fn words(refusal: Refusal, bytes: &[u8], to: u64) -> Vec<String> {
    match (refusal.number, vrbolist::image(bytes)) {
        (3, _) => vec![TOO_LONG.to_string()],
        (5, Ok(image)) => vec![format!("The image is of version {} already.", image.version)],
        _ => of_version(refusal, bytes, 3 - to),
    }
}
