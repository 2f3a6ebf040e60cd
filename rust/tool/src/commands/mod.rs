//! The commands, and how one is chosen.

pub mod age;
pub mod anchors;
pub mod chain;
pub mod convert;
pub mod days;
pub mod demo;
pub mod image;
pub mod item;
pub mod pack;
pub mod propose;
pub mod tray;
pub mod trim;
pub mod unpack;
pub mod walk;

use crate::answer::{complain, print, Answer};
use crate::args::{self, Given, Takes};
use crate::stop::Stop;
use crate::text::printable;
use std::ffi::OsString;

pub struct Command {
    pub name: &'static str,
    pub help: &'static str,
    pub takes: Takes,
    pub run: fn(&Given) -> Result<Answer, Stop>,
}

const COMMANDS: [&Command; 14] = [
    &item::COMMAND,
    &walk::COMMAND,
    &image::COMMAND,
    &pack::COMMAND,
    &unpack::COMMAND,
    &convert::COMMAND,
    &trim::COMMAND,
    &anchors::COMMAND,
    &chain::COMMAND,
    &propose::COMMAND,
    &days::COMMAND,
    &age::COMMAND,
    &tray::COMMAND,
    &demo::COMMAND,
];

const HELP: &str = "\
vrbolist: judges passport-signing certificates, CRLs, trust images and chains

  vrbolist item FILE --as anchor|link|signer|crl   one item against its profile
  vrbolist walk FILE                               the tree of a DER item
  vrbolist image FILE [--day YYYYMMDD]             a trust image and its items, for a day
  vrbolist pack OUT --day YYYYMMDD --anchor F ..   writes a trust image
  vrbolist unpack IMAGE DIR                        its items as files
  vrbolist convert IMAGE OUT --to 1|2              the same image in the other version
  vrbolist trim IMAGE OUT --at MOMENT --table T --table-out U
                                                   the image without what is past
  vrbolist anchors IMAGE --country UT              its enabled anchors of a country
  vrbolist chain IMAGE --table T --at MOMENT --signer PLACE|all
                                                   the chain to a signer, or why there is none
  vrbolist propose IMAGE --table T --at MOMENT --signer PLACE --chain PLACE,PLACE,..
                                                   whether a proposed chain is a good one
  vrbolist days A B                                days from one day to another
  vrbolist age CRL DAY                             how old a CRL is on a day
  vrbolist tray LOG [--append ..]                  replays a tray log, or adds to it
  vrbolist demo                                    a first look, with the items of the repository

Items are DER or PEM; of a PEM file the first block is taken. FILE - is standard input. Every
command takes --json and --help. Exit status: 0 passed, 1 to 9 the number of the refusal, 64 wrong
usage, 65 a log with a faulty record or letters that are not true, 66 no such input, 70 two
searches that differ, 73 cannot write.

Example:
  vrbolist item tests/data/made/ut-signer-1.der --as signer
";

/// Runs the command that the words name and gives the exit status.
pub fn run(words: &[OsString]) -> u8 {
    let first = words.first().map(|word| word.to_string_lossy().into_owned());
    let done = match first.as_deref() {
        None => Err(Stop::usage("no command is given: see vrbolist --help")),
        Some("--help" | "-h") => print(HELP).map(|()| 0),
        Some("help") => help(words.get(1)),
        Some("--version") => print(concat!("vrbolist ", env!("CARGO_PKG_VERSION"), "\n")).map(|()| 0),
        Some(name) => find(name).and_then(|command| one(command, words.get(1..).unwrap_or_default())),
    };
    done.unwrap_or_else(|stop| {
        complain(&format!("vrbolist: {}\n", stop.message));
        stop.status
    })
}

fn find(name: &str) -> Result<&'static Command, Stop> {
    let found = COMMANDS.iter().copied().find(|command| command.name == name);
    found.ok_or_else(|| Stop::usage(format!("there is no command {}: see vrbolist --help", printable(name))))
}

fn help(about: Option<&OsString>) -> Result<u8, Stop> {
    let text = match about {
        Some(name) => find(&name.to_string_lossy())?.help,
        None => HELP,
    };
    print(text).map(|()| 0)
}

fn one(command: &Command, words: &[OsString]) -> Result<u8, Stop> {
    let given = args::read(words, &command.takes).map_err(|stop| pointed(stop, command))?;
    if given.has("--help") {
        return print(command.help).map(|()| 0);
    }
    let counted = args::counted(&given, &command.takes);
    let answer = counted.and_then(|()| (command.run)(&given)).map_err(|stop| pointed(stop, command))?;
    print(&if given.has("--json") { answer.json.written() } else { answer.text })?;
    Ok(answer.status)
}

/// Wrong usage points to the help of the command.
fn pointed(stop: Stop, command: &Command) -> Stop {
    match stop.status {
        crate::stop::USAGE => Stop::usage(format!("{}: see vrbolist {} --help", stop.message, command.name)),
        _ => stop,
    }
}
