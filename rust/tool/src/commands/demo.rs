//! `vrbolist demo`: a first look with the items of the repository.

use super::chain::certificate_lines;
use super::pack::Columns;
use super::Command;
use crate::answer::Answer;
use crate::args::{Given, Takes};
use crate::explain;
use crate::json::{object, Json};
use crate::places;
use crate::reasons::World;
use crate::stop::Stop;
use crate::text::{day, wrapped};

pub const COMMAND: Command = Command {
    name: "demo",
    help: "\
vrbolist demo [--json]

Packs two trust images from items inside the program, of yesterday and of today, and asks for the
chain to a signer that was revoked in between. Needs no files.

Example:
  vrbolist demo
",
    takes: Takes { alone: &[], options: &[], switches: &[] },
    run,
};

macro_rules! made {
    ($($name:literal),* $(,)?) => {
        &[$(($name, include_bytes!(concat!("../../../../tests/data/made/", $name)))),*]
    };
}

const ITEMS: &[(&str, &[u8])] = made![
    "ut-anchor-1.der",
    "ut-anchor-2.der",
    "xo-anchor-1.der",
    "ut-link-12.der",
    "ut-link-23.der",
    "ut-signer-1.der",
    "ut-signer-2.der",
    "ut-signer-3.der",
    "ut-signer-4.der",
    "ut-signer-5.der",
    "xo-signer-1.der",
    "ut-crl-yesterday.der",
    "ut-crl-today.der",
    "xo-crl.der",
];
const PLACES: &str = include_str!("../../../../tests/data/made/places.tsv");
const VERDICTS: &str = include_str!("../../../../tests/data/made/verdicts.tsv");
const TODAY: u64 = 20261115;
const NOON: u64 = 20261115120000;
const SIGNER: u64 = 7;

struct Packed {
    image: Vec<u8>,
    table: Vec<u8>,
    day: u64,
    entries: u64,
}

fn rows<'a>(table: &'a str, image: &'a str) -> impl Iterator<Item = Vec<&'a str>> + 'a {
    table.lines().map(|line| line.split('\t').collect::<Vec<_>>()).filter(move |row| row.first() == Some(&image))
}

/// One of the two images of the set, with its table.
fn packed(name: &str) -> Option<Packed> {
    let mut columns = Columns::default();
    let mut day = 0;
    for row in rows(PLACES, name) {
        let [_, of_day, _, kind, flags, file] = row.as_slice() else { return None };
        let item = ITEMS.iter().find(|(known, _)| known == file)?.1;
        columns.add(kind.parse().ok()?, flags.parse().ok()?, item);
        day = of_day.parse().ok()?;
    }
    let digits: String = rows(VERDICTS, name).filter_map(|row| row.get(2).map(|row| row.to_string())).collect();
    let table = digits.bytes().map(|digit| digit.saturating_sub(b'0')).collect();
    Some(Packed { image: columns.written(1, day).ok()?, table, day, entries: columns.kinds.len() as u64 })
}

impl Packed {
    fn world(&self) -> World<'_> {
        World::new(places::all(&self.image, self.entries), &self.table, NOON)
    }

    fn told(&self) -> String {
        format!("{} items in {} bytes, day {}", self.entries, self.image.len(), day(self.day))
    }

    fn chain(&self, signer: u64) -> Result<Vec<u8>, vrbolist::Refusal> {
        vrbolist::chain(&self.image, &self.table, NOON, signer)
    }
}

fn run(_given: &Given) -> Result<Answer, Stop> {
    let (Some(old), Some(new)) = (packed("yesterday"), packed("today")) else {
        return Err(Stop::no_input("the items inside the program do not make an image: build it again"));
    };
    let steps = [before(&old), bench(&old, &new), after(&new), others(&new)];
    let json = object! {
        "command": "demo",
        "passed": true,
        "yesterday": told_json(&old),
        "today": told_json(&new),
    };
    Ok(Answer { status: 0, text: steps.concat(), json })
}

fn told_json(packed: &Packed) -> Json {
    let number = |told: Result<(), vrbolist::Refusal>| told.err().map_or(0, |refusal| refusal.number);
    let chain: Option<Vec<Json>> = packed.chain(SIGNER).ok().map(|chain| chain.into_iter().map(Json::from).collect());
    object! {
        "day": packed.day,
        "size": packed.image.len(),
        "refusal_for_today": number(vrbolist::image_for_day(&packed.image, TODAY).map(|_| ())),
        "signer": SIGNER,
        "refusal_for_signer": number(packed.chain(SIGNER).map(|_| ())),
        "chain": chain,
    }
}

fn chain_text(packed: &Packed, signer: u64) -> String {
    match packed.chain(signer) {
        Ok(chain) => chain.iter().map(|place| certificate_lines(&packed.world(), usize::from(*place))).collect(),
        Err(refusal) => format!("               REFUSED {}: {}\n", refusal.number, explain::name(refusal)),
    }
}

fn before(old: &Packed) -> String {
    format!("1. A reader carries yesterday's trust image: {}.\n", old.told())
        + &format!(
            "   A passport of Document Signer 3 of Utopia, place {SIGNER}, is laid on it. Its chain on {}:\n",
            day(TODAY)
        )
        + &chain_text(old, SIGNER)
        + "   The reader believes the passport. But this morning Utopia has revoked that signer.\n\n"
}

fn bench(old: &Packed, new: &Packed) -> String {
    let said = |packed: &Packed| match vrbolist::image_for_day(&packed.image, TODAY) {
        Ok(_) => "PASSED: the tray may be flashed".to_string(),
        Err(refusal) => format!("REFUSED {}: {}, nothing is flashed", refusal.number, explain::name(refusal)),
    };
    format!("2. At the bench a tray is to be flashed. Wanted is the image of {}.\n", day(TODAY))
        + &format!("   yesterday's image, {}:  {}\n", day(old.day), said(old))
        + &format!("   today's image, {}:      {}\n\n", day(new.day), said(new))
}

fn after(new: &Packed) -> String {
    let world = new.world();
    let faults = world.unusable.get(SIGNER as usize).cloned().unwrap_or_default();
    let why: String = faults.iter().map(|reason| wrapped(&reason.text, 15)).collect();
    format!("3. The same passport on a reader with today's image: {}.\n", new.told())
        + &certificate_lines(&world, SIGNER as usize)
        + &chain_text(new, SIGNER)
        + &why
        + "   The reader no longer believes it.\n\n"
}

fn others(new: &Packed) -> String {
    "4. Another signer of Utopia goes on as before, now straight from the new anchor:\n".to_string()
        + &chain_text(new, 6)
        + "   Try it on files: vrbolist --help\n"
}
