//! Images and tables of the questions about chains.

use make::certificate::{Certificate, Parameters, SIGNER};
use make::crl::{self, entry, Crl};
use make::extension::{known, Extension};
use make::image::Image;
use make::questions::Question;
use make::random::Random;
use make::world::{Plan, World, ANCHOR, CRL, LINK, MOMENT};
use make::{name, table, time};

use crate::items;

pub const DAY: u64 = 20240301;

type Maker = fn(&mut Random, Plan, bool) -> World;

/// An image of so many places whose items are all good, with four CRLs of so many entries that list none of the items.
pub fn realistic(maker: Maker, places: usize, entries: usize) -> (Image, World) {
    let (anchors, crls, signers) = (4, 4, places / 6);
    let plan = Plan { anchors, links: places - anchors - crls - signers, signers, crls, wrong: 0, lists: false };
    let world = maker(&mut Random::new(1), plan, false);
    let listing =
        Crl::new(&crl::Parameters { issuer: name::name(*b"UT", "CSCA"), ..crl::Parameters::typical(entries) }).encode();
    let mut image = Image::new(DAY as u32);
    for place in 0..world.entries() {
        let found = plain::entry(&world.image, place as u64);
        let item = &world.image[found.offset as usize..(found.offset + found.length) as usize];
        let item = if found.kind == CRL as u64 { &listing[..] } else { item };
        image.add(found.kind as u8, found.flags as u8, item.to_vec());
    }
    (image, world)
}

/// A question for the first signer that has a chain, or one for every signer: the table is dense, sparse, or that of a line.
pub fn chain(shape: &str, places: usize, entries: usize, every: bool) -> Option<Vec<Question>> {
    let maker: Maker = if shape == "line" { World::line } else { World::alike };
    let (image, world) = realistic(maker, places, entries);
    let table = match shape {
        "dense" => vec![1; places * places],
        "sparse" => {
            let mut random = Random::new(2);
            let mut table = table::scattered(&mut random, places, 4);
            table::sign_crls(&mut random, &world, &mut table, 100);
            table
        }
        "line" => world.truth.clone(),
        _ => return None,
    };
    let image = image.encode();
    let mut targets: Vec<u64> = world.places(SIGNER as u8).into_iter().map(|place| place as u64).collect();
    if !every {
        let has_chain = |&target: &u64| plain::chain(&image, &table, MOMENT, target).number == 0;
        let one = targets.iter().copied().find(has_chain).or(targets.first().copied());
        targets = one.into_iter().collect();
    }
    let question = |target| Question::Chain { image: image.clone(), table: table.clone(), moment: MOMENT, target };
    Some(targets.into_iter().map(question).collect())
}

/// The question for every signer of that image in one call.
pub fn in_one_call(questions: Vec<Question>) -> Option<Vec<Question>> {
    let Some(Question::Chain { image, table, moment, .. }) = questions.into_iter().next() else {
        return None;
    };
    let room = 97 * plain::image(&image).entries as usize;
    Some(vec![Question::Signers { image, table, moment, room }])
}

/// An image in the making, with the key that signs each item and the one that the item has.
struct Signed {
    image: Image,
    keys: Vec<(Vec<u8>, Vec<u8>)>,
    /// When certificates added now end.
    end: u64,
}

/// The usual end of certificates, and one that is past.
const END: u64 = 20301231235959;
const PAST: u64 = 20231231235959;

impl Signed {
    fn new() -> Signed {
        Signed { image: Image::new(DAY as u32), keys: Vec::new(), end: END }
    }

    /// Adds a certificate with one name as issuer and subject.
    fn certificate(&mut self, kind: u8, issuer: &[u8], by: &[u8], own: &[u8]) {
        let made = Certificate::new(&Parameters {
            role: kind as u64,
            issuer: issuer.to_vec(),
            subject: issuer.to_vec(),
            serial: vec![0x11, self.keys.len() as u8],
            end: self.end,
            subject_key_id: Some(own.to_vec()),
            authority_key_id: Some(by.to_vec()),
            ..Parameters::typical(kind as u64)
        });
        self.image.add(kind, (kind == ANCHOR) as u8, made.encode());
        self.keys.push((by.to_vec(), own.to_vec()));
    }

    /// Adds a CRL.
    fn crl(&mut self, by: &[u8], item: Vec<u8>) {
        self.image.add(CRL, 0, item);
        self.keys.push((by.to_vec(), Vec::new()));
    }

    /// The verdicts of true signatures or, `dense`, 1 for all pairs.
    fn table(&self, dense: bool) -> Vec<u8> {
        let signs = |own: &[u8], by: &[u8]| (dense || !own.is_empty() && own == by) as u8;
        let pairs = |(_, own): &(Vec<u8>, Vec<u8>)| self.keys.iter().map(|(by, _)| signs(own, by)).collect::<Vec<u8>>();
        self.keys.iter().flat_map(pairs).collect()
    }

    /// The question for a place.
    fn asked(self, target: usize, dense: bool) -> Vec<Question> {
        let (image, table) = (self.image.encode(), self.table(dense));
        vec![Question::Chain { image, table, moment: MOMENT, target: target as u64 }]
    }
}

/// A CRL of so many entries with reason codes.
fn listing(issuer: &[u8], entries: usize) -> Vec<u8> {
    let mut made = Crl::new(&crl::Parameters { issuer: issuer.to_vec(), ..crl::Parameters::typical(0) });
    let reason = Extension::new(&known(21), false, &[10, 1, 1]);
    let serials = crl::Parameters::typical(entries).serials;
    made.entries = serials.iter().map(|serial| entry(serial, &time::time(20230704101112), &[reason.clone()])).collect();
    made.encode()
}

/// The usual image: 4 countries, each with an anchor, 3 links in a line, 18 signers and 2 CRLs of so many entries with reasons. Asked for
/// a signer of the anchor, one of the last link, and one of a key that is not there.
pub fn usual(found: &str, entries: usize) -> Option<Vec<Question>> {
    let of = match found {
        "two" => 0,
        "five" => 1,
        "none" => 2,
        _ => return None,
    };
    Some(usual_items(entries, false).asked(24 + 4 + of, false))
}

/// The question that makes room in the usual image, in which, `some`, every third signer has ended.
pub fn room(some: bool) -> Question {
    let made = usual_items(40, some);
    let (image, table) = (made.image.encode(), made.table(false));
    let (room, table_room) = (image.len(), table.len());
    Question::Room { image, table, moment: MOMENT, room, table_room }
}

fn usual_items(entries: usize, ended: bool) -> Signed {
    let mut made = Signed::new();
    for country in 0..4 {
        let issuer = name::name([b'U', b'T' + country], "CSCA");
        let key = |number: u8| vec![country + 1, number, 3, 4, 5, 6, 7, 8];
        made.certificate(ANCHOR, &issuer, &key(0), &key(0));
        for link in 0..3 {
            made.certificate(LINK, &issuer, &key(link), &key(link + 1));
        }
        for signer in 0..18 {
            made.end = if ended && signer % 3 == 2 { PAST } else { END };
            made.certificate(SIGNER as u8, &issuer, &key([0, 3, 9][signer % 3]), &key(20));
        }
        made.end = END;
        for _ in 0..2 {
            made.crl(&key(0), listing(&issuer, entries));
        }
    }
    made
}

/// The anchors of one country of the usual image in version 2, in full and by the index, and that image read.
pub fn anchors(how: &str) -> Option<Vec<Question>> {
    let Some(Question::Chain { image, .. }) = usual("two", 40)?.pop() else { return None };
    let mut lettered = vec![0; image.len() + 4 * 96];
    let length = plain::move_to_2(&image, &mut lettered).length as usize;
    lettered.truncate(length);
    let [first, second] = b"UU".map(u64::from);
    Some(vec![match how {
        "read" => Question::Image(lettered),
        "full" => Question::Anchors(lettered, first, second),
        "index" => Question::AnchorsByIndex(lettered, first, second),
        _ => return None,
    }])
}

/// A chain of two places, beside 64 CRLs of other countries.
pub fn strangers() -> Vec<Question> {
    let mut made = Signed::new();
    let issuer = name::name(*b"UT", "CSCA");
    made.certificate(ANCHOR, &issuer, &[1; 20], &[1; 20]);
    made.certificate(SIGNER as u8, &issuer, &[1; 20], &[2; 20]);
    made.crl(&[1; 20], listing(&issuer, 40));
    for number in 0..64 {
        let other = name::name([b'A' + number / 26, b'A' + number % 26], "CSCA");
        made.crl(&[3; 20], listing(&other, 40));
    }
    made.asked(1, false)
}

/// 96 places with one long name and one key but for the signer's, all verdicts 1: no step leads to the signer.
pub fn long_names() -> Vec<Question> {
    let mut made = Signed::new();
    let issuer = name::name(*b"UT", &"long name ".repeat(100));
    made.certificate(ANCHOR, &issuer, &[1; 20], &[1; 20]);
    for _ in 0..93 {
        made.certificate(LINK, &issuer, &[1; 20], &[1; 20]);
    }
    made.certificate(SIGNER as u8, &issuer, &[2; 20], &[3; 20]);
    made.crl(&[1; 20], listing(&issuer, 1));
    made.asked(94, true)
}

/// A chain of two places beside 23 CRLs of the same country, each with one entry of 1,353 extensions.
pub fn extended() -> Vec<Question> {
    let mut made = Signed::new();
    let issuer = name::name(*b"UT", "CSCA");
    made.certificate(ANCHOR, &issuer, &[1; 20], &[1; 20]);
    made.certificate(SIGNER as u8, &issuer, &[1; 20], &[2; 20]);
    for _ in 0..23 {
        made.crl(&[1; 20], items::crl_with_one_entry());
    }
    made.asked(1, false)
}
