//! Questions of all kinds, one after the other, from a seed.

use crate::certificate::{Certificate, ROLES};
use crate::certificate_breaks;
use crate::change::change;
use crate::columns::Columns;
use crate::crl::Crl;
use crate::crl_breaks;
use crate::der::{self, integer};
use crate::image::{self, Image, BAD_DAYS};
use crate::proposal;
use crate::random::Random;
use crate::table;
use crate::time::{second_after, second_before, BAD_MOMENTS};
use crate::tray;
use crate::tree;
use crate::world::{World, MOMENT, SIGNER};
use crate::Break;

/// One question to the library.
#[derive(Clone, Debug, PartialEq, Eq)]
pub enum Question {
    Walk(Vec<u8>),
    Integer(Vec<u8>),
    /// An item and a role.
    Certificate(Vec<u8>, u64),
    Crl(Vec<u8>),
    /// Two days.
    Days(u64, u64),
    /// A CRL and a day.
    Age(Vec<u8>, u64),
    Image(Vec<u8>),
    /// An image and the wanted day.
    ImageForDay(Vec<u8>, u64),
    /// An image and a place.
    Entry(Vec<u8>, u64),
    /// The writer's arguments; `room` is the length of the lent output.
    Write {
        items: Vec<u8>,
        kinds: Vec<u8>,
        flags: Vec<u8>,
        lengths: Vec<u32>,
        letters: Vec<u8>,
        version: u64,
        day: u64,
        room: usize,
    },
    /// An image to be moved to a version, with the length of the lent output.
    MoveTo2(Vec<u8>, usize),
    MoveTo1(Vec<u8>, usize),
    /// An image in which room is made, with the lengths of both lent outputs.
    Room {
        image: Vec<u8>,
        table: Vec<u8>,
        moment: u64,
        room: usize,
        table_room: usize,
    },
    /// An image whose letters are checked.
    Letters(Vec<u8>),
    /// An image and the letters of a country; answered in full, or by the index.
    Anchors(Vec<u8>, u64, u64),
    AnchorsByIndex(Vec<u8>, u64, u64),
    Chain {
        image: Vec<u8>,
        table: Vec<u8>,
        moment: u64,
        target: u64,
    },
    Proposal {
        image: Vec<u8>,
        table: Vec<u8>,
        moment: u64,
        target: u64,
        places: Vec<u8>,
    },
    /// `room` is the length of the lent output.
    Signers {
        image: Vec<u8>,
        table: Vec<u8>,
        moment: u64,
        room: usize,
    },
    /// A tray log; `room` is how many numbers the lent list has.
    Replay {
        log: Vec<u8>,
        room: usize,
    },
}

/// How many items and images are kept for later questions.
const KEPT: usize = 64;
const WORLDS: usize = 8;

/// Draws questions. The same seed gives the same questions.
pub struct Source {
    random: Random,
    /// Made certificates with their roles.
    certificates: Vec<(u64, Vec<u8>)>,
    crls: Vec<Vec<u8>>,
    worlds: Vec<World>,
    certificate_ways: [Vec<&'static Break<Certificate>>; 3],
    crl_ways: Vec<&'static Break<Crl>>,
}

impl Source {
    pub fn new(seed: u64) -> Source {
        let mut random = Random::new(seed);
        let mut certificates: Vec<_> = ROLES.iter().map(|&role| (role, Certificate::typical(role).encode())).collect();
        for place in 0..9 {
            let role = ROLES[place % 3];
            certificates.push((role, Certificate::varied(&mut random, role).encode()));
        }
        let crls = vec![Crl::typical(0).encode(), Crl::typical(30).encode(), Crl::varied(&mut random).encode()];
        Source {
            random,
            certificates,
            crls,
            worlds: Vec::new(),
            certificate_ways: ROLES.map(certificate_breaks::ways),
            crl_ways: crl_breaks::ways(),
        }
    }

    /// The next question.
    #[allow(clippy::should_implement_trait)]
    pub fn next(&mut self) -> Question {
        match self.random.below(111) {
            0..=19 => Question::Walk(self.item()),
            20..=25 => Question::Integer(self.integer()),
            26..=49 => self.certificate(),
            50..=62 => Question::Crl(self.crl()),
            63..=66 => Question::Days(self.day(), self.day()),
            67..=70 => Question::Age(self.crl(), self.day()),
            71..=74 => Question::Image(self.image()),
            75..=77 => self.image_for_day(),
            78..=80 => self.entry(),
            81..=83 => self.write(),
            84..=86 => self.replay(),
            87 => self.signers(),
            88 => self.move_to_2(),
            89..=90 => self.move_to_1(),
            91..=92 => self.room(),
            93..=94 => Question::Letters(self.image_of(2)),
            95..=98 => self.proposal(),
            108..=109 => self.anchors(),
            110 => self.anchors_by_index(),
            _ => self.chain(),
        }
    }

    /// Bytes for the walk.
    pub fn item(&mut self) -> Vec<u8> {
        let random = &mut self.random;
        match random.below(40) {
            0 => tree::many(random),
            1 => tree::big(random),
            2..=5 => tree::deep(random),
            6..=8 => tree::alike(random),
            9..=20 => tree::small(random),
            21..=24 => {
                let length = random.below(12);
                random.octets(length)
            }
            25..=28 => {
                let mut item = tree::small(random);
                change(&mut item, random);
                item
            }
            29 => {
                let mut item = tree::many(random);
                change(&mut item, random);
                item
            }
            30..=35 => self.certificate_item().1,
            _ => self.crl(),
        }
    }

    /// Bytes for the INTEGER question.
    pub fn integer(&mut self) -> Vec<u8> {
        let random = &mut self.random;
        let mut item = match random.below(8) {
            0 => tree::leaf(random),
            1 => tree::small(random),
            2 => {
                let length = random.between(0, 11);
                integer(&random.octets(length))
            }
            _ => {
                let shift = random.below(64);
                integer(&der::integer_contents(random.bits() as i64 >> shift))
            }
        };
        if random.percent(10) {
            change(&mut item, random);
        }
        item
    }

    /// A certificate question: mostly of the certificate's own role.
    fn certificate(&mut self) -> Question {
        let (role, item) = self.certificate_item();
        let role = match self.random.below(20) {
            0 => *self.random.pick(&[0, 4, 5, 255, 257, 1 << 32 | 1, u64::MAX]),
            1 | 2 => *self.random.pick(&ROLES),
            _ => role,
        };
        Question::Certificate(item, role)
    }

    /// A certificate, good or not, and its role.
    pub fn certificate_item(&mut self) -> (u64, Vec<u8>) {
        let random = &mut self.random;
        let kept = random.below(self.certificates.len());
        match random.below(20) {
            0..=5 => self.good_certificate(),
            6..=11 => self.broken_certificate(1),
            12 | 13 => self.broken_certificate(2),
            14..=18 => {
                let (role, mut item) = self.certificates[kept].clone();
                change(&mut item, random);
                (role, item)
            }
            _ => (self.certificates[kept].0, self.crl()),
        }
    }

    /// A new certificate that keeps every rule; it is also kept for later.
    fn good_certificate(&mut self) -> (u64, Vec<u8>) {
        let role = *self.random.pick(&ROLES);
        let item = Certificate::varied(&mut self.random, role).encode();
        let kept = (role, item.clone());
        if self.certificates.len() < KEPT {
            self.certificates.push(kept);
        } else {
            let place = self.random.below(KEPT);
            self.certificates[place] = kept;
        }
        (role, item)
    }

    /// A certificate with this many ways of breaking a rule.
    fn broken_certificate(&mut self, number: usize) -> (u64, Vec<u8>) {
        let random = &mut self.random;
        let role = *random.pick(&ROLES);
        let mut made = if random.percent(50) { Certificate::typical(role) } else { Certificate::varied(random, role) };
        for _ in 0..number {
            let way = random.pick(&self.certificate_ways[role as usize - 1]);
            (way.apply)(&mut made, random);
        }
        (role, made.encode())
    }

    /// A CRL, good or not.
    pub fn crl(&mut self) -> Vec<u8> {
        let random = &mut self.random;
        let kept = random.below(self.crls.len());
        match random.below(20) {
            0..=6 => {
                let item = Crl::varied(random).encode();
                if self.crls.len() < KEPT {
                    self.crls.push(item.clone());
                } else {
                    self.crls[kept] = item.clone();
                }
                item
            }
            7..=13 => {
                let mut made = if random.percent(50) { Crl::typical(3) } else { Crl::varied(random) };
                for _ in 0..random.between(1, 2) {
                    (random.pick(&self.crl_ways).apply)(&mut made, random);
                }
                made.encode()
            }
            14..=18 => {
                let mut item = self.crls[kept].clone();
                change(&mut item, random);
                item
            }
            _ => random.pick(&self.certificates).1.clone(),
        }
    }

    /// A day, mostly real.
    pub fn day(&mut self) -> u64 {
        if self.random.percent(90) {
            image::day(&mut self.random) as u64
        } else {
            *self.random.pick(BAD_DAYS)
        }
    }

    /// An image, good or not.
    pub fn image(&mut self) -> Vec<u8> {
        let random = &mut self.random;
        let mut octets = Image::varied(random).encode();
        match random.below(10) {
            0..=4 => {
                let most = if random.percent(2) { 2 } else { 1 };
                for _ in 0..most {
                    damage(&mut octets, random);
                }
            }
            5 => change(&mut octets, random),
            6 if random.percent(30) => image::confuse(&mut octets),
            _ => {}
        }
        octets
    }

    /// An image of real items, mostly of this version, with letters that are true or not; or any image.
    fn image_of(&mut self, version: u64) -> Vec<u8> {
        if self.random.percent(30) {
            return self.image();
        }
        let place = self.world();
        let random = &mut self.random;
        let version = if random.percent(5) { 3 - version } else { version };
        let mut image = match version {
            1 => self.worlds[place].image.clone(),
            _ => self.worlds[place].lettered.clone(),
        };
        match random.below(12) {
            0..=2 => image::mislead(&mut image, random),
            3 => damage(&mut image, random),
            4 => change(&mut image, random),
            5 => image::confuse(&mut image),
            6 => image::rename(&mut image, random),
            _ => {}
        }
        image
    }

    fn move_to_2(&mut self) -> Question {
        let random = &mut self.random;
        let image = if random.percent(3) {
            let bytes = 262_144 + random.between(0, 2) - 1;
            Image::long(random, bytes).encode()
        } else {
            self.image_of(1)
        };
        let room = room(&mut self.random, &image, 4);
        Question::MoveTo2(image, room)
    }

    fn move_to_1(&mut self) -> Question {
        let image = self.image_of(2);
        let room = room(&mut self.random, &image, -4);
        Question::MoveTo1(image, room)
    }

    /// Room in an image, mostly at a moment at which some item ends; now and then with an item of another kind, which then fails
    /// its profile, and with too little room in one output or both.
    fn room(&mut self) -> Question {
        let (world, mut image, table, moment, _) = self.asked();
        let random = &mut self.random;
        let end = *random.pick(&self.worlds[world].moments);
        let moment = match random.below(8) {
            0 | 1 => end,
            2 => second_after(end),
            3 => second_before(end),
            4 => 20991231235959,
            _ => moment,
        };
        if random.percent(20) {
            image::rename(&mut image, random);
        }
        let (room, table_room) = (around(random, image.len().max(12)), around(random, table.len().max(1)));
        Question::Room { image, table, moment, room, table_room }
    }

    fn anchors(&mut self) -> Question {
        let version = if self.random.percent(30) { 1 } else { 2 };
        let image = self.image_of(version);
        let (first, second) = letters(&mut self.random, &image);
        Question::Anchors(image, first, second)
    }

    fn anchors_by_index(&mut self) -> Question {
        let image = self.image_of(2);
        let (first, second) = letters(&mut self.random, &image);
        Question::AnchorsByIndex(image, first, second)
    }

    fn image_for_day(&mut self) -> Question {
        let image = self.image();
        let wanted = match image.len().checked_sub(4) {
            Some(at) if self.random.percent(60) => u32::from_be_bytes(image[at..].try_into().unwrap()) as u64,
            _ => self.day(),
        };
        Question::ImageForDay(image, wanted)
    }

    fn entry(&mut self) -> Question {
        let image = self.image();
        let place = match self.random.below(10) {
            0 => *self.random.pick(&[95, 96, 97, 255, 256, 1 << 32, u64::MAX]),
            _ => self.random.below(13) as u64,
        };
        Question::Entry(image, place)
    }

    fn write(&mut self) -> Question {
        let random = &mut self.random;
        let made = if random.percent(3) { around_the_limit(random) } else { Image::varied(random) };
        let mut columns = Columns::of(&made);
        columns.spoil(random);
        let room = around(random, columns.needed());
        let Columns { items, kinds, flags, lengths, letters, version, day } = columns;
        Question::Write { items, kinds, flags, lengths, letters, version, day, room }
    }

    fn replay(&mut self) -> Question {
        let random = &mut self.random;
        let log = tray::varied(random);
        let records = log.len() / tray::RECORD;
        let room = match random.below(8) {
            0 => 0,
            1..=4 => random.below(records / 3 + 2),
            5 => records,
            _ => records + random.below(4),
        };
        Question::Replay { log, room }
    }

    fn chain(&mut self) -> Question {
        let (_, image, table, moment, target) = self.asked();
        Question::Chain { image, table, moment, target }
    }

    fn proposal(&mut self) -> Question {
        let (world, image, table, moment, target) = self.asked();
        let places = proposal::varied(&mut self.random, &self.worlds[world], &table, target);
        Question::Proposal { image, table, moment, target, places }
    }

    /// A question for every signer, now and then with too little room.
    fn signers(&mut self) -> Question {
        let (_, image, table, moment, _) = self.asked();
        let random = &mut self.random;
        let needed = 97 * (table.len() as f64).sqrt() as usize;
        let room = match random.below(8) {
            0 => needed.saturating_sub(1),
            1 => random.below(needed + 1),
            2 | 3 => needed + random.below(120),
            _ => needed,
        };
        Question::Signers { image, table, moment, room }
    }

    /// The number of a world that is kept.
    fn world(&mut self) -> usize {
        let random = &mut self.random;
        if self.worlds.len() < WORLDS {
            self.worlds.push(World::varied(random));
        } else if random.percent(5) {
            let place = random.below(WORLDS);
            self.worlds[place] = World::varied(random);
        }
        random.below(self.worlds.len())
    }

    /// A world by its number, and what is asked of it: image, table, moment and target.
    fn asked(&mut self) -> (usize, Vec<u8>, Vec<u8>, u64, u64) {
        let number = self.world();
        let random = &mut self.random;
        let world = &self.worlds[number];
        let mut image = if random.percent(50) { world.image.clone() } else { world.lettered.clone() };
        // What the letters say is nothing to a chain.
        if random.percent(20) {
            image::mislead(&mut image, random);
        }
        if random.percent(2) {
            (random.pick(&image::BREAKS[2..]).apply)(&mut image, random);
        }
        let table = table::varied(random, world);
        let moment = moment(random, world);
        let target = target(random, world);
        (number, image, table, moment, target)
    }
}

/// Letters of a country, mostly one that worlds have, now and then those of an entry, or numbers that are no letters.
fn letters(random: &mut Random, image: &[u8]) -> (u64, u64) {
    let [mut first, mut second] = [b'U', b'T' + random.below(3) as u8].map(u64::from);
    if random.percent(20) {
        [first, second] = image::letters_in(image, random).map(u64::from);
    }
    let wrong = [0, 64, 91, 97, 117, 255, 256, 256 + 85, 1 << 32 | 85, u64::MAX];
    match random.below(24) {
        0 => first = *random.pick(&wrong),
        1 => second = *random.pick(&wrong),
        2 => (first, second) = (second, first),
        3 => (first, second) = (65 + random.below(26) as u64, 65 + random.below(26) as u64),
        _ => {}
    }
    (first, second)
}

/// Breaks a rule. The way that makes the image too long is rare, since it is large.
fn damage(image: &mut Vec<u8>, random: &mut Random) {
    let ways = if image::width(image) == 12 && random.percent(10) { image::BREAKS_OF_2 } else { image::BREAKS };
    let way = random.pick(ways);
    if way.what != "too long" || random.percent(5) {
        (way.apply)(image, random);
    }
}

/// An image of either version with about 262,144 bytes.
fn around_the_limit(random: &mut Random) -> Image {
    let (bytes, version) = (262_144 + random.between(0, 2) - 1, random.between(1, 2));
    let more = if version == 1 { 4 * 16 } else { 0 };
    Image::long(random, bytes + more).of_version(version as u16)
}

/// A length of the lent output: short of what is needed, just so, or longer.
fn around(random: &mut Random, needed: usize) -> usize {
    match random.below(8) {
        0 => needed - 1,
        1 => random.below(needed + 1),
        2 | 3 => needed + random.below(20),
        _ => needed,
    }
}

/// A length of the lent output for a move that makes each entry so much longer.
fn room(random: &mut Random, image: &[u8], more: isize) -> usize {
    let at = image.len().saturating_sub(8);
    let entries = image.get(at..at + 2).map_or(0, |octets| u16::from_be_bytes([octets[0], octets[1]]).min(96) as isize);
    around(random, image.len().saturating_add_signed(more * entries).max(12))
}

/// A moment: the usual one, an end of some item's times or beside it, or none.
fn moment(random: &mut Random, world: &World) -> u64 {
    let end = *random.pick(&world.moments);
    match random.below(20) {
        0..=14 => MOMENT,
        15 | 16 => end,
        17 => second_after(end),
        18 => second_before(end),
        _ if random.percent(20) => *random.pick(&[20991231235959, 19500101000000]),
        _ => *random.pick(&BAD_MOMENTS),
    }
}

/// A target: mostly a signer's place.
fn target(random: &mut Random, world: &World) -> u64 {
    let n = world.entries();
    let signers = world.places(SIGNER);
    match random.below(20) {
        0 => *random.pick(&[n as u64, n as u64 + 1, 96, 255, 256, 1 << 32, u64::MAX]),
        1 if n > 0 => random.below(n) as u64,
        _ if signers.is_empty() => 0,
        _ => *random.pick(&signers) as u64,
    }
}
