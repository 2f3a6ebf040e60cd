//! Images of real items for chain questions.

use crate::certificate::{self, Certificate};
use crate::certificate_breaks;
use crate::crl::{self, Crl};
use crate::crl_breaks;
use crate::image::Image;
use crate::name;
use crate::random::Random;

pub const ANCHOR: u8 = 1;
pub const LINK: u8 = 2;
pub const SIGNER: u8 = 3;
pub const CRL: u8 = 4;

/// Where `name::name` has the letters.
const LETTERS: std::ops::Range<usize> = 13..15;

/// The moment at which most items are within their times.
pub const MOMENT: u64 = 20240301120000;

/// An image and what a maker of questions wants to know of it.
#[derive(Clone, Debug)]
pub struct World {
    pub image: Vec<u8>,
    /// The same image in version 2, with the true letters.
    pub lettered: Vec<u8>,
    pub kinds: Vec<u8>,
    /// The verdicts that true signatures would give.
    pub truth: Vec<u8>,
    /// All items have one name and one key, so that every step fits.
    pub alike: bool,
    /// The first and last moments of all items.
    pub moments: Vec<u64>,
}

/// A name with a key.
#[derive(Clone, Debug, PartialEq)]
struct Authority {
    name: Vec<u8>,
    key: Vec<u8>,
}

/// An item before its place is known.
struct Item {
    kind: u8,
    flags: u8,
    octets: Vec<u8>,
    /// Its rules are kept, whatever its times are.
    sound: bool,
    signer: Authority,
    /// The authority that an anchor or link is.
    own: Option<Authority>,
}

impl Item {
    /// The true letters: its issuer's, or none where it breaks a rule.
    fn letters(&self) -> [u8; 2] {
        let issuer = &self.signer.name[LETTERS];
        match self.sound {
            true => [issuer[0], issuer[1]],
            false => [0, 0],
        }
    }
}

/// How many items of each kind a world has, and how often something is wrong.
#[derive(Clone, Copy, Debug)]
pub struct Plan {
    pub anchors: usize,
    pub links: usize,
    pub signers: usize,
    pub crls: usize,
    /// Percent of items that break a rule or are out of their times.
    pub wrong: usize,
    /// Some CRLs list serials, and some of these are those of items.
    pub lists: bool,
}

impl Plan {
    /// A plan for at most 96 items.
    pub fn varied(random: &mut Random) -> Plan {
        let items = match random.below(6) {
            0 => random.between(1, 5),
            1 => 96,
            2 => random.between(30, 95),
            _ => random.between(5, 30),
        };
        let (wrong, lists) = (*random.pick(&[0, 0, 5, 20]), random.percent(60));
        let mut left = items;
        let mut take = |most: usize| {
            let number = random.between(1, most).min(left);
            left -= number;
            number
        };
        let signers = take(3.max(items / 8));
        let crls = take(3.max(items / 10));
        let anchors = take(3.max(items / 8));
        Plan { anchors, links: left, signers, crls, wrong, lists }
    }

    pub fn items(&self) -> usize {
        self.anchors + self.links + self.signers + self.crls
    }
}

impl World {
    /// A world of random size and order.
    pub fn varied(random: &mut Random) -> World {
        let plan = Plan::varied(random);
        match random.below(4) {
            0 => World::alike(random, plan, true),
            1 => World::line(random, plan, true),
            2 => World::renamed(random, plan, true),
            _ => World::mixed(random, plan, true),
        }
    }

    /// All items of one name and one key: the table alone decides.
    pub fn alike(random: &mut Random, plan: Plan, shuffled: bool) -> World {
        let one = [authority(0, 0, 0)];
        Maker::new(random, plan, &one).world(shuffled, |_, _| (0, 0))
    }

    /// An anchor, then links in a line, each with its own key; the signers and
    /// CRLs at the end of the line.
    pub fn line(random: &mut Random, plan: Plan, shuffled: bool) -> World {
        let authorities: Vec<_> = (0..=plan.links).map(|key| authority(0, 0, key)).collect();
        let last = plan.links;
        Maker::new(random, plan, &authorities).world(shuffled, |kind, number| match kind {
            LINK => (number, number + 1),
            SIGNER => (last, last),
            _ => (0, 0),
        })
    }

    /// Several countries, names and keys, mixed as it comes.
    pub fn mixed(random: &mut Random, plan: Plan, shuffled: bool) -> World {
        let (countries, names, keys) = (random.between(1, 2), random.between(1, 3), random.between(1, 3));
        let mut authorities = Vec::new();
        for country in 0..countries {
            for name in 0..names {
                for key in 0..keys {
                    authorities.push(authority(country, name, key));
                }
            }
        }
        random.shuffle(&mut authorities);
        let all = authorities.len();
        let mut choice = random.clone();
        Maker::new(random, plan, &authorities).world(shuffled, |kind, number| match kind {
            // Anchors and CRLs of as many authorities as may be.
            ANCHOR | CRL => (number % all, number % all),
            _ => (choice.below(all), choice.below(all)),
        })
    }

    /// States whose CSCA was renamed, with letters that differ in one: certificates
    /// of all names, CRLs under the last name alone.
    pub fn renamed(random: &mut Random, plan: Plan, shuffled: bool) -> World {
        let (countries, names) = (random.between(1, 2), random.between(2, 3));
        let authorities: Vec<_> =
            (0..countries).flat_map(|country| (0..names).map(move |name| authority(country, name, 0))).collect();
        let all = authorities.len();
        let mut choice = random.clone();
        Maker::new(random, plan, &authorities).world(shuffled, |kind, number| match kind {
            // The last names have anchors first.
            ANCHOR => (all - 1 - number % all, all - 1 - number % all),
            CRL => (all - 1 - number % countries * names, all - 1 - number % countries * names),
            _ => (choice.below(all), choice.below(all)),
        })
    }

    pub fn entries(&self) -> usize {
        self.kinds.len()
    }

    /// The places of a kind.
    pub fn places(&self, kind: u8) -> Vec<usize> {
        (0..self.entries()).filter(|&place| self.kinds[place] == kind).collect()
    }
}

fn authority(country: usize, name: usize, key: usize) -> Authority {
    let letters = [b'U', b'T' + country as u8];
    Authority {
        name: name::name(letters, ["CSCA", "CSCA-2", "National CSCA"][name % 3]),
        key: vec![(country * 128 + name * 32) as u8, key as u8, 3, 4, 5, 6, 7, 8],
    }
}

struct Maker<'a> {
    random: &'a mut Random,
    plan: Plan,
    authorities: &'a [Authority],
    /// The serials of the certificates made.
    serials: Vec<Vec<u8>>,
}

impl<'a> Maker<'a> {
    fn new(random: &'a mut Random, plan: Plan, authorities: &'a [Authority]) -> Maker<'a> {
        Maker { random, plan, authorities, serials: Vec::new() }
    }

    /// Makes all items; `choose` gives for a kind and number the authority that
    /// signs and the one that the item is.
    fn world(&mut self, shuffled: bool, mut choose: impl FnMut(u8, usize) -> (usize, usize)) -> World {
        let mut items = Vec::with_capacity(96);
        let mut moments = vec![MOMENT];
        let plan = self.plan;
        for (kind, number) in [(ANCHOR, plan.anchors), (LINK, plan.links), (SIGNER, plan.signers), (CRL, plan.crls)] {
            for number in 0..number {
                let (signer, own) = choose(kind, number);
                let item = self.item(kind, signer, own, &mut moments);
                items.push(item);
            }
        }
        if shuffled {
            self.random.shuffle(&mut items);
        }
        pack(items, moments, self.authorities.len() == 1)
    }

    fn item(&mut self, kind: u8, signer: usize, own: usize, moments: &mut Vec<u64>) -> Item {
        let signer = self.authorities[if kind == ANCHOR { own } else { signer }].clone();
        let own = self.authorities[own].clone();
        let wrong = self.random.percent(self.plan.wrong);
        let (first, last) = self.times(wrong);
        moments.extend([first, last]);
        let (octets, sound) = if kind == CRL {
            self.crl(&signer, first, last, wrong)
        } else {
            self.certificate(kind, &signer, &own, (first, last), wrong)
        };
        let enabled = !wrong || self.random.percent(50);
        let is_authority = kind == ANCHOR || kind == LINK;
        Item { kind, flags: (kind == ANCHOR && enabled) as u8, octets, sound, signer, own: is_authority.then_some(own) }
    }

    /// Times around the moment; some touch it, some of the wrong ones miss it.
    fn times(&mut self, wrong: bool) -> (u64, u64) {
        let first = *self.random.pick(&[20200101000000, 20230630120000, 20240101000000, MOMENT]);
        let last = *self.random.pick(&[20241231235959, 20300101000000, 20491231235959, 20500101000000, MOMENT]);
        match (wrong, self.random.below(4)) {
            (true, 0) => (first, MOMENT - 4_041),
            (true, 1) => (MOMENT + 1, last.max(MOMENT + 1)),
            _ => (first, last),
        }
    }

    fn serial(&mut self) -> Vec<u8> {
        let number = self.random.below(400);
        let mut serial = vec![0x11 + (number % 2) as u8, number as u8, 0x22];
        serial.truncate(2 + number % 3 / 2);
        serial
    }

    /// A serial that a CRL lists, now and then one of an item.
    fn listed(&mut self) -> Vec<u8> {
        if !self.serials.is_empty() && self.random.percent(10) {
            return self.random.pick(&self.serials).clone();
        }
        self.serial()
    }

    /// A certificate, and whether it keeps its rules.
    fn certificate(
        &mut self,
        kind: u8,
        signer: &Authority,
        own: &Authority,
        times: (u64, u64),
        wrong: bool,
    ) -> (Vec<u8>, bool) {
        let serial = self.serial();
        self.serials.push(serial.clone());
        let mut made = Certificate::new(&certificate::Parameters {
            role: kind as u64,
            issuer: signer.name.clone(),
            subject: own.name.clone(),
            serial,
            start: times.0.min(times.1),
            end: times.1,
            subject_key_id: (kind != SIGNER).then(|| own.key.clone()),
            authority_key_id: Some(signer.key.clone()),
        });
        // One country in both names: the subject's letters are the signer's.
        made.subject[LETTERS].copy_from_slice(&signer.name[LETTERS]);
        let broken = wrong && self.random.percent(40);
        if broken {
            let ways = certificate_breaks::ways(kind as u64);
            (self.random.pick(&ways).apply)(&mut made, self.random);
        }
        (made.encode(), !broken)
    }

    /// A CRL, and whether it keeps its rules.
    fn crl(&mut self, signer: &Authority, first: u64, last: u64, wrong: bool) -> (Vec<u8>, bool) {
        let entries = if self.plan.lists { *self.random.pick(&[0, 0, 3, 20]) } else { 0 };
        let mut made = Crl::new(&crl::Parameters {
            issuer: signer.name.clone(),
            this_update: first.min(last),
            next_update: last,
            serials: (0..entries).map(|_| self.listed()).collect(),
            authority_key_id: signer.key.clone(),
        });
        let broken = wrong && self.random.percent(40);
        if broken {
            let ways = crl_breaks::ways();
            (self.random.pick(&ways).apply)(&mut made, self.random);
        }
        (made.encode(), !broken)
    }
}

/// Puts the items into an image, as many as fit.
fn pack(items: Vec<Item>, moments: Vec<u64>, alike: bool) -> World {
    let mut image = Image::new(20240301);
    let mut bytes = 12;
    let mut taken = Vec::with_capacity(items.len());
    for item in items {
        bytes += item.octets.len() + 12;
        if bytes > 262_144 || taken.len() == 96 {
            break;
        }
        image.add_of(item.kind, item.flags, item.letters(), item.octets.clone());
        taken.push(item);
    }
    let mut truth = Vec::with_capacity(taken.len() * taken.len());
    for row in &taken {
        for column in &taken {
            let signs = row.own.as_ref().is_some_and(|own| *own == column.signer);
            truth.push((signs && (column.kind != ANCHOR || row.kind == ANCHOR)) as u8);
        }
    }
    let lettered = image.of_version(2).encode();
    World { image: image.encode(), lettered, kinds: image.kinds, truth, alike, moments }
}
