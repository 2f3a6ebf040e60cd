//! Items and images made to cost, by a few numbers each, and those that a search found dearest.

use make::certificate::{Certificate, Parameters};
use make::crl::{self, Crl};
use make::extension::{self, Extension};
use make::image::Image;
use make::questions::Question;
use make::random::Random;
use make::world::{ANCHOR, CRL, LINK, MOMENT, SIGNER};
use make::{der, name, time};

use crate::images::DAY;

/// An item of any kind: how many of what it has.
#[derive(Clone, Debug)]
pub struct Shape {
    pub kind: u8,
    /// Extensions without a slot, the octets of their OIDs, and where in the OID they differ: 0 first, 1 in the middle, 2 last.
    pub strangers: usize,
    pub oid: usize,
    pub differ: usize,
    /// The octets of each value.
    pub value: usize,
    /// Attributes more in each name, and the octets of each.
    pub attributes: usize,
    pub attribute: usize,
    /// Entries of a CRL, the octets of their serials, the extensions of each, and whether their time is late.
    pub entries: usize,
    pub serial: usize,
    pub extended: usize,
    pub late: usize,
}

impl Shape {
    pub fn any(random: &mut Random) -> Shape {
        let mut made = Shape { kind: random.between(1, 4) as u8, ..NOTHING };
        for _ in 0..6 {
            made.change(random);
        }
        made
    }

    /// Changes one number.
    pub fn change(&mut self, random: &mut Random) {
        let kind = random.between(1, 4) as u8;
        let (number, least, most) = match random.below(11) {
            0 => return self.kind = kind,
            1 => (&mut self.strangers, 0, 1400),
            2 => (&mut self.oid, 2, 130),
            3 => (&mut self.differ, 0, 2),
            4 => (&mut self.value, 0, 130),
            5 => (&mut self.attributes, 0, 700),
            6 => (&mut self.attribute, 0, 140),
            7 => (&mut self.entries, 0, 1400),
            8 => (&mut self.serial, 1, 20),
            9 => (&mut self.extended, 0, 1400),
            _ => (&mut self.late, 0, 1),
        };
        let near = [
            number.saturating_sub(1),
            *number + 1,
            *number / 2,
            *number * 2,
            *number * 11 / 10 + 1,
            random.between(least, most),
        ];
        *number = (*random.pick(&near)).clamp(least, most);
    }

    fn oid_of(&self, number: usize) -> Vec<u8> {
        let mut oid = vec![0x2B; self.oid];
        let at = [0, (self.oid - 2) / 2, self.oid - 2][self.differ];
        oid[at] = (number / 120) as u8;
        oid[at + 1] = (number % 120) as u8;
        oid
    }

    fn extensions(&self, number: usize) -> Vec<Extension> {
        (0..number).map(|one| Extension::new(&self.oid_of(one), false, &vec![0; self.value])).collect()
    }

    fn name(&self, letters: [u8; 2]) -> Vec<u8> {
        let one = name::relative(name::COMMON, der::PRINTABLE_STRING, &vec![b'a'; self.attribute]);
        der::sequence(&[&name::country(letters), &one.repeat(self.attributes)])
    }

    pub fn item(&self) -> Vec<u8> {
        self.signed(&[1; 20], &[1; 20])
    }

    /// The item with these keys.
    pub fn signed(&self, by: &[u8], own: &[u8]) -> Vec<u8> {
        let issuer = self.name(*b"UT");
        if self.kind == CRL {
            return self.list(issuer);
        }
        let mut made = Certificate::new(&Parameters {
            issuer: issuer.clone(),
            subject: issuer,
            subject_key_id: Some(own.to_vec()),
            authority_key_id: Some(by.to_vec()),
            ..Parameters::typical(self.kind as u64)
        });
        made.extensions.extend(self.extensions(self.strangers));
        made.encode()
    }

    fn list(&self, issuer: Vec<u8>) -> Vec<u8> {
        let mut made = Crl::new(&crl::Parameters { issuer, ..crl::Parameters::typical(0) });
        let moment = time::time([20231231101112, 20510704101112][self.late]);
        let rest = if self.extended == 0 { Vec::new() } else { extension::list(&self.extensions(self.extended)) };
        for number in 0..self.entries {
            let mut serial = vec![0x11; self.serial];
            serial[0] = (number % 127 + 1) as u8;
            made.entries.push(der::sequence(&[&der::integer(&serial), &moment, &rest]));
        }
        made.extensions.extend(self.extensions(self.strangers));
        made.encode()
    }

    /// The question for the item alone.
    pub fn asked(&self) -> Vec<Question> {
        let item = self.item();
        vec![if self.kind == CRL { Question::Crl(item) } else { Question::Certificate(item, self.kind as u64) }]
    }
}

/// The dearest certificate and CRL found: OIDs that differ only in the two octets that no number of theirs has.
pub const CERTIFICATE: Shape = Shape { kind: LINK, strangers: 660, oid: 18, differ: 1, ..NOTHING };
pub const LIST: Shape = Shape { kind: CRL, strangers: 672, oid: 18, differ: 1, ..NOTHING };

const NOTHING: Shape = Shape {
    kind: CRL,
    strangers: 0,
    oid: 2,
    differ: 0,
    value: 0,
    attributes: 0,
    attribute: 0,
    entries: 0,
    serial: 1,
    extended: 0,
    late: 0,
};

/// The dearest chain found.
pub const CHAIN: Pack = Pack { links: 0, lists: 15, link: NOTHING, list: LIST, leading: 1 };

/// An image of one anchor, one signer, and so many links and CRLs of two shapes, all verdicts 1.
#[derive(Clone, Debug)]
pub struct Pack {
    pub links: usize,
    pub lists: usize,
    pub link: Shape,
    pub list: Shape,
    /// Whether the links lead to the signer.
    pub leading: usize,
}

impl Pack {
    pub fn any(random: &mut Random) -> Pack {
        let (link, list) = (Shape::any(random), Shape::any(random));
        Pack { links: random.below(94), lists: random.between(1, 94), link, list, leading: random.below(2) }
    }

    pub fn change(&mut self, random: &mut Random) {
        match random.below(6) {
            0 => self.links = random.below(95),
            1 => self.lists = random.between(1, 94),
            2 => self.leading = random.below(2),
            3 => self.list.change(random),
            _ => self.link.change(random),
        }
        self.link.kind = LINK;
        self.list.kind = CRL;
    }

    /// The question for the signer; items that no longer fit are left out.
    pub fn asked(&self) -> Vec<Question> {
        let link = Shape { kind: LINK, ..self.link.clone() };
        let list = Shape { kind: CRL, attributes: link.attributes, attribute: link.attribute, ..self.list.clone() };
        let plain = Shape { strangers: 0, ..link.clone() };
        let signer = if self.leading == 1 { [1; 20] } else { [2; 20] };
        let mut image = Image::new(DAY as u32);
        image.add(ANCHOR, 1, Shape { kind: ANCHOR, ..plain.clone() }.signed(&[3; 20], &[3; 20]));
        image.add(SIGNER, 0, Shape { kind: SIGNER, ..plain }.signed(&signer, &[4; 20]));
        let mut room = 262_144 - 12 - 16 - image.items.concat().len();
        let (link, list) = (link.item(), list.item());
        let items = std::iter::repeat_n((CRL, &list), self.lists).chain(std::iter::repeat_n((LINK, &link), self.links));
        for (kind, item) in items.take(94) {
            if item.len() + 8 <= room {
                room -= item.len() + 8;
                image.add(kind, 0, item.clone());
            }
        }
        let places = image.items.len();
        vec![Question::Chain { image: image.encode(), table: vec![1; places * places], moment: MOMENT, target: 1 }]
    }
}
