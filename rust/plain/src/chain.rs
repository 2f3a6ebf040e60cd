//! The shortest good chain from a usable anchor to a document signer; of those
//! equally short the first by place number, read from the anchor.

use crate::calendar::moment_real;
use crate::certificate::{self, Role};
use crate::crl;
use crate::image::{self, Open, ANCHOR, CRL, LINK, PLACES, SIGNER};
use crate::refusal::Refusal;

/// The answer to the chain question.
#[derive(Clone, Copy, Debug, PartialEq, Eq)]
pub struct Chain {
    pub number: u64,
    pub detail: u64,
    /// How many places the chain has.
    pub length: u64,
    /// From the anchor to the target; unused slots hold 255.
    pub places: [u8; 96],
}

/// Finds a chain in an image. The table has n x n verdicts, row the signer,
/// column the signed.
pub fn chain(image: &[u8], table: &[u8], moment: u64, target: u64) -> Chain {
    let mut answer = Chain { number: 0, detail: 0, length: 0, places: [255; 96] };
    let found = question(image, table, moment, target).and_then(|mut question| {
        let anchor = question.search(target as usize).ok_or(Refusal::CHAIN)?;
        Ok((question, anchor))
    });
    match found {
        Ok((question, anchor)) => {
            let mut place = anchor;
            loop {
                answer.places[answer.length as usize] = place as u8;
                answer.length += 1;
                if place == target as usize {
                    return answer;
                }
                place = question.next[place] as usize;
            }
        }
        Err(Refusal { number, detail }) => Chain { number, detail, ..answer },
    }
}

/// The answer to a proposal: number and detail alone.
#[derive(Clone, Copy, Debug, PartialEq, Eq)]
pub struct Told {
    pub number: u64,
    pub detail: u64,
}

/// Judges a proposed chain: any good chain to the target is accepted. Its own
/// range (1) comes after the rest of the question, then 7.
pub fn proposal(image: &[u8], table: &[u8], moment: u64, target: u64, places: &[u8]) -> Told {
    let weighed =
        question(image, table, moment, target).and_then(|mut question| question.weigh(target as usize, places));
    let Refusal { number, detail } = weighed.err().unwrap_or(Refusal { number: 0, detail: 0 });
    Told { number, detail }
}

/// Question order: image (5), then table, moment and target (all 1).
fn question<'a>(image: &'a [u8], table: &'a [u8], moment: u64, target: u64) -> Result<Question<'a>, Refusal> {
    let open = asked(image, table, moment)?;
    if target >= open.entries as u64 || open.line(target as usize).kind != SIGNER {
        return Err(Refusal::ARGUMENT);
    }
    Ok(Question::new(open, table, moment))
}

/// The same without a target.
pub(crate) fn asked<'a>(image: &'a [u8], table: &[u8], moment: u64) -> Result<Open<'a>, Refusal> {
    let open = image::read(image)?;
    let n = open.entries;
    // One OR over all bytes: over 1 exactly when some byte is.
    if table.len() != n * n || table.iter().fold(0, |all, byte| all | byte) > 1 || !moment_real(moment) {
        return Err(Refusal::ARGUMENT);
    }
    Ok(open)
}

/// A set of places.
pub(crate) type Places = u128;

/// The places of a set, smallest first.
pub(crate) fn each(mut places: Places) -> impl Iterator<Item = usize> {
    std::iter::from_fn(move || {
        if places == 0 {
            return None;
        }
        let place = places.trailing_zeros() as usize;
        places &= places - 1;
        Some(place)
    })
}

/// What is known of the item at a place.
#[derive(Clone, Copy, PartialEq, Eq)]
enum Known {
    Nothing,
    /// It can play no part.
    Out,
    /// A CRL whose country was found, no more.
    Peeked,
    /// It passes and the moment is within its times.
    Passes,
    /// A CRL that counts too; a link or DS that is usable too.
    Good,
}

/// What later steps want of an item that passes.
#[derive(Clone, Copy, Default)]
struct Facts<'a> {
    issuer: &'a [u8],
    subject: &'a [u8],
    /// A certificate's serial; a CRL's list of entries.
    serial_or_list: &'a [u8],
    subject_key_id: &'a [u8],
    authority_key_id: &'a [u8],
    country: [u8; 2],
}

pub(crate) struct Question<'a> {
    pub open: Open<'a>,
    pub table: &'a [u8],
    moment: u64,
    /// The enabled anchors, the links and the CRLs.
    pub anchors: Places,
    pub links: Places,
    crls: Places,
    known: [Known; PLACES],
    facts: Vec<Facts<'a>>,
    /// The step that a place takes towards the target.
    next: [u8; PLACES],
}

impl<'a> Question<'a> {
    pub fn new(open: Open<'a>, table: &'a [u8], moment: u64) -> Question<'a> {
        let (mut anchors, mut links, mut crls) = (0, 0, 0);
        for place in 0..open.entries {
            let line = open.line(place);
            match line.kind {
                ANCHOR if line.flags == 1 => anchors |= 1 << place,
                LINK => links |= 1 << place,
                CRL => crls |= 1 << place,
                _ => {}
            }
        }
        Question {
            open,
            table,
            moment,
            anchors,
            links,
            crls,
            known: [Known::Nothing; PLACES],
            facts: vec![Facts::default(); open.entries],
            next: [255; PLACES],
        }
    }

    #[inline(always)]
    fn verdict(&self, signer: usize, signed: usize) -> bool {
        self.table[signer * self.open.entries + signed] == 1
    }

    /// Goes back from the target, layer by layer of equal distance, up to the
    /// first layer that a usable anchor reaches. Gives the smallest such anchor.
    /// Each place found gets the smallest step towards the target.
    fn search(&mut self, target: usize) -> Option<usize> {
        if !self.usable(target, Role::Signer) {
            return None;
        }
        let mut layer: Places = 1 << target;
        let mut left: Vec<usize> = each(self.links).collect();
        while layer != 0 {
            for anchor in each(self.anchors) {
                if each(layer).any(|signed| self.step(anchor, Role::Anchor, signed)) {
                    return Some(anchor);
                }
            }
            let mut following = 0;
            for signed in each(layer) {
                left.retain(|&link| {
                    let found = self.step(link, Role::Link, signed);
                    following |= (found as Places) << link;
                    !found
                });
            }
            layer = following;
        }
        None
    }

    fn weigh(&mut self, target: usize, places: &[u8]) -> Result<(), Refusal> {
        let there = places.iter().all(|&place| usize::from(place) < self.open.entries);
        if !there || !(2..=PLACES).contains(&places.len()) {
            return Err(Refusal::ARGUMENT);
        }
        match self.proposed(target, places) {
            true => Ok(()),
            false => Err(Refusal::CHAIN),
        }
    }

    /// Whether these places are an anchor, then links, then the target, all
    /// usable, with a good step from each to the next.
    fn proposed(&mut self, target: usize, places: &[u8]) -> bool {
        let last = places.len() - 1;
        places.iter().map(|&place| usize::from(place)).enumerate().all(|(number, place)| {
            let (role, fits) = match number {
                0 => (Role::Anchor, self.anchors >> place & 1 == 1),
                _ if number == last => (Role::Signer, place == target),
                _ => (Role::Link, self.links >> place & 1 == 1),
            };
            let before = number.checked_sub(1).map(|before| usize::from(places[before]));
            let signed = before.map_or(true, |before| self.verdict(before, place));
            fits && signed && self.usable(place, role) && before.map_or(true, |before| self.matches(before, place))
        })
    }

    /// Whether a good step leads from this anchor or link, and it is usable; the
    /// step is then kept.
    #[inline(always)]
    fn step(&mut self, signer: usize, role: Role, signed: usize) -> bool {
        self.verdict(signer, signed) && self.good_step(signer, role, signed)
    }

    fn good_step(&mut self, signer: usize, role: Role, signed: usize) -> bool {
        let good = self.passes(signer, role) && self.matches(signer, signed) && self.usable(signer, role);
        if good {
            self.next[signer] = signed as u8;
        }
        good
    }

    /// Whether key identifiers and names of a step are equal; identifiers first,
    /// since names of one country are mostly alike.
    pub fn matches(&self, signer: usize, signed: usize) -> bool {
        let (signer, signed) = (&self.facts[signer], &self.facts[signed]);
        signed.authority_key_id == signer.subject_key_id && signed.issuer == signer.subject
    }

    /// Whether a certificate is usable. CRLs are not asked about anchors.
    pub fn usable(&mut self, place: usize, role: Role) -> bool {
        if !self.passes(place, role) {
            return false;
        }
        if role != Role::Anchor && self.known[place] != Known::Good {
            self.known[place] = if self.covered_unlisted(place) { Known::Good } else { Known::Out };
        }
        self.known[place] != Known::Out
    }

    /// Whether a certificate passes its profile and the moment is within its
    /// times. An item is opened once.
    #[inline(always)]
    pub fn passes(&mut self, place: usize, role: Role) -> bool {
        if self.known[place] == Known::Nothing {
            self.open_certificate(place, role);
        }
        self.known[place] != Known::Out
    }

    fn open_certificate(&mut self, place: usize, role: Role) {
        self.known[place] = Known::Out;
        if let Ok(fields) = certificate::read(self.open.item(place), role) {
            if fields.start <= self.moment && self.moment <= fields.end {
                self.known[place] = Known::Passes;
                self.facts[place] = Facts {
                    issuer: fields.issuer,
                    subject: fields.subject,
                    serial_or_list: fields.serial,
                    subject_key_id: fields.subject_key_id,
                    authority_key_id: fields.authority_key_id,
                    country: fields.country,
                };
            }
        }
    }

    /// Whether a counting CRL covers a certificate and none that does lists it.
    fn covered_unlisted(&mut self, place: usize) -> bool {
        let Facts { country, serial_or_list: serial, .. } = self.facts[place];
        let mut covered = false;
        for crl in each(self.crls) {
            if !self.country_is(crl, country) || !self.counts(crl) {
                continue;
            }
            if crl::lists(self.facts[crl].serial_or_list, serial) {
                return false;
            }
            covered = true;
        }
        covered
    }

    /// Whether a CRL, if it passes, is of this country.
    fn country_is(&mut self, crl: usize, country: [u8; 2]) -> bool {
        if self.known[crl] == Known::Nothing {
            self.known[crl] = Known::Out;
            if let Some(found) = crl::country_place(self.open.item(crl)) {
                self.known[crl] = Known::Peeked;
                self.facts[crl].country = found;
            }
        }
        self.known[crl] != Known::Out && self.facts[crl].country == country
    }

    /// Whether a CRL counts.
    fn counts(&mut self, crl: usize) -> bool {
        if self.known[crl] == Known::Peeked {
            self.known[crl] = if self.open_crl(crl) { Known::Good } else { Known::Out };
        }
        self.known[crl] == Known::Good
    }

    /// Opens a CRL: it passes, the moment is from this update to next update,
    /// and some usable anchor of its country has verdict 1 for it.
    fn open_crl(&mut self, crl: usize) -> bool {
        if !each(self.anchors).any(|anchor| self.verdict(anchor, crl)) {
            return false;
        }
        let Ok(fields) = crl::read(self.open.item(crl)) else {
            return false;
        };
        if self.moment < fields.this_update || fields.next_update < self.moment {
            return false;
        }
        self.facts[crl].serial_or_list = fields.list;
        each(self.anchors).any(|anchor| {
            self.verdict(anchor, crl)
                && self.passes(anchor, Role::Anchor)
                && self.facts[anchor].country == fields.country
        })
    }
}
