//! Why there is no good chain: each condition of the rules looked at by itself. These are words beside the library's
//! answer, never the answer.

use crate::explain;
use crate::places::{Place, Told};
use crate::text::{hex, letters, moment};
use crate::tree::{members, root};

/// The items of an image, the table and the moment, and for each place what keeps it from being used.
pub struct World<'a> {
    pub places: Vec<Place<'a>>,
    pub unusable: Vec<Vec<Reason>>,
    table: &'a [u8],
    moment: u64,
}

/// A condition that fails: a short name for programs, and words.
#[derive(Clone)]
pub struct Reason {
    pub code: &'static str,
    pub text: String,
}

/// The first thing of a proposed chain that fails: its place number from 0, or where `before` is there the step to it.
pub struct Failure {
    pub number: usize,
    pub place: usize,
    pub before: Option<usize>,
    pub reasons: Vec<Reason>,
}

/// An anchor or a link that could have led to another place.
pub struct Source {
    pub from: usize,
    pub to: usize,
    pub own: Vec<Reason>,
    pub step: Vec<Reason>,
}

fn reason(code: &'static str, text: impl Into<String>) -> Reason {
    Reason { code, text: text.into() }
}

impl<'a> World<'a> {
    pub fn new(places: Vec<Place<'a>>, table: &'a [u8], moment: u64) -> World<'a> {
        let mut world = World { places, unusable: Vec::new(), table, moment };
        let uncounted: Vec<Vec<Reason>> = (0..world.places.len()).map(|place| world.uncounted(place)).collect();
        world.unusable = world.places.iter().map(|place| world.faults(place, &uncounted)).collect();
        world
    }

    fn verdict(&self, from: usize, to: usize) -> bool {
        let at = from.checked_mul(self.places.len()).and_then(|row| row.checked_add(to));
        at.and_then(|at| self.table.get(at)) == Some(&1)
    }

    /// What keeps a place from being used, apart from the steps to it.
    fn faults(&self, place: &Place<'a>, uncounted: &[Vec<Reason>]) -> Vec<Reason> {
        let mut out = self.own_faults(place);
        if matches!(place.entry.kind, 2 | 3) {
            out.extend(self.revocation(place, uncounted));
        }
        out
    }

    /// The faults that have nothing to do with CRLs.
    fn own_faults(&self, place: &Place<'a>) -> Vec<Reason> {
        let mut out = self.profile_and_times(place);
        if !place.enabled() {
            out.push(reason("disabled", "the anchor is not enabled"));
        }
        out
    }

    fn profile_and_times(&self, place: &Place<'a>) -> Vec<Reason> {
        let (start, end) = match &place.told {
            Told::Refused(refusal) => {
                return vec![reason("profile", format!("does not pass its profile: {}", explain::short(*refusal)))]
            }
            Told::Certificate(told) => (told.start, told.end),
            Told::Crl(told) => (told.this_update, told.next_update),
        };
        if self.moment < start {
            vec![reason("early", format!("not yet valid: starts {} UTC", moment(start)))]
        } else if end < self.moment {
            vec![reason("expired", format!("expired: ended {} UTC", moment(end)))]
        } else {
            Vec::new()
        }
    }

    /// No counting CRL of its country covers it, or one that does lists it.
    fn revocation(&self, place: &Place<'a>, uncounted: &[Vec<Reason>]) -> Vec<Reason> {
        let Some(told) = place.certificate() else { return Vec::new() };
        let of_country: Vec<usize> = (0..self.places.len()).filter(|crl| self.crl_of(*crl, told.country)).collect();
        let counts = |crl: &usize| uncounted.get(*crl).is_some_and(Vec::is_empty);
        let counting: Vec<usize> = of_country.iter().copied().filter(counts).collect();
        if counting.is_empty() {
            let why = why_uncovered(&of_country, uncounted);
            return vec![reason("uncovered", format!("no CRL of {} covers it: {why}", letters(told.country)))];
        }
        let listing = counting.into_iter().filter(|crl| self.lists(*crl, told.serial));
        listing
            .map(|crl| reason("listed", format!("its serial {} is listed by the CRL at place {crl}", hex(told.serial))))
            .collect()
    }

    fn crl_of(&self, place: usize, country: [u8; 2]) -> bool {
        self.places.get(place).and_then(Place::crl).is_some_and(|crl| crl.country == country)
    }

    /// Why a CRL does not count.
    fn uncounted(&self, crl: usize) -> Vec<Reason> {
        let Some(found) = self.places.get(crl) else { return Vec::new() };
        let mut out = self.profile_and_times(found);
        let Some(told) = found.crl() else { return out };
        let signs = |anchor: usize| self.usable_anchor_of(anchor, told.country) && self.verdict(anchor, crl);
        if !(0..self.places.len()).any(signs) {
            out.push(reason("unsigned", format!("no usable anchor of {} has verdict 1 for it", letters(told.country))));
        }
        out
    }

    fn usable_anchor_of(&self, place: usize, country: [u8; 2]) -> bool {
        let Some(found) = self.places.get(place) else { return false };
        let of_country = found.certificate().is_some_and(|told| told.country == country);
        found.entry.kind == 1 && of_country && self.own_faults(found).is_empty()
    }

    fn lists(&self, crl: usize, serial: &[u8]) -> bool {
        self.places.get(crl).is_some_and(|place| serials(place.entry.item).contains(&serial))
    }

    /// Why a step is not good; `None` where the two have nothing to do with each other.
    fn step(&self, from: usize, to: usize) -> Option<Vec<Reason>> {
        let certificates =
            self.places.get(from)?.certificate().is_some() && self.places.get(to)?.certificate().is_some();
        let out = self.step_faults(from, to);
        let related = if certificates { out.len() < 3 } else { out.is_empty() };
        related.then_some(out)
    }

    /// Verdict, names and keys of a step; names and keys only where both certificates pass.
    fn step_faults(&self, from: usize, to: usize) -> Vec<Reason> {
        let mut out = Vec::new();
        if !self.verdict(from, to) {
            out.push(reason("verdict", format!("verdict 0: the table says that {from} did not sign {to}")));
        }
        let certificate = |place: usize| self.places.get(place).and_then(Place::certificate);
        let (Some(upper), Some(lower)) = (certificate(from), certificate(to)) else { return out };
        if upper.subject != lower.issuer {
            out.push(reason("names", format!("names differ: the issuer of {to} is not the subject of {from}")));
        }
        if upper.subject_key_id.is_none() || upper.subject_key_id != lower.authority_key_id {
            let shown = |id: Option<&[u8]>| id.map_or("none".to_string(), |id| hex(id.get(..4).unwrap_or(id)) + "..");
            let keys = format!("{} wanted, {} found", shown(lower.authority_key_id), shown(upper.subject_key_id));
            out.push(reason("keys", format!("keys differ: {keys}")));
        }
        out
    }

    /// The first place of a proposed chain, or step to one, that fails.
    pub fn first_failure(&self, chain: &[usize], target: usize) -> Option<Failure> {
        let mut before = None;
        for (number, &place) in chain.iter().enumerate() {
            let mut reasons = self.misplaced(number, chain.len(), place, target);
            reasons.extend(self.unusable.get(place).into_iter().flatten().cloned());
            if !reasons.is_empty() {
                return Some(Failure { number, place, before: None, reasons });
            }
            let reasons = before.map_or(Vec::new(), |before| self.step_faults(before, place));
            if !reasons.is_empty() {
                return Some(Failure { number, place, before, reasons });
            }
            before = Some(place);
        }
        None
    }

    /// A chain is an anchor, then links, then the signer asked for.
    fn misplaced(&self, number: usize, length: usize, place: usize, target: usize) -> Vec<Reason> {
        let kind = self.places.get(place).map(|place| place.entry.kind);
        let fault = match number {
            0 if kind != Some(1) => "a chain starts at an anchor",
            0 => return Vec::new(),
            _ if number + 1 == length && place != target => "a chain ends at the signer asked for",
            _ if number + 1 < length && kind != Some(2) => "between anchor and signer a chain has links alone",
            _ => return Vec::new(),
        };
        vec![reason("kind", fault)]
    }

    /// What could have led to a signer, from the signer upwards through usable links and good steps.
    pub fn sources(&self, signer: usize) -> Vec<Source> {
        let mut out: Vec<Source> = Vec::new();
        let mut waiting = vec![signer];
        let mut next = 0;
        while let Some(to) = waiting.get(next).copied() {
            next += 1;
            for from in (0..self.places.len()).filter(|from| *from != to) {
                let kind = self.places.get(from).map(|place| place.entry.kind);
                let Some(step) = self.step(from, to).filter(|_| matches!(kind, Some(1 | 2))) else { continue };
                let own = self.unusable.get(from).cloned().unwrap_or_default();
                if kind == Some(2) && own.is_empty() && step.is_empty() && !waiting.contains(&from) {
                    waiting.push(from);
                }
                out.push(Source { from, to, own, step });
            }
        }
        out
    }
}

fn why_uncovered(of_country: &[usize], uncounted: &[Vec<Reason>]) -> String {
    if of_country.is_empty() {
        return "none that passes its profile has its issuer's country".to_string();
    }
    let one = |crl: &usize| {
        let faults = uncounted.get(*crl).map(Vec::as_slice).unwrap_or_default();
        let texts: Vec<&str> = faults.iter().map(|fault| fault.text.as_str()).collect();
        format!("the one at place {crl} does not count ({})", texts.join("; "))
    };
    of_country.iter().map(one).collect::<Vec<_>>().join(", ")
}

/// The serials of a CRL that passed: the entries are the sixth field of its signed part, where they are there.
fn serials(crl: &[u8]) -> Vec<&[u8]> {
    let tbs = root(crl).and_then(|top| members(crl, &top).first().copied());
    let fields = tbs.map(|tbs| members(crl, &tbs)).unwrap_or_default();
    let entries = fields.get(5).filter(|field| field.tag == 0x30).map(|field| members(crl, field)).unwrap_or_default();
    entries.iter().filter_map(|entry| members(crl, entry).first().map(|serial| serial.contents(crl))).collect()
}

#[cfg(test)]
mod tests;
