//! What more trust can do, and what a longer list can: random pairs of calls
//! that are alike but for such changes obey both statements.

#![forbid(unsafe_code)]

use make::crl::longer;
use make::image::Image;
use make::random::Random;
use make::table;
use make::world::{World, ANCHOR, CRL, LINK, MOMENT, SIGNER};

const WORLDS: usize = 400;
const TABLES: usize = 10;

/// The refusal where no good chain exists.
const NONE: u64 = 7;

#[derive(Clone)]
struct Item {
    kind: u8,
    flags: u8,
    octets: Vec<u8>,
}

/// One call for the best chain.
#[derive(Clone)]
struct Call {
    items: Vec<Item>,
    table: Vec<u8>,
    target: u64,
}

impl Call {
    fn image(&self) -> Vec<u8> {
        let mut made = Image::new(20240301);
        for item in &self.items {
            made.add(item.kind, item.flags, item.octets.clone());
        }
        made.encode()
    }

    /// The length of the chain shown, or the number of the refusal.
    fn ask(&self) -> Result<usize, u64> {
        let told = vrbolist::chain(&self.image(), &self.table, MOMENT, self.target);
        told.map(|places| places.len()).map_err(|refusal| refusal.number)
    }

    fn places(&self, kinds: &[u8]) -> Vec<usize> {
        (0..self.items.len()).filter(|&place| kinds.contains(&self.items[place].kind)).collect()
    }

    fn verdict(&mut self, row: usize, column: usize) -> &mut u8 {
        let n = self.items.len();
        &mut self.table[row * n + column]
    }

    /// It passes, is within its times, and a usable anchor of its country has verdict 1 for it.
    fn counts(&self, crl: usize) -> bool {
        let Ok(list) = vrbolist::crl(&self.items[crl].octets) else { return false };
        let vouches = |&anchor: &usize| {
            let item = &self.items[anchor];
            let told = vrbolist::certificate(&item.octets, ANCHOR as u64);
            let usable =
                |own: vrbolist::Certificate| own.start <= MOMENT && MOMENT <= own.end && own.country == list.country;
            item.flags == 1 && self.table[anchor * self.items.len() + crl] == 1 && told.is_ok_and(usable)
        };
        list.this_update <= MOMENT && MOMENT <= list.next_update && self.places(&[ANCHOR]).iter().any(vouches)
    }
}

/// Good questions over random worlds, each handed on with the random source.
fn calls(seed: u64, mut each: impl FnMut(&mut Random, Call)) {
    let mut random = Random::new(seed);
    for _ in 0..WORLDS {
        let world = World::varied(&mut random);
        let items: Vec<_> = (0..world.entries()).map(|place| item(&world.image, place)).collect();
        let signers = world.places(SIGNER);
        for _ in 0..TABLES {
            let table = table::varied(&mut random, &world);
            let good = table.len() == items.len() * items.len() && table.iter().all(|&verdict| verdict < 2);
            if good && !signers.is_empty() {
                let target = *random.pick(&signers) as u64;
                each(&mut random, Call { items: items.clone(), table, target });
            }
        }
    }
}

fn item(image: &[u8], place: usize) -> Item {
    let told = vrbolist::entry(image, place as u64).expect("the image is good");
    Item { kind: told.kind as u8, flags: told.flags as u8, octets: told.item.to_vec() }
}

/// Two calls: in the second, verdicts for links or signers are 1, and an anchor that vouches for no CRL is enabled.
fn more_trust(random: &mut Random, call: Call) -> (Call, Call) {
    let mut before = call;
    let anchors = before.places(&[ANCHOR]);
    let enabled = (!anchors.is_empty() && random.percent(60)).then(|| *random.pick(&anchors));
    if let Some(anchor) = enabled {
        before.items[anchor].flags = 0;
        for crl in before.places(&[CRL]) {
            *before.verdict(anchor, crl) = 0;
        }
    }
    let mut after = before.clone();
    if let Some(anchor) = enabled {
        after.items[anchor].flags = 1;
    }
    let signed = after.places(&[LINK, SIGNER]);
    for _ in 0..random.below(8) {
        let (row, column) = (random.below(after.items.len()), *random.pick(&signed));
        *after.verdict(row, column) = 1;
    }
    (before, after)
}

#[test]
fn more_trust_keeps_a_chain() {
    let (mut pairs, mut same, mut shorter, mut new) = (0, 0, 0, 0);
    calls(11, |random, call| {
        let (before, after) = more_trust(random, call);
        pairs += 1;
        match (before.ask(), after.ask()) {
            (Ok(first), Ok(second)) if second == first => same += 1,
            (Ok(first), Ok(second)) if second < first => shorter += 1,
            (Err(NONE), Ok(_)) => new += 1,
            (Err(NONE), Err(NONE)) => {}
            other => panic!("pair {pairs}: {other:?}"),
        }
    });
    println!("{pairs} pairs: {same} as long, {shorter} shorter, {new} new");
    assert!(pairs > 2_500 && same > 400 && shorter > 30 && new > 20);
}

/// Serials of items, or others.
fn serials(random: &mut Random, call: &Call) -> Vec<Vec<u8>> {
    let number = random.between(1, 4);
    let mut serial = || {
        let item = random.pick(&call.items);
        match vrbolist::certificate(&item.octets, item.kind as u64) {
            Ok(told) if random.percent(60) => told.serial.to_vec(),
            _ => vec![0x31, random.octet()],
        }
    };
    (0..number).map(|_| serial()).collect()
}

/// The same call with more serials in a CRL that counts.
fn longer_list(random: &mut Random, before: &Call) -> Option<Call> {
    let counting: Vec<_> = before.places(&[CRL]).into_iter().filter(|&crl| before.counts(crl)).collect();
    if counting.is_empty() {
        return None;
    }
    let crl = *random.pick(&counting);
    let mut after = before.clone();
    after.items[crl].octets = longer(&before.items[crl].octets, &serials(random, before));
    assert!(after.counts(crl), "the longer list counts");
    Some(after)
}

#[test]
fn longer_list_keeps_a_refusal() {
    let (mut pairs, mut refused, mut lost, mut kept) = (0, 0, 0, 0);
    calls(12, |random, before| {
        let Some(after) = longer_list(random, &before) else { return };
        pairs += 1;
        match (before.ask(), after.ask()) {
            (Err(NONE), Err(NONE)) => refused += 1,
            (Ok(_), Err(NONE)) => lost += 1,
            (Ok(_), Ok(_)) => kept += 1,
            other => panic!("pair {pairs}: {other:?}"),
        }
    });
    println!("{pairs} pairs: {refused} refused, {lost} lost, {kept} kept");
    assert!(pairs > 2_000 && refused > 400 && lost > 40 && kept > 400);
}

/// Two calls: in the second a CRL may count that did not, by an anchor's verdict or by an anchor that is enabled.
fn one_list_more(random: &mut Random, call: Call, enabled: bool) -> Option<(Call, Call)> {
    let (anchors, crls) = (call.places(&[ANCHOR]), call.places(&[CRL]));
    if anchors.is_empty() || crls.is_empty() {
        return None;
    }
    let (anchor, crl) = (*random.pick(&anchors), *random.pick(&crls));
    vrbolist::crl(&call.items[crl].octets).ok()?;
    let mut before = call;
    before.items[crl].octets = longer(&before.items[crl].octets, &serials(random, &before));
    for &other in &anchors {
        *before.verdict(other, crl) = (enabled && other == anchor) as u8;
    }
    if enabled {
        before.items[anchor].flags = 0;
    }
    let mut after = before.clone();
    after.items[anchor].flags |= enabled as u8;
    *after.verdict(anchor, crl) = 1;
    Some((before, after))
}

/// The conditions stand for a reason: a verdict for a CRL can lose a chain, and so can an anchor that vouches for one.
#[test]
fn one_list_more_can_lose_a_chain() {
    for enabled in [false, true] {
        let mut lost = 0;
        calls(13, |random, call| {
            let Some((before, after)) = one_list_more(random, call, enabled) else { return };
            lost += matches!((before.ask(), after.ask()), (Ok(_), Err(NONE))) as usize;
        });
        println!("{lost} lost, by an anchor enabled: {enabled}");
        assert!(lost > 10);
    }
}
