//! Good chains.

use make::certificate::{self, Certificate};
use make::crl::{self, Crl};
use make::image::Image;
use make::name;
use make::time::{second_after, second_before};
use plain::{chain, proposal, Chain, Told};

const MOMENT: u64 = 20240301120000;
const ANCHOR: u8 = 1;
const LINK: u8 = 2;
const SIGNER: u8 = 3;
const CRL: u8 = 4;

/// An image that grows, with a table of verdicts.
#[derive(Clone)]
struct Store {
    image: Image,
    verdicts: Vec<(usize, usize)>,
}

/// What a certificate of the store says.
#[derive(Clone)]
struct Says {
    issuer: Vec<u8>,
    subject: Vec<u8>,
    serial: Vec<u8>,
    times: (u64, u64),
    own_key: u8,
    signer_key: u8,
}

fn says(serial: u8) -> Says {
    Says {
        issuer: name::name(*b"UT", "CSCA"),
        subject: name::name(*b"UT", "CSCA"),
        serial: vec![serial],
        times: (20200101000000, 20300101000000),
        own_key: 1,
        signer_key: 1,
    }
}

fn crl_says(serials: &[u8]) -> crl::Parameters {
    crl::Parameters {
        issuer: name::name(*b"UT", "CSCA"),
        this_update: 20240101000000,
        next_update: 20250101000000,
        serials: serials.iter().map(|&serial| vec![serial]).collect(),
        authority_key_id: vec![1],
    }
}

impl Store {
    fn new() -> Store {
        Store { image: Image::new(20240301), verdicts: Vec::new() }
    }

    fn put(&mut self, kind: u8, says: &Says) -> usize {
        self.image.add(kind, (kind == ANCHOR) as u8, item(kind, says));
        self.image.items.len() - 1
    }

    fn put_crl(&mut self, says: &crl::Parameters) -> usize {
        self.image.add(CRL, 0, Crl::new(says).encode());
        self.image.items.len() - 1
    }

    fn table(&self) -> Vec<u8> {
        let n = self.image.items.len();
        let mut table = vec![0; n * n];
        for (signer, signed) in &self.verdicts {
            table[signer * n + signed] = 1;
        }
        table
    }

    fn ask(&self, moment: u64, target: u64) -> Chain {
        chain(&self.image.encode(), &self.table(), moment, target)
    }

    /// What is told of a proposal: 0, 1 or 7.
    fn propose(&self, target: usize, places: &[u8]) -> u64 {
        let Told { number, detail } = proposal(&self.image.encode(), &self.table(), MOMENT, target as u64, places);
        assert_eq!(detail, 0);
        number
    }

    /// The chain to a target, or nothing with 7.
    fn places(&self, target: usize) -> Vec<u8> {
        places(&self.ask(MOMENT, target as u64))
    }
}

fn item(kind: u8, says: &Says) -> Vec<u8> {
    Certificate::new(&certificate::Parameters {
        role: kind as u64,
        issuer: says.issuer.clone(),
        subject: says.subject.clone(),
        serial: says.serial.clone(),
        start: says.times.0,
        end: says.times.1,
        subject_key_id: (kind != SIGNER).then(|| vec![says.own_key; 4]),
        authority_key_id: Some(vec![says.signer_key; 4]),
    })
    .encode()
}

fn refused(number: u64, detail: u64) -> Chain {
    Chain { number, detail, length: 0, places: [255; 96] }
}

fn places(answer: &Chain) -> Vec<u8> {
    if answer.number != 0 {
        assert_eq!(*answer, refused(7, 0));
        return Vec::new();
    }
    assert_eq!(answer.detail, 0);
    assert!(answer.places[answer.length as usize..].iter().all(|&place| place == 255));
    answer.places[..answer.length as usize].to_vec()
}

/// 0 anchor, 1 and 2 links, 3 DS, 4 a CRL that lists `serials`; verdict 0-4.
fn example(serials: &[u8]) -> Store {
    let mut store = Store::new();
    store.put(ANCHOR, &says(9));
    store.put(LINK, &says(11));
    store.put(LINK, &says(12));
    store.put(SIGNER, &says(13));
    store.put_crl(&crl_says(serials));
    store.verdicts = vec![(0, 4)];
    store
}

#[test]
fn the_example() {
    let mut store = example(&[]);
    store.verdicts.extend([(0, 1), (0, 2), (1, 3), (2, 3)]);
    assert_eq!(store.places(3), [0, 1, 3]);
    store.verdicts.push((0, 3));
    assert_eq!(store.places(3), [0, 3]);
}

#[test]
fn revocation() {
    let way = [(0, 1), (0, 2), (1, 3), (2, 3)];
    for (serials, wanted) in
        [(&[9, 99][..], &[0, 1, 3][..]), (&[11], &[0, 2, 3]), (&[11, 12], &[]), (&[13], &[]), (&[1, 2, 13, 4], &[])]
    {
        let mut store = example(serials);
        store.verdicts.extend(way);
        assert_eq!(store.places(3), wanted);
        // Without the anchor's verdict the CRL does not count, and none covers.
        store.verdicts.remove(0);
        assert_eq!(store.places(3), []);
    }
}

#[test]
fn every_counting_crl_counts() {
    let mut store = example(&[]);
    store.verdicts.push((0, 3));
    // A second one lists the DS, but nothing says that it counts.
    let second = store.put_crl(&crl_says(&[13]));
    assert_eq!(store.places(3), [0, 3]);
    store.verdicts.push((0, second));
    assert_eq!(store.places(3), []);
    // One that is not of the moment does not count.
    let mut old = crl_says(&[13]);
    old.next_update = 20240201000000;
    store.image.items[second] = Crl::new(&old).encode();
    assert_eq!(store.places(3), [0, 3]);
    // A list of the country under another name revokes too.
    let mut other = crl_says(&[13]);
    other.issuer = name::name(*b"UT", "CSCA-2");
    store.image.items[second] = Crl::new(&other).encode();
    assert_eq!(store.places(3), []);
    // Another country's anchor does not make a list count.
    let mut only = example(&[]);
    only.verdicts = vec![(0, 3), (5, 4)];
    let mut foreign = says(1);
    foreign.issuer = name::name(*b"XX", "CSCA");
    foreign.subject = foreign.issuer.clone();
    let place = only.put(ANCHOR, &foreign);
    assert_eq!(only.places(3), []);
    // An anchor of the country, of another name and key, does.
    foreign.issuer = name::name(*b"UT", "CSCA-9");
    foreign.own_key = 77;
    foreign.subject = foreign.issuer.clone();
    only.image.items[place] = item(ANCHOR, &foreign);
    assert_eq!(only.places(3), [0, 3]);
    only.image.flags[place] = 0;
    assert_eq!(only.places(3), []);
}

#[test]
fn a_crl_covers_by_country() {
    // The CSCA was renamed: its list bears the new name, the DS the old one.
    let renamed = |serials: &[u8], letters: [u8; 2], anchor: [u8; 2]| {
        let mut store = Store::new();
        store.put(ANCHOR, &says(9));
        store.put(SIGNER, &says(13));
        let mut list = crl_says(serials);
        list.issuer = name::name(letters, "CSCA-2");
        let list = store.put_crl(&list);
        let mut other = says(1);
        other.issuer = name::name(anchor, "CSCA-2");
        other.subject = other.issuer.clone();
        other.own_key = 2;
        let other = store.put(ANCHOR, &other);
        store.verdicts = vec![(0, 1), (other, list)];
        store
    };
    assert_eq!(renamed(&[14], *b"UT", *b"UT").places(1), [0, 1]);
    assert_eq!(renamed(&[13], *b"UT", *b"UT").places(1), []);
    // A list of another state covers nothing, even where one letter is the same.
    for letters in [*b"UX", *b"XT", *b"TU"] {
        let mut store = renamed(&[13], letters, letters);
        assert_eq!(store.places(1), []);
        // Beside one of the country it revokes nothing.
        let own = store.put_crl(&crl_says(&[14]));
        store.verdicts.push((0, own));
        assert_eq!(store.places(1), [0, 1]);
    }
}

#[test]
fn a_links_verdict_makes_no_crl_count() {
    let mut store = example(&[]);
    store.verdicts = vec![(1, 4), (0, 3), (0, 1)];
    assert_eq!(store.places(3), []);
}

#[test]
fn anchors() {
    let mut store = example(&[]);
    store.verdicts.push((0, 3));
    store.image.flags[0] = 0;
    assert_eq!(store.places(3), []);
    // Of two anchors the smaller; a chain of two before a chain of three.
    let mut store = example(&[]);
    let second = store.put(ANCHOR, &says(9));
    store.verdicts.extend([(0, 1), (1, 3), (second, 3)]);
    assert_eq!(store.places(3), [second as u8, 3]);
    store.verdicts.push((0, 3));
    assert_eq!(store.places(3), [0, 3]);
}

#[test]
fn steps() {
    let mut good = example(&[]);
    good.verdicts.push((0, 3));
    for change in [|says: &mut Says| says.signer_key = 2, |says: &mut Says| says.issuer = name::name(*b"UT", "CSCB")] {
        let mut signer = says(13);
        change(&mut signer);
        let mut store = good.clone();
        store.image.items[3] = item(SIGNER, &signer);
        // The country's CRL covers it, and so does one of the changed name.
        let mut covering = crl_says(&[]);
        covering.issuer = signer.issuer;
        let place = store.put_crl(&covering);
        store.verdicts.push((0, place));
        assert_eq!(store.places(3), []);
    }
    // An item that fails its profile, or is of another role.
    let mut store = good.clone();
    store.image.items[3] = item(LINK, &says(13));
    assert_eq!(store.places(3), []);
    store.image.items[3] = vec![0];
    assert_eq!(store.places(3), []);
    let mut store = good.clone();
    store.image.items[0] = vec![5, 0];
    assert_eq!(store.places(3), []);
}

#[test]
fn exact_seconds() {
    let ends = (20240301120030, 20240301123000);
    for which in [0, 1, 3] {
        let mut store = example(&[]);
        store.verdicts.extend([(0, 1), (1, 3)]);
        let mut changed = says([9, 11, 0, 13][which]);
        changed.times = ends;
        let kind = store.image.kinds[which];
        store.image.items[which] = item(kind, &changed);
        at_ends(&store, ends, 3);
    }
    let mut store = example(&[]);
    store.verdicts.push((0, 3));
    let mut changed = crl_says(&[]);
    (changed.this_update, changed.next_update) = ends;
    store.image.items[4] = Crl::new(&changed).encode();
    at_ends(&store, ends, 2);
}

/// A chain of this length at both ends, none a second outside.
fn at_ends(store: &Store, ends: (u64, u64), length: u64) {
    assert_eq!(store.ask(ends.0, 3).length, length);
    assert_eq!(store.ask(ends.1, 3).length, length);
    assert_eq!(store.ask(second_before(ends.0), 3), refused(7, 0));
    assert_eq!(store.ask(second_after(ends.1), 3), refused(7, 0));
}

/// One anchor, `links` links, one DS, one CRL; all names and keys alike.
fn many_links(links: usize) -> Store {
    let mut store = Store::new();
    store.put(ANCHOR, &says(1));
    for _ in 0..links {
        store.put(LINK, &says(2));
    }
    store.put(SIGNER, &says(3));
    let crl = store.put_crl(&crl_says(&[]));
    store.verdicts.push((0, crl));
    store
}

#[test]
fn ties_are_read_from_the_anchor() {
    // 0 to 5 links: 1 2 before 3 4; DS 7. Both 1-4-7 and 2-3-7 are chains.
    let mut store = many_links(6);
    store.verdicts.extend([(0, 1), (0, 2), (1, 4), (2, 3), (3, 7), (4, 7)]);
    assert_eq!(store.places(7), [0, 1, 4, 7]);
    store.verdicts.push((1, 6));
    store.verdicts.push((6, 7));
    assert_eq!(store.places(7), [0, 1, 4, 7]);
    store.verdicts.push((1, 3));
    assert_eq!(store.places(7), [0, 1, 3, 7]);
}

#[test]
fn loops_and_selves() {
    let mut store = many_links(5);
    store.verdicts.extend([(1, 1), (1, 2), (2, 1), (2, 3), (3, 2), (6, 6), (3, 6), (4, 4), (6, 0), (0, 0)]);
    assert_eq!(store.places(6), []);
    store.verdicts.push((0, 1));
    assert_eq!(store.places(6), [0, 1, 2, 3, 6]);
    // A DS signs nothing.
    let mut store = many_links(1);
    let second = store.put(SIGNER, &says(3));
    store.verdicts.extend([(0, 2), (2, second)]);
    assert_eq!(store.places(second), []);
}

#[test]
fn the_longest() {
    // 93 links and a CRL: a chain of 95 places.
    let mut store = many_links(93);
    store.verdicts.extend((0..94).map(|place| (place, place + 1)));
    let wanted: Vec<u8> = (0..95).collect();
    assert_eq!(store.image.items.len(), 96);
    assert_eq!(store.places(94), wanted);
    // The same line backwards through the places.
    let mut store = many_links(93);
    store.verdicts.push((0, 93));
    store.verdicts.extend((2..94).map(|place| (place, place - 1)));
    store.verdicts.push((1, 94));
    let mut wanted = vec![0];
    wanted.extend((1..=93).rev());
    wanted.push(94);
    assert_eq!(store.places(94), wanted);
}

#[test]
fn order_of_the_question() {
    let mut store = example(&[]);
    store.verdicts.push((0, 3));
    let (image, table) = (store.image.encode(), store.table());
    assert_eq!(chain(&image, &table, MOMENT, 3).length, 2);
    // The image before everything.
    assert_eq!(chain(&image[1..], &[9], 0, 99), refused(5, 5));
    // Junk tables.
    for at in [0, 7, 24] {
        for byte in [2, 3, 128, 255] {
            let mut junk = table.clone();
            junk[at] = byte;
            assert_eq!(chain(&image, &junk, MOMENT, 3), refused(1, 0));
        }
    }
    assert_eq!(chain(&image, &table[1..], MOMENT, 3), refused(1, 0));
    assert_eq!(chain(&image, &[&table[..], &[0]].concat(), MOMENT, 3), refused(1, 0));
    assert_eq!(chain(&image, &[], MOMENT, 3), refused(1, 0));
    // Moments.
    for moment in make::time::BAD_MOMENTS {
        assert_eq!(chain(&image, &table, moment, 3), refused(1, 0));
    }
    // Targets.
    for target in [0, 1, 2, 4, 5, 96, 255, 1 << 32 | 3, u64::MAX] {
        assert_eq!(chain(&image, &table, MOMENT, target), refused(1, 0));
    }
    assert_eq!(chain(&image, &table, 19500101000000, 3), refused(7, 0));
    assert_eq!(chain(&image, &table, 20991231235959, 3), refused(7, 0));
    // No items.
    let empty = Image::new(20240301).encode();
    assert_eq!(chain(&empty, &[], MOMENT, 0), refused(1, 0));
}

/// An anchor, two links that signed each other and themselves, a signer, a CRL; the anchor signed all.
fn tied() -> Store {
    let mut store = Store::new();
    store.put(ANCHOR, &says(1));
    store.put(LINK, &says(2));
    store.put(LINK, &says(3));
    store.put(SIGNER, &says(4));
    store.put_crl(&crl_says(&[]));
    store.verdicts = vec![(0, 1), (0, 2), (0, 3), (0, 4), (1, 1), (1, 2), (2, 1), (2, 2), (1, 3), (2, 3)];
    store
}

#[test]
fn any_good_chain_may_be_proposed() {
    let store = tied();
    assert_eq!(store.places(3), [0, 3]);
    let long: Vec<u8> = [&[0][..], &[1; 94], &[3]].concat();
    for places in [&[0, 3][..], &[0, 1, 3], &[0, 2, 3], &[0, 2, 1, 3], &[0, 1, 1, 2, 1, 3], &long] {
        assert_eq!(store.propose(3, places), 0, "{places:?}");
    }
    for places in [&[3, 0][..], &[0, 0, 3], &[1, 3], &[0, 1], &[0, 4, 3], &[0, 3, 3], &[0, 3, 1, 3], &[0, 1, 4]] {
        assert_eq!(store.propose(3, places), 7, "{places:?}");
    }
}

#[test]
fn proposals_have_a_range() {
    let store = tied();
    let many: Vec<u8> = [&[0][..], &[1; 95], &[3]].concat();
    for places in [&[][..], &[3], &[0, 5], &[0, 255, 3], &many] {
        assert_eq!(store.propose(3, places), 1, "{places:?}");
    }
    // The question itself comes first.
    let told = proposal(&[], &store.table(), MOMENT, 3, &[]);
    assert_eq!(told, Told { number: 5, detail: 1 });
    assert_eq!(store.propose(1, &[0, 3]), 1);
}

#[test]
fn a_proposal_of_what_may_not_be_used() {
    let mut listed = tied();
    listed.put_crl(&crl_says(&[2]));
    assert_eq!(listed.propose(3, &[0, 1, 3]), 0);
    listed.verdicts.push((0, 5));
    assert_eq!(listed.propose(3, &[0, 1, 3]), 7);
    assert_eq!(listed.propose(3, &[0, 2, 3]), 0);
    let mut disabled = tied();
    disabled.image.flags[0] = 0;
    assert_eq!(disabled.propose(3, &[0, 3]), 7);
    let mut uncovered = tied();
    uncovered.verdicts.retain(|pair| *pair != (0, 4));
    assert_eq!(uncovered.propose(3, &[0, 3]), 7);
}
