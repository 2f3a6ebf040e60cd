//! Questions from a source: what they reach, and chains compared with a slow
//! search that follows the definition.

use std::collections::BTreeMap;

use make::questions::{Question, Source};
use plain::{certificate, chain, crl, entry, image, Certificate, Chain, Crl};

/// A question's name and its answer's number and detail; 2 and 3 without place.
fn ask(question: &Question) -> (&'static str, u64, u64) {
    let (name, number, detail) = match question {
        Question::Walk(item) => answer("walk", plain::walk(item).number, 0),
        Question::Integer(item) => answer("integer", plain::integer(item).number, 0),
        Question::Certificate(item, role) => {
            let found = certificate(item, *role);
            answer("certificate", found.number, found.detail)
        }
        Question::Crl(item) => answer("crl", crl(item).number, crl(item).detail),
        Question::Days(first, second) => answer("days", plain::day_difference(*first, *second).number, 0),
        Question::Age(item, day) => answer("age", plain::crl_age(item, *day).number, 0),
        Question::Image(octets) => {
            let told = image(octets);
            answer("image", told.number, if told.number == 0 { told.version } else { told.detail })
        }
        Question::ImageForDay(octets, day) => answer("day", plain::image_for_day(octets, *day).number, 0),
        Question::Entry(octets, place) => answer("entry", entry(octets, *place).number, 0),
        Question::Write { items, kinds, flags, lengths, letters, version, day, room } => {
            let mut out = vec![0xA5; *room];
            let told = plain::write(items, kinds, flags, lengths, letters, *version, *day, &mut out);
            answer("write", told.number, if told.number == 0 { *version } else { 0 })
        }
        Question::MoveTo2(image, room) => {
            let told = plain::move_to_2(image, &mut vec![0xA5; *room]);
            answer("move to 2", told.number, told.detail)
        }
        Question::MoveTo1(image, room) => {
            let told = plain::move_to_1(image, &mut vec![0xA5; *room]);
            answer("move to 1", told.number, told.detail)
        }
        Question::Room { image, table, moment, room, table_room } => {
            let told = plain::make_room(image, table, *moment, &mut vec![7; *room], &mut vec![7; *table_room]);
            let all = told.number == 0 && told.entries == plain::image(image).entries;
            answer("room", told.number, if all { 1 } else { told.detail })
        }
        Question::Letters(image) => {
            let told = plain::letters(image);
            answer("letters", told.number, if told.number == 0 { told.letters_true } else { told.detail })
        }
        Question::Anchors(image, first, second) => {
            let told = plain::anchors(image, *first, *second);
            answer("anchors", told.number, if told.number == 0 { told.count.min(2) } else { told.detail })
        }
        Question::AnchorsByIndex(image, first, second) => {
            let told = plain::anchors_by_index(image, *first, *second);
            answer("anchors by index", told.number, if told.number == 0 { told.count.min(2) } else { told.detail })
        }
        Question::Chain { image, table, moment, target } => {
            let found = chain(image, table, *moment, *target);
            answer("chain", found.number, if found.number == 0 { found.length } else { found.detail })
        }
        Question::Proposal { image, table, moment, target, places } => {
            answer("proposal", plain::proposal(image, table, *moment, *target, places).number, 0)
        }
        Question::Signers { image, table, moment, room } => {
            answer("signers", plain::all_signers(image, table, *moment, &mut vec![7; *room]).number, 0)
        }
        Question::Replay { log, room } => answer("replay", plain::replay(log, &mut vec![7; *room]).number, 0),
    };
    (name, number, if number == 2 || number == 3 { 0 } else { detail })
}

fn answer(name: &'static str, number: u64, detail: u64) -> (&'static str, u64, u64) {
    (name, number, detail)
}

#[test]
fn every_answer_is_reached() {
    let mut source = Source::new(1);
    let mut reached = BTreeMap::new();
    for _ in 0..60_000 {
        *reached.entry(ask(&source.next())).or_insert(0) += 1;
    }
    let mut wanted = vec![("walk", 0, 0), ("walk", 2, 0), ("walk", 3, 0)];
    wanted.extend([0, 1, 2, 8].map(|number| ("integer", number, 0)));
    wanted.extend([0, 1, 2].map(|number| ("certificate", number, 0)));
    wanted.extend((1..=14).map(|rule| ("certificate", 4, rule)));
    wanted.extend([0, 2].map(|number| ("crl", number, 0)));
    wanted.extend((1..=8).map(|rule| ("crl", 4, rule)));
    wanted.extend([0, 1].map(|number| ("days", number, 0)));
    wanted.extend([0, 1, 2, 4].map(|number| ("age", number, 0)));
    wanted.extend([("image", 0, 1), ("image", 0, 2)]);
    for name in ["image", "move to 2", "move to 1", "letters"] {
        wanted.extend((1..=7).map(|rule| (name, 5, rule)));
    }
    wanted.extend([0, 3, 9].map(|number| ("move to 2", number, 0)));
    wanted.extend([0, 9].map(|number| ("move to 1", number, 0)));
    wanted.extend([0, 1].map(|letters_true| ("letters", 0, letters_true)));
    wanted.extend([("room", 0, 0), ("room", 0, 1), ("room", 1, 0), ("room", 9, 0)]);
    for name in ["anchors", "anchors by index"] {
        wanted.push((name, 1, 0));
        wanted.extend([0, 1, 2].map(|count| (name, 0, count)));
        wanted.extend((1..=7).map(|rule| (name, 5, rule)));
    }
    wanted.extend([0, 1, 5, 6].map(|number| ("day", number, 0)));
    wanted.extend([0, 1, 5].map(|number| ("entry", number, 0)));
    wanted.extend([("write", 0, 1), ("write", 0, 2)]);
    wanted.extend([1, 3, 9].map(|number| ("write", number, 0)));
    wanted.extend([0, 1, 5, 7].map(|number| ("proposal", number, 0)));
    wanted.extend([0, 1, 5, 9].map(|number| ("signers", number, 0)));
    wanted.extend([("chain", 1, 0), ("chain", 7, 0)]);
    wanted.extend([0, 1, 9].map(|number| ("replay", number, 0)));
    wanted.extend((2..=7).map(|length| ("chain", 0, length)));
    for answer in wanted {
        assert!(reached.contains_key(&answer), "{answer:?} is not reached: {reached:?}");
    }
    for (answer, times) in &reached {
        println!("{answer:?} {times}");
    }
    assert!(reached.keys().any(|answer| answer.0 == "chain" && answer.1 == 0 && answer.2 > 20));
}

#[test]
fn a_seed_gives_the_same_questions() {
    let (mut one, mut other) = (Source::new(7), Source::new(7));
    for _ in 0..500 {
        assert_eq!(one.next(), other.next());
    }
    assert_ne!(Source::new(8).next(), Source::new(9).next());
}

#[test]
fn chains_follow_the_definition() {
    for seed in 0..3 {
        let mut source = Source::new(1000 + seed);
        for _ in 0..2_000 {
            if let Question::Chain { image, table, moment, target } = source.next() {
                let answer = chain(&image, &table, moment, target);
                if answer.number == 0 || answer.number == 7 {
                    assert_eq!(slow(&image, &table, moment, target as usize), answer);
                }
            }
        }
    }
}

/// A chain that is shown may be proposed, and nothing may that is shorter.
#[test]
fn what_is_shown_is_accepted() {
    let (mut source, mut accepted) = (Source::new(1003), 0);
    for _ in 0..8_000 {
        if let Question::Proposal { image, table, moment, target, places } = source.next() {
            let shown = chain(&image, &table, moment, target);
            let own = plain::proposal(&image, &table, moment, target, &shown.places[..shown.length as usize]);
            assert!(shown.number != 0 || own.number == 0);
            if plain::proposal(&image, &table, moment, target, &places).number == 0 {
                assert!(shown.number == 0 && shown.length <= places.len() as u64);
                accepted += 1;
            }
        }
    }
    assert!(accepted > 20, "{accepted}");
}

/// An item of the slow search.
enum Item<'a> {
    Certificate { kind: u64, enabled: bool, octets: &'a [u8], says: Certificate },
    Crl { octets: &'a [u8], says: Crl },
}

fn part(octets: &[u8], at: u64, len: u64) -> &[u8] {
    &octets[at as usize..(at + len) as usize]
}

/// The serials of a passing CRL, read in the simplest way.
fn serials(item: &[u8]) -> Vec<&[u8]> {
    let members = |list: &'_ [u8]| -> Vec<(u8, std::ops::Range<usize>)> {
        let (mut at, mut found) = (0, Vec::new());
        while at < list.len() {
            let (body, length) = match list[at + 1] {
                0x81 => (at + 3, list[at + 2] as usize),
                0x82 => (at + 4, list[at + 2] as usize * 256 + list[at + 3] as usize),
                length => (at + 2, length as usize),
            };
            found.push((list[at], body..body + length));
            at = body + length;
        }
        found
    };
    let outermost = &item[members(item)[0].1.clone()];
    let tbs = &outermost[members(outermost)[0].1.clone()];
    let parts = members(tbs);
    if parts.len() < 7 {
        return Vec::new();
    }
    let list = &tbs[parts[5].1.clone()];
    members(list)
        .into_iter()
        .map(|(_, entry)| {
            let entry = &list[entry];
            &entry[members(entry)[0].1.clone()]
        })
        .collect()
}

/// All items of an image.
fn items(octets: &[u8]) -> Vec<Item<'_>> {
    (0..image(octets).entries)
        .map(|place| {
            let line = entry(octets, place);
            let item = part(octets, line.offset, line.length);
            if line.kind == 4 {
                Item::Crl { octets: item, says: crl(item) }
            } else {
                let says = certificate(item, line.kind);
                Item::Certificate { kind: line.kind, enabled: line.flags == 1, octets: item, says }
            }
        })
        .collect()
}

/// Follows the definition of good chains, with no regard for time.
fn slow(octets: &[u8], table: &[u8], moment: u64, target: usize) -> Chain {
    let items = items(octets);
    let n = items.len();
    let verdict = |signer: usize, signed: usize| table[signer * n + signed] == 1;
    let within = |says: &Certificate| says.number == 0 && says.start <= moment && moment <= says.end;
    let anchor = |place: usize| match &items[place] {
        Item::Certificate { kind: 1, enabled: true, says, .. } if within(says) => Some(says.country),
        _ => None,
    };
    let counts = |place: usize| match &items[place] {
        Item::Crl { says, .. } if says.number == 0 && says.this_update <= moment && moment <= says.next_update => {
            (0..n).any(|signer| verdict(signer, place) && anchor(signer) == Some(says.country))
        }
        _ => false,
    };
    let counting: Vec<([u8; 2], Vec<&[u8]>)> = (0..n)
        .filter(|&place| counts(place))
        .filter_map(|place| match &items[place] {
            Item::Crl { octets, says } => Some((says.country, serials(octets))),
            _ => None,
        })
        .collect();
    let usable = |place: usize| match &items[place] {
        Item::Certificate { kind: 1, .. } => anchor(place).is_some(),
        Item::Certificate { octets, says, .. } if within(says) => {
            let serial = part(octets, says.serial_at, says.serial_len);
            let covering: Vec<_> = counting.iter().filter(|crl| crl.0 == says.country).collect();
            !covering.is_empty() && covering.iter().all(|crl| !crl.1.contains(&serial))
        }
        _ => false,
    };
    let usable: Vec<bool> = (0..n).map(usable).collect();
    let step = |u: usize, v: usize| match (&items[u], &items[v]) {
        (
            Item::Certificate { kind: 1 | 2, octets: signer, says: by, .. },
            Item::Certificate { kind: 2 | 3, octets: signed, says: of, .. },
        ) => {
            verdict(u, v)
                && part(signed, of.issuer_at, of.issuer_len) == part(signer, by.subject_at, by.subject_len)
                && part(signed, of.authority_key_id_at, of.authority_key_id_len)
                    == part(signer, by.subject_key_id_at, by.subject_key_id_len)
        }
        _ => false,
    };
    shortest(n, &usable, |place| anchor(place).is_some(), step, target)
}

/// For each length the first chain to each place, until the target has one.
fn shortest(
    n: usize,
    usable: &[bool],
    anchor: impl Fn(usize) -> bool,
    step: impl Fn(usize, usize) -> bool,
    target: usize,
) -> Chain {
    let mut answer = Chain { number: 7, detail: 0, length: 0, places: [255; 96] };
    let mut chains: Vec<Option<Vec<u8>>> = (0..n).map(|place| anchor(place).then(|| vec![place as u8])).collect();
    for _ in 1..=n {
        if let Some(found) = &chains[target] {
            answer.number = 0;
            answer.length = found.len() as u64;
            answer.places[..found.len()].copy_from_slice(found);
            return answer;
        }
        let longer = |v: usize| {
            if !usable[v] {
                return None;
            }
            let before = (0..n).filter(|&u| chains[u].is_some() && step(u, v)).map(|u| chains[u].clone().unwrap());
            before.min().map(|mut places| {
                places.push(v as u8);
                places
            })
        };
        chains = (0..n).map(longer).collect();
    }
    answer
}
