//! The certificate profile.

use make::certificate::{Certificate as Made, Parameters, ANCHOR, LINK, ROLES, SIGNER};
use make::certificate_breaks::ways;
use make::der::{bit_string, element, octet_string, sequence};
use make::extension::{self, find, known, remove, Extension, AUTHORITY_KEY_ID, DOCUMENT_TYPES, SUBJECT_KEY_ID};
use make::name;
use make::random::Random;
use make::time;
use plain::{certificate, walk, Certificate};

fn refused(number: u64, detail: u64) -> Certificate {
    Certificate {
        number,
        detail,
        start: 0,
        end: 0,
        issuer_at: 0,
        issuer_len: 0,
        subject_at: 0,
        subject_len: 0,
        key_at: 0,
        key_len: 0,
        serial_at: 0,
        serial_len: 0,
        subject_key_id_at: 0,
        subject_key_id_len: 0,
        authority_key_id_at: 0,
        authority_key_id_len: 0,
        country: [0; 2],
    }
}

fn rule(made: &Made) -> u64 {
    let answer = certificate(&made.encode(), made.role);
    match answer.number {
        0 => 0,
        _ => {
            assert_eq!(answer, refused(4, answer.detail));
            answer.detail
        }
    }
}

#[test]
fn fields_of_a_pass() {
    for role in ROLES {
        let parameters = Parameters::typical(role);
        let made = Made::new(&parameters);
        let item = made.encode();
        let answer = certificate(&item, role);
        let part = |at: u64, len: u64| &item[at as usize..(at + len) as usize];
        assert_eq!((answer.number, answer.detail), (0, 0));
        assert_eq!((answer.start, answer.end), (20200101000000, 20301231235959));
        assert_eq!(answer.country, *b"UT");
        assert_eq!(part(answer.issuer_at, answer.issuer_len), made.issuer);
        assert_eq!(part(answer.subject_at, answer.subject_len), made.subject);
        assert_eq!(part(answer.key_at, answer.key_len), made.key);
        assert_eq!(part(answer.serial_at, answer.serial_len), parameters.serial);
        assert_eq!(part(answer.subject_key_id_at, answer.subject_key_id_len), [role as u8; 20]);
        assert_eq!(part(answer.authority_key_id_at, answer.authority_key_id_len), [1; 20]);
    }
}

#[test]
fn key_identifiers_that_may_be_absent() {
    let mut anchor = Made::typical(ANCHOR);
    remove(&mut anchor.extensions, &AUTHORITY_KEY_ID);
    let answer = certificate(&anchor.encode(), ANCHOR);
    assert_eq!((answer.number, answer.authority_key_id_at, answer.authority_key_id_len), (0, 0, 0));
    let mut signer = Made::typical(SIGNER);
    remove(&mut signer.extensions, &SUBJECT_KEY_ID);
    let answer = certificate(&signer.encode(), SIGNER);
    assert_eq!((answer.number, answer.subject_key_id_at, answer.subject_key_id_len), (0, 0, 0));
    // An empty one passes, at its real offset.
    let mut link = Made::typical(LINK);
    find(&mut link.extensions, &SUBJECT_KEY_ID).unwrap().value = vec![4, 0];
    find(&mut link.extensions, &AUTHORITY_KEY_ID).unwrap().value = vec![0x30, 5, 0x80, 0, 0x82, 1, 5];
    let item = link.encode();
    let answer = certificate(&item, LINK);
    assert_eq!((answer.number, answer.subject_key_id_len, answer.authority_key_id_len), (0, 0, 0));
    assert_eq!(item[answer.subject_key_id_at as usize - 2..][..2], [4, 0]);
    assert_eq!(item[answer.authority_key_id_at as usize - 2..][..2], [0x80, 0]);
}

#[test]
fn each_rule_alone_in_each_role() {
    let mut random = Random::new(1);
    for role in ROLES {
        assert_eq!(rule(&Made::typical(role)), 0);
        for way in ways(role) {
            // Several times, since some ways choose among many.
            for time in 0..60 {
                let mut made = if time < 40 { Made::typical(role) } else { Made::varied(&mut random, role) };
                (way.apply)(&mut made, &mut random);
                assert_eq!(walk(&made.encode()).number, 0, "{} in role {role}", way.what);
                assert_eq!(rule(&made), way.rule, "{} in role {role}", way.what);
            }
        }
    }
}

#[test]
fn the_smallest_of_two_rules() {
    let mut random = Random::new(2);
    for role in ROLES {
        for one in ways(role) {
            for other in ways(role).iter().filter(|other| other.rule > one.rule) {
                let mut made = Made::typical(role);
                (other.apply)(&mut made, &mut random);
                (one.apply)(&mut made, &mut random);
                // A large extension twice makes an item too long.
                if made.encode().len() <= 16_384 {
                    assert_eq!(rule(&made), one.rule, "{}, then {}", other.what, one.what);
                }
            }
        }
    }
}

#[test]
fn varied_certificates_pass() {
    let mut random = Random::new(3);
    for _ in 0..3_000 {
        for role in ROLES {
            let made = Made::varied(&mut random, role);
            assert_eq!(rule(&made), 0, "{:02X?}", made.encode());
        }
    }
}

#[test]
fn serials() {
    for (serial, wanted) in [
        (vec![1; 20], 0),
        (vec![1; 21], 3),
        (vec![0], 3),
        (vec![0xFF], 3),
        (vec![0x7F], 0),
        ([&[0][..], &[0x80; 19]].concat(), 0),
        ([&[0][..], &[0x80; 20]].concat(), 3),
    ] {
        let mut parameters = Parameters::typical(LINK);
        parameters.serial = serial;
        assert_eq!(rule(&Made::new(&parameters)), wanted);
    }
}

#[test]
fn times() {
    let years = |start: Vec<u8>, end: Vec<u8>| {
        let mut made = Made::typical(ANCHOR);
        (made.start, made.end) = (start, end);
        let answer = certificate(&made.encode(), ANCHOR);
        (answer.number, answer.start, answer.end)
    };
    let (utc, generalized) = (time::utc, time::generalized);
    assert_eq!(years(utc("500101000000Z"), utc("491231235959Z")), (0, 19500101000000, 20491231235959));
    assert_eq!(years(utc("000229000000Z"), generalized("20500101000000Z")), (0, 20000229000000, 20500101000000));
    assert_eq!(years(generalized("20520229000000Z"), generalized("99991231235959Z")).0, 0);
    assert_eq!(years(utc("240301120000Z"), utc("240301120000Z")).0, 0);
    assert_eq!(years(utc("240301120001Z"), utc("240301120000Z")), (4, 0, 0));
    assert_eq!(years(utc("240301120000Z"), generalized("20491231235959Z")), (4, 0, 0));
    for (tag, text) in time::BAD {
        assert_eq!(years(utc("500101000000Z"), element(*tag, text.as_bytes())), (4, 0, 0), "{text}");
    }
}

#[test]
fn every_utc_time() {
    // All of month, day and hour as two digits, and of minute and second.
    let mut made = Made::typical(ANCHOR);
    made.end = time::generalized("20500101000000Z");
    for month in 0..=20 {
        for day in 0..=40 {
            for year in [0, 23, 24, 49] {
                made.start = time::utc(&format!("{year:02}{month:02}{day:02}235959Z"));
                let last = [31, 28 + (year % 4 == 0) as u32, 31, 30, 31, 30, 31, 31, 30, 31, 30, 31];
                let good = (1..=12).contains(&month) && (1..=last[month.max(1) % 13 - 1]).contains(&day);
                assert_eq!(rule(&made), if good { 0 } else { 7 }, "{year} {month} {day}");
            }
        }
    }
    for octet in 0..=255u8 {
        for place in 0..13 {
            made.start = time::utc("010101010101Z");
            made.start[2 + place] = octet;
            let good = match place {
                12 => octet == b'Z',
                // First and second digits of year, month, day, hour, minute, second.
                0 => (b'0'..=b'9').contains(&octet),
                2 => (b'0'..=b'1').contains(&octet),
                4 => (b'0'..=b'3').contains(&octet),
                6 => (b'0'..=b'2').contains(&octet),
                8 | 10 => (b'0'..=b'5').contains(&octet),
                3 | 5 => (b'1'..=b'9').contains(&octet),
                _ => (b'0'..=b'9').contains(&octet),
            };
            assert_eq!(rule(&made), if good { 0 } else { 7 }, "{octet} at {place}");
        }
    }
}

#[test]
fn what_is_judged_by_its_tag_alone() {
    for role in ROLES {
        let mut made = Made::typical(role);
        made.algorithm = vec![0x30, 0];
        made.envelope.outer_algorithm = vec![0x30, 0];
        made.key = vec![0x30, 0];
        made.envelope.signature = bit_string(&[]);
        assert_eq!(rule(&made), 0);
        made.subject = name::name(*b"UT", "another");
        assert_eq!(rule(&made), 0);
    }
}

#[test]
fn document_types_at_the_limit() {
    let mut made = Made::typical(SIGNER);
    let types = |number: usize| sequence(&[&[2, 1, 0], &element(0x31, &[0x13, 1, b'P'].repeat(number))]);
    find(&mut made.extensions, &DOCUMENT_TYPES).unwrap().value = types(4_093);
    assert_eq!(rule(&made), 0);
    find(&mut made.extensions, &DOCUMENT_TYPES).unwrap().value = types(4_094);
    assert_eq!(rule(&made), 13);
    // In other roles it is not read.
    let mut link = Made::typical(LINK);
    link.extensions.push(Extension::new(&DOCUMENT_TYPES, false, b"anything"));
    assert_eq!(rule(&link), 0);
}

#[test]
fn authority_key_identifier_at_the_limits() {
    let mut made = Made::typical(LINK);
    let members = |rest: &[u8]| sequence(&[&[0x80, 1, 7], rest]);
    for (value, wanted) in [
        (members(&[5, 0].repeat(4_094)), 0),
        (members(&[5, 0].repeat(4_095)), 11),
        (members(&make::der::nested(15)), 0),
        (members(&make::der::nested(16)), 11),
    ] {
        find(&mut made.extensions, &AUTHORITY_KEY_ID).unwrap().value = value;
        assert_eq!(rule(&made), wanted);
    }
}

#[test]
fn many_extensions() {
    let mut random = Random::new(4);
    let mut made = Made::typical(ANCHOR);
    for number in 0..200 {
        made.extensions.push(Extension::new(&[0x2B, 1, number as u8 & 0x7F, (number / 128) as u8], false, b""));
    }
    for last in 64..128 {
        made.extensions.push(Extension::new(&known(last), false, b""));
    }
    assert_eq!(rule(&made), 0);
    for _ in 0..100 {
        let mut doubled = made.clone();
        let twice = random.pick(&doubled.extensions).oid.clone();
        doubled.extensions.push(Extension::new(&twice, false, b"other"));
        random.shuffle(&mut doubled.extensions);
        assert_eq!(rule(&doubled), 8);
    }
}

#[test]
fn order_of_refusals() {
    let mut made = Made::typical(LINK);
    made.version = vec![0xA0, 3, 2, 1, 0];
    let item = made.encode();
    assert_eq!(certificate(&item, LINK), refused(4, 2));
    // A role outside is told before everything.
    for role in [0, 4, 255, 1 << 32 | 1, u64::MAX] {
        assert_eq!(certificate(&item, role), refused(1, 0));
        assert_eq!(certificate(&[0; 20_000], role), refused(1, 0));
    }
    assert_eq!(certificate(&[0; 16_385], LINK), refused(3, 0));
    // Octets after the outermost, before 4.
    let after = [&item[..], &[0]].concat();
    assert_eq!(certificate(&after, LINK), refused(2, item.len() as u64));
    // A DER fault late in the item, before rule 1 and 2.
    made.envelope.signature = vec![3, 2, 7, 0x81];
    made.version.clear();
    let item = made.encode();
    assert_eq!(certificate(&item, LINK), refused(2, item.len() as u64 - 4));
    // Too many elements in the key, before the fault.
    made.key = element(0x30, &[5, 0].repeat(4_096));
    let item = made.encode();
    assert_eq!(certificate(&item, LINK), refused(3, walk(&item).detail));
    assert_eq!(certificate(&[], LINK), refused(2, 0));
}

#[test]
fn elements_at_the_limit() {
    // The shape is right, and the count decides.
    let mut made = Made::typical(LINK);
    made.key = vec![0x30, 0];
    let others = walk(&made.encode()).count as usize;
    made.key = element(0x30, &[5, 0].repeat(4_096 - others));
    assert_eq!(walk(&made.encode()).count, 4_096);
    assert_eq!(rule(&made), 0);
    made.key = element(0x30, &[5, 0].repeat(4_097 - others));
    let item = made.encode();
    let answer = walk(&item);
    assert_eq!(answer.number, 3);
    assert_eq!(certificate(&item, LINK), refused(3, answer.detail));
    // Depth inside a name's value and in the key.
    for (depth, wanted) in [(11, (0, 0)), (12, (3, 0))] {
        let mut made = Made::typical(LINK);
        let deep = sequence(&[&make::der::oid(name::COMMON), &make::der::nested(depth)]);
        made.subject = sequence(&[&name::country(*b"UT"), &element(0x31, &deep)]);
        let answer = certificate(&made.encode(), LINK);
        assert_eq!(answer.number, wanted.0);
    }
    for (depth, number) in [(14, 0), (15, 3)] {
        let mut made = Made::typical(LINK);
        made.key = make::der::nested(depth);
        assert_eq!(certificate(&made.encode(), LINK).number, number);
        let mut made = Made::typical(LINK);
        made.algorithm = make::der::nested(depth);
        made.envelope.outer_algorithm = made.algorithm.clone();
        assert_eq!(certificate(&made.encode(), LINK).number, number);
    }
}

#[test]
fn a_change_never_contradicts_the_walk() {
    let mut random = Random::new(5);
    for _ in 0..20_000 {
        let role = *random.pick(&ROLES);
        let mut item = Made::typical(role).encode();
        make::change::change(&mut item, &mut random);
        let (walked, answer) = (walk(&item), certificate(&item, role));
        if walked.number != 0 {
            assert_eq!(answer, refused(walked.number, walked.detail));
        } else {
            assert!(answer.number == 0 || answer.number == 4);
        }
    }
}

#[test]
fn contents_of_other_extensions_are_free() {
    let mut made = Made::typical(SIGNER);
    for last in [16, 17, 18, 31] {
        find(&mut made.extensions, &known(last)).unwrap().value = vec![0xFF, 0xFF];
    }
    made.extensions.push(Extension::new(&known(32), false, &octet_string(b"x")[..2]));
    assert_eq!(rule(&made), 0);
    assert_eq!(extension::list(&[]), [0x30, 0]);
}
