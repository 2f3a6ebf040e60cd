//! The CRL profile and a CRL's age.

use make::crl::{entry, Crl as Made, Parameters};
use make::crl_breaks::ways;
use make::extension::{find, AUTHORITY_KEY_ID};
use make::random::Random;
use make::time;
use plain::{crl, crl_age, walk, Crl, Days};

fn refused(number: u64, detail: u64) -> Crl {
    Crl { number, detail, this_update: 0, next_update: 0, entries: 0, issuer_at: 0, issuer_len: 0, country: [0; 2] }
}

fn rule(made: &Made) -> u64 {
    let answer = crl(&made.encode());
    match answer.number {
        0 => 0,
        _ => {
            assert_eq!(answer, refused(4, answer.detail));
            answer.detail
        }
    }
}

#[test]
fn fields_of_a_pass() {
    for entries in [0, 1, 3, 100, 600] {
        let made = Made::typical(entries);
        let item = made.encode();
        let answer = crl(&item);
        let at = answer.issuer_at as usize;
        assert_eq!(item[at..at + answer.issuer_len as usize], made.issuer);
        let wanted = Crl {
            number: 0,
            detail: 0,
            this_update: 20240201000000,
            next_update: 20240501000000,
            entries: entries as u64,
            country: *b"UT",
            ..answer
        };
        assert_eq!(answer, wanted);
    }
}

#[test]
fn each_rule_alone() {
    let mut random = Random::new(1);
    for way in ways() {
        for time in 0..60 {
            let mut made = if time < 40 { Made::typical(2) } else { Made::varied(&mut random) };
            (way.apply)(&mut made, &mut random);
            assert_eq!(walk(&made.encode()).number, 0, "{}", way.what);
            assert_eq!(rule(&made), way.rule, "{}", way.what);
        }
    }
}

#[test]
fn the_smallest_of_two_rules() {
    let mut random = Random::new(2);
    for one in ways() {
        for other in ways().iter().filter(|other| other.rule > one.rule) {
            let mut made = Made::typical(2);
            (other.apply)(&mut made, &mut random);
            (one.apply)(&mut made, &mut random);
            // An entry put into a list that is given whole is not there.
            if other.what == "list empty" && one.what.contains("entry") {
                continue;
            }
            assert_eq!(rule(&made), one.rule, "{}, then {}", other.what, one.what);
        }
    }
}

#[test]
fn varied_crls_pass() {
    let mut random = Random::new(3);
    for _ in 0..3_000 {
        let made = Made::varied(&mut random);
        assert_eq!(rule(&made), 0, "{:02X?}", made.encode());
    }
}

#[test]
fn what_is_not_judged() {
    let mut made = Made::typical(0);
    find(&mut made.extensions, &AUTHORITY_KEY_ID).unwrap().value = vec![0xFF];
    let moment = time::utc("230704101112Z");
    made.entries = vec![entry(&[0], &moment, &[]), entry(&[0x80], &moment, &[]), entry(&[0x11; 40], &moment, &[])];
    made.entries.push(make::der::sequence(&[&[2, 1, 5], &moment, &[0x30, 0]]));
    assert_eq!(rule(&made), 0);
}

#[test]
fn order_of_refusals() {
    assert_eq!(crl(&[]), refused(2, 0));
    assert_eq!(crl(&[0; 16_385]), refused(3, 0));
    assert_eq!(crl(&[0x30, 0]), refused(4, 1));
    assert_eq!(crl(&[0x30, 0, 0]), refused(2, 2));
    let mut random = Random::new(5);
    for _ in 0..10_000 {
        let mut item = Made::typical(2).encode();
        make::change::change(&mut item, &mut random);
        let (walked, answer) = (walk(&item), crl(&item));
        if walked.number != 0 {
            assert_eq!(answer, refused(walked.number, walked.detail));
        } else {
            assert!(answer.number == 0 || answer.number == 4);
        }
    }
}

#[test]
fn age() {
    let of = |this_update: u64, day: u64| {
        let mut parameters = Parameters::typical(1);
        parameters.this_update = this_update;
        parameters.next_update = 99990101000000;
        crl_age(&Made::new(&parameters).encode(), day)
    };
    let days = |days| Days { number: 0, detail: 0, days };
    assert_eq!(of(20240228235959, 20240301), days(2));
    assert_eq!(of(20240301000000, 20240301), days(0));
    assert_eq!(of(20210101120000, 20201231), days(-1));
    assert_eq!(of(20991231235959, 19500101), days(-54786));
    assert_eq!(of(21000101000000, 20240301), Days { number: 1, detail: 0, days: 0 });
    // The day's 1, the CRL's own, then 1.
    let mut broken = Made::typical(0);
    broken.this_update = time::generalized("21000101000000Z");
    broken.next_update = time::generalized("21000101000000Z");
    broken.version = vec![2, 1, 0];
    assert_eq!(crl_age(&broken.encode(), 20240230), Days { number: 1, detail: 0, days: 0 });
    assert_eq!(crl_age(&broken.encode(), 20240301), Days { number: 4, detail: 2, days: 0 });
    assert_eq!(crl_age(&[5, 0, 0], 20240301), Days { number: 2, detail: 2, days: 0 });
    assert_eq!(crl_age(&[0; 20_000], 20240301), Days { number: 3, detail: 0, days: 0 });
    assert_eq!(crl_age(&[0; 20_000], 0), Days { number: 1, detail: 0, days: 0 });
}
