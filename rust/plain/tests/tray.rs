//! The plain replay on logs worked out by hand.

use plain::{replay, Replayed};

const DAY: u32 = 20261115;

fn record(action: u8, unit: u8, day: u32) -> [u8; 8] {
    let [a, b, c, d] = day.to_be_bytes();
    [action, unit, 0, 0, a, b, c, d]
}

/// A tray of a day, an image, and all units.
fn night(image: u32) -> Vec<u8> {
    let mut log = [record(1, 0, DAY), record(2, 0, image)].concat();
    (1..=40).for_each(|unit| log.extend(record(3, unit, 0)));
    log
}

fn told(number: u64, faulty: u64) -> Replayed {
    Replayed { number, detail: 0, faulty }
}

#[test]
fn the_image_of_the_day_before() {
    let log = night(DAY - 1);
    let wanted: Vec<u64> = (2..42).collect();
    for room in [40, 42, 50] {
        let mut list = vec![7; room];
        assert_eq!(replay(&log, &mut list), told(0, 40));
        assert_eq!(list[..40], wanted);
        assert!(list[40..].iter().all(|&number| number == 7));
    }
    let mut short = vec![7; 39];
    assert_eq!(replay(&log, &mut short), told(9, 0));
    assert_eq!(short, [7; 39]);
}

#[test]
fn a_good_night() {
    let log = night(DAY);
    assert_eq!(replay(&log, &mut []), told(0, 0));
    assert_eq!(replay(&[], &mut []), told(0, 0));
    assert_eq!(replay(&log[1..], &mut []), told(1, 0));
    let again = [log.as_slice(), &record(1, 0, DAY), &record(3, 40, 0), &record(3, 40, 0)].concat();
    let mut list = [7; 2];
    assert_eq!(replay(&again, &mut list), told(0, 1));
    assert_eq!(list, [44, 7]);
}
