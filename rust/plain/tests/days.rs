//! Days and their differences.

use plain::{day_difference, Days};

fn days(first: u64, second: u64) -> Days {
    day_difference(first, second)
}

#[test]
fn the_table() {
    for (first, second, difference) in
        [(20240228, 20240301, 2), (20230228, 20230301, 1), (20210101, 20201231, -1), (19500101, 20991231, 54786)]
    {
        assert_eq!(days(first, second), Days { number: 0, detail: 0, days: difference });
        assert_eq!(days(second, first).days, -difference);
    }
}

#[test]
fn one_day_after_the_other() {
    let lengths = [31, 28, 31, 30, 31, 30, 31, 31, 30, 31, 30, 31];
    let mut number = 0;
    for year in 1950..=2099u64 {
        for month in 1..=12u64 {
            let leap = month == 2 && year % 4 == 0;
            let length = lengths[month as usize - 1] + leap as u64;
            for day in 0..=99 {
                let answer = days(19500101, year * 10_000 + month * 100 + day);
                if (1..=length).contains(&day) {
                    assert_eq!(answer, Days { number: 0, detail: 0, days: number });
                    number += 1;
                } else {
                    assert_eq!(answer, Days { number: 1, detail: 0, days: 0 });
                }
            }
        }
    }
    assert_eq!(number, 54787);
}

#[test]
fn outside() {
    for day in [0, 19491231, 21000101, 20240001, 20241301, u64::MAX, 20240301 + (1 << 32), 120240301] {
        assert_eq!(days(day, 20240301), Days { number: 1, detail: 0, days: 0 });
        assert_eq!(days(20240301, day), Days { number: 1, detail: 0, days: 0 });
    }
}
