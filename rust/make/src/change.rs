//! Small changes of an item.

use crate::random::Random;

/// Changes, cuts or lengthens an item in one place, sometimes in two.
pub fn change(item: &mut Vec<u8>, random: &mut Random) {
    let times = if random.percent(85) { 1 } else { 2 };
    for _ in 0..times {
        change_once(item, random);
    }
}

fn change_once(item: &mut Vec<u8>, random: &mut Random) {
    if item.is_empty() {
        return item.push(random.octet());
    }
    let at = random.below(item.len());
    match random.below(13) {
        0..=2 => item[at] = random.octet(),
        3..=4 => item[at] ^= 1 << random.below(8),
        5 => item[at] = item[at].wrapping_add(1),
        6 => item[at] = item[at].wrapping_sub(1),
        7 => item[at] = *random.pick(&[0x00, 0x80, 0xFF, 0x30, 0x31, 0x1F, 0x81, 0x82, 0x7F]),
        8 => item.truncate(at),
        9 => {
            let octet = random.octet();
            item.push(octet)
        }
        10 => item.insert(at, *random.pick(&[0x00, 0x05, 0x30, 0x80, 0xFF])),
        11 => exchange(item, random),
        _ => {
            item.remove(at);
        }
    }
}

/// Exchanges the first two members of a SET, of those that seem to be there.
fn exchange(item: &mut [u8], random: &mut Random) {
    let pairs: Vec<_> = (0..item.len()).filter_map(|at| pair(item, at)).collect();
    if !pairs.is_empty() {
        let (from, second, end) = *random.pick(&pairs);
        item[from..end].rotate_left(second - from);
    }
}

/// Where the first two members of a SET start and end, all lengths short.
fn pair(item: &[u8], at: usize) -> Option<(usize, usize, usize)> {
    let after = |from: usize| Some(from + 2 + usize::from(*item.get(from + 1)?));
    let (second, end) = (after(at + 2)?, after(after(at + 2)?)?);
    (item[at] == 0x31 && end <= item.len() && after(at)? >= end).then_some((at + 2, second, end))
}
