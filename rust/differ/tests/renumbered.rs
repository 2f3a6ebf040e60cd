//! After room is made the library shows the same chains under new numbers, at the moment and at later ones.

#![forbid(unsafe_code)]

use make::questions::{Question, Source};
use make::time::second_after;
use vrbolist::{Refusal, RECORD};

const SEED: u64 = 5;
const MADE: usize = 400;

/// Of each place of an image its chain, empty where it has none.
fn chains(image: &[u8], table: &[u8], moment: u64) -> Vec<Vec<u8>> {
    let mut out = vec![0; 96 * RECORD];
    let records = vrbolist::all_signers(image, table, moment, &mut out).expect("a good image, table and moment");
    records.chunks_exact(RECORD).map(|record| record[1..][..record[0] as usize].to_vec()).collect()
}

/// The new number of each place that stays at a moment: how many before it stay.
fn numbers(image: &[u8], moment: u64) -> Vec<Option<u8>> {
    let mut next = 0..;
    let stays = |place: u64| {
        let entry = vrbolist::entry(image, place).expect("a place that is there");
        let last = match entry.kind {
            4 => vrbolist::crl(entry.item).map(|told| told.next_update),
            role => vrbolist::certificate(entry.item, role).map(|told| told.end),
        };
        last.is_ok_and(|last| moment <= last)
    };
    let entries = vrbolist::image(image).expect("a good image").entries;
    (0..entries).map(|place| if stays(place) { next.next() } else { None }).collect()
}

#[test]
fn chains_are_the_same_under_new_numbers() {
    let mut source = Source::new(SEED);
    let (mut made, mut shown, mut went) = (0, 0, 0);
    while made < MADE {
        let Question::Room { image, table, moment, .. } = source.next() else { continue };
        let (mut out, mut table_out) = (vec![0; image.len()], vec![0; table.len()]);
        let Ok(room) = vrbolist::make_room(&image, &table, moment, &mut out, &mut table_out) else { continue };
        made += 1;
        let numbers = numbers(&image, moment);
        assert_eq!(numbers.iter().flatten().count() as u64, room.entries);
        went += numbers.iter().filter(|number| number.is_none()).count();
        for at in [moment, second_after(moment), 20240301120000, 20241231235959, 20300101000000, 20991231235959] {
            if at < moment {
                continue;
            }
            let (before, after) = (chains(&image, &table, at), chains(room.image, room.table, at));
            for (place, chain) in before.iter().enumerate() {
                let renumbered: Option<Vec<u8>> = chain.iter().map(|step| numbers[*step as usize]).collect();
                match numbers[place] {
                    Some(number) => assert_eq!(renumbered.as_ref(), Some(&after[number as usize])),
                    None => assert!(chain.is_empty()),
                }
                shown += chain.len();
            }
        }
    }
    assert!(shown > 1_000 && went > 1_000, "{shown} places in chains, {went} items went");
}

/// Room made twice at one moment is room made once.
#[test]
fn twice_is_once() {
    let mut source = Source::new(SEED);
    let mut made = 0;
    while made < MADE {
        let Question::Room { image, table, moment, .. } = source.next() else { continue };
        let (mut out, mut table_out) = (vec![0; image.len()], vec![0; table.len()]);
        let Ok(room) = vrbolist::make_room(&image, &table, moment, &mut out, &mut table_out) else { continue };
        made += 1;
        let (mut again, mut table_again) = (vec![0; room.image.len()], vec![0; room.table.len()]);
        assert_eq!(vrbolist::make_room(room.image, room.table, moment, &mut again, &mut table_again), Ok(room));
        if let [_, short @ ..] = &mut again[..] {
            let told = vrbolist::make_room(room.image, room.table, moment, short, &mut table_again);
            assert_eq!(told, Err(Refusal { number: 9, detail: 0 }));
        }
    }
}
