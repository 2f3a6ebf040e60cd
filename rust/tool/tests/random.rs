//! Random files and argument lists: the status is always one of the documented ones, and the library's where it was asked.

mod common;

use common::Bench;
use make::questions::{Question, Source};
use make::random::Random;

const STATUSES: [i32; 12] = [0, 1, 2, 3, 4, 5, 6, 7, 64, 65, 66, 73];
const KINDS: [&str; 4] = ["anchor", "link", "signer", "crl"];

#[test]
fn questions_get_the_answer_of_the_library() {
    let bench = Bench::new("questions");
    let mut source = Source::new(2026);
    let mut asked = 0;
    while asked < 150 {
        let (line, file, number) = match source.next() {
            Question::Walk(item) => ("walk x".to_string(), item.clone(), vrbolist::walk(&item).err()),
            Question::Certificate(item, role @ 1..=3) => {
                let line = format!("item x --as {}", KINDS[role as usize - 1]);
                (line, item.clone(), vrbolist::certificate(&item, role).err())
            }
            Question::Crl(item) => ("item x --as crl".to_string(), item.clone(), vrbolist::crl(&item).err()),
            Question::Days(a, b) => (format!("days {a} {b}"), Vec::new(), vrbolist::day_difference(a, b).err()),
            Question::Age(item, day) => (format!("age x {day}"), item.clone(), vrbolist::crl_age(&item, day).err()),
            Question::Image(image) => ("image x".to_string(), image.clone(), vrbolist::image(&image).err()),
            Question::ImageForDay(image, day) => {
                (format!("image x --day {day}"), image.clone(), vrbolist::image_for_day(&image, day).err())
            }
            Question::MoveTo2(image, _) => {
                let told = vrbolist::move_to_2(&image, &mut [0; 262_144]).err();
                ("convert x y --to 2 --force".to_string(), image, told)
            }
            Question::MoveTo1(image, _) => {
                let told = vrbolist::move_to_1(&image, &mut [0; 262_144]).err();
                ("convert x y --to 1 --force".to_string(), image, told)
            }
            Question::Room { image, table, moment, .. } => {
                let told = vrbolist::make_room(&image, &table, moment, &mut [0; 262_144], &mut [0; 9_216]).err();
                bench.write("t", &table);
                (format!("trim x y --at {moment} --table t --table-out u --force"), image, told)
            }
            Question::Letters(image) if !matches!(vrbolist::letters(&image), Ok(false)) => {
                let told = vrbolist::image(&image).err().or(vrbolist::letters(&image).err());
                ("image x --letters".to_string(), image, told)
            }
            Question::Anchors(image, first, second) => {
                let Some(country) = word(first, second) else { continue };
                let told = vrbolist::anchors(&image, country).err();
                (format!("anchors x --country {}", String::from_utf8_lossy(&country)), image, told)
            }
            _ => continue,
        };
        bench.write("x", &file);
        let run = bench.status(&line, number.map_or(0, |refusal| refusal.number as i32));
        let told = number.map(|refusal| format!("REFUSED  {}, detail {}:", refusal.number, refusal.detail));
        assert!(told.map_or(true, |told| run.out.contains(&told)), "{line}: {}", run.out);
        asked += 1;
    }
}

/// The letters as a word, where they are characters that stand in one.
fn word(first: u64, second: u64) -> Option<[u8; 2]> {
    let country = [u8::try_from(first).ok()?, u8::try_from(second).ok()?];
    country.iter().all(u8::is_ascii_alphanumeric).then_some(country)
}

fn words(random: &mut Random) -> Vec<Vec<u8>> {
    const WORDS: [&str; 49] = [
        "item",
        "walk",
        "image",
        "pack",
        "unpack",
        "convert",
        "trim",
        "anchors",
        "chain",
        "propose",
        "days",
        "age",
        "demo",
        "help",
        "--help",
        "--json",
        "--force",
        "--as",
        "anchor",
        "crl",
        "--day",
        "20261115",
        "--anchor",
        "--disabled-anchor",
        "--crl",
        "--table",
        "--at",
        "20261115120000",
        "--signer",
        "--chain",
        "0,3",
        "all",
        "--version",
        "--to",
        "--table-out",
        "--dry-run",
        "--letters",
        "--country",
        "UT",
        "--by-index",
        "2",
        "3",
        "x",
        "y",
        "--",
        "--day=5",
        "-",
        "",
        "99999999999999999999",
    ];
    let mut out: Vec<Vec<u8>> = Vec::new();
    for place in 0..random.between(1, 9) {
        out.push(match random.below(12) {
            0 => random.octets(5).into_iter().filter(|b| *b != 0 && *b != b'/').collect(),
            _ if place == 0 => WORDS[random.below(13)].into(),
            _ => WORDS[random.below(WORDS.len())].into(),
        });
    }
    out
}

/// Bytes, something stored with a few bytes changed, or a PEM of such.
fn file(random: &mut Random, source: &mut Source) -> Vec<u8> {
    let size = *random.pick(&[0, 1, 12, 20, 300, 20_000]);
    match random.below(6) {
        0 => random.octets(size),
        1 => random.octets(size).into_iter().map(|b| b'0' + b % 2).collect(),
        2 => common::pem("X509 CRL", &source.item()).into_bytes(),
        3 => source.image(),
        4 => source.crl(),
        _ => {
            let mut item = source.certificate_item().1;
            make::change::change(&mut item, random);
            item
        }
    }
}

#[test]
fn random_files_and_words_never_crash() {
    use std::os::unix::ffi::OsStringExt;
    let bench = Bench::new("random");
    let mut random = Random::new(99);
    let mut source = Source::new(98);
    let mut seen = std::collections::BTreeSet::new();
    for turn in 0..150 {
        bench.write("x", &file(&mut random, &mut source));
        let line: Vec<std::ffi::OsString> = match turn % 3 {
            0 => {
                let command = *random.pick(&[
                    "walk x",
                    "image x --letters",
                    "anchors x --country UT --by-index",
                    "item x --as crl",
                    "item x --as anchor",
                    "age x 20261115",
                ]);
                let json = if random.percent(30) { " --json" } else { "" };
                format!("{command}{json}").split_whitespace().map(Into::into).collect()
            }
            1 => {
                bench.write("y", &file(&mut random, &mut source));
                let line = "chain x --table y --at 20261115120000 --signer all --json";
                line.split_whitespace().map(Into::into).collect()
            }
            _ => words(&mut random).into_iter().map(std::ffi::OsString::from_vec).collect(),
        };
        let run = bench.run(&line);
        let status = run.status.unwrap_or(-1);
        let object = line.iter().any(|word| word == "--json") && run.out.starts_with('{');
        assert!(!object || common::json::sound(&run.out), "{line:?}: {}", run.out);
        assert!(STATUSES.contains(&status), "{line:?}: status {status}\n{}", run.err);
        assert!(!run.err.contains("panicked"), "{line:?}\n{}", run.err);
        seen.insert(status);
    }
    assert!(seen.len() > 5, "{seen:?}");
}
