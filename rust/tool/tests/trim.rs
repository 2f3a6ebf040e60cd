//! `trim`: both files or none, what stays, and the chains after it.

mod common;

use common::{Bench, MADE};

const NOON: &str = "20261115120000";

fn packed(name: &str) -> Bench {
    let bench = Bench::new(name);
    bench.pack("today");
    bench
}

fn there(bench: &Bench, name: &str) -> bool {
    bench.folder.join(name).exists()
}

fn trim(at: &str) -> String {
    format!("trim today.image new.image --at {at} --table today.table --table-out new.table")
}

#[test]
fn nothing_is_written_on_a_refusal() {
    let bench = packed("trim-refused");
    bench.write("short.table", b"11\n00\n");
    bench.write("two.table", &[2; 169]);
    let mut broken = bench.read("today.image");
    broken.remove(0);
    bench.write("broken.image", &broken);
    let with = |image: &str, table: &str, at: &str| {
        format!("trim {image} new.image --at {at} --table {table} --table-out new.table")
    };
    for (line, number, words) in [
        (with("today.image", "short.table", NOON), 1, "13 places, so 169 are wanted"),
        (with("today.image", "two.table", NOON), 1, "neither 0 nor 1"),
        (with("today.image", "today.table", "20261115240000"), 1, "no time HHMMSS"),
        (with("today.image", "today.table", "20261131000000"), 1, "not a real day"),
        (with("broken.image", "short.table", "0"), 5, "rule 5"),
    ] {
        let run = bench.status(&line, number);
        assert!(
            run.out.contains(&format!("REFUSED  {number}, detail")) && run.out.contains(words),
            "{line}: {}",
            run.out
        );
        assert!(run.out.contains("not written"), "{line}: {}", run.out);
        bench.status(&format!("{line} --dry-run"), number);
    }
    assert!(!there(&bench, "new.image") && !there(&bench, "new.table"));
}

#[test]
fn wrong_usage_and_no_input() {
    let bench = packed("trim-usage");
    for line in [
        "trim today.image new.image --table today.table --table-out new.table",
        "trim today.image new.image --at 20261115120000 --table-out new.table",
        "trim today.image new.image --at 20261115120000 --table today.table",
        "trim today.image --at 20261115120000 --table today.table --table-out new.table",
        "trim today.image new.image --at noon --table today.table --table-out new.table",
        "trim today.image new.image --at 20261115120000 --table today.table --table-out new.image",
        "trim today.image new.image --at 20261115120000 --table today.table --table-out new.table --dry",
    ] {
        let run = bench.status(line, 64);
        assert!(run.out.is_empty() && run.err.contains("--help"), "{line}: {}{}", run.out, run.err);
    }
    bench.status("trim no.image new.image --at 20261115120000 --table today.table --table-out new.table", 66);
    bench.status("trim today.image new.image --at 20261115120000 --table no.table --table-out new.table", 66);
    assert!(!there(&bench, "new.image") && !there(&bench, "new.table"));
}

#[test]
fn both_files_or_none() {
    let bench = packed("trim-both");
    bench.status(&format!("{} --dry-run", trim(NOON)), 0);
    assert!(!there(&bench, "new.image") && !there(&bench, "new.table"));
    bench.write("new.table", b"old");
    let run = bench.status(&trim(NOON), 73);
    assert!(run.err.contains("--force"), "{}", run.err);
    assert!(!there(&bench, "new.image"));
    bench.write("new.image", b"old");
    std::fs::remove_file(bench.folder.join("new.table")).unwrap();
    bench.status(&trim(NOON), 73);
    assert!(!there(&bench, "new.table") && bench.read("new.image") == b"old");
    bench.status(&format!("{} --force", trim(NOON)), 0);
    bench.status("image new.image", 0);
    let no_folder = "trim today.image other.image --at 20261115120000 --table today.table --table-out no/such.table";
    bench.status(no_folder, 73);
    assert!(!there(&bench, "other.image"));
    let twice = "trim today.image new.image --at 20261115120000 --table today.table --table-out ./new.image --force";
    bench.status(twice, 64);
    let left: Vec<_> = std::fs::read_dir(&bench.folder).unwrap().map(|file| file.unwrap().file_name()).collect();
    assert!(left.iter().all(|name| !name.to_string_lossy().contains(".tmp")), "{left:?}");
}

#[test]
fn the_table_keeps_its_form() {
    let bench = packed("trim-form");
    bench.status(&trim(NOON), 0);
    let digits = bench.read("new.table");
    let bytes: Vec<u8> =
        bench.read("today.table").iter().filter(|b| b.is_ascii_digit()).map(|digit| digit - b'0').collect();
    bench.write("bytes.table", &bytes);
    bench.status("trim today.image two.image --at 20261115120000 --table bytes.table --table-out two.table", 0);
    assert_eq!(bench.read("two.image"), bench.read("new.image"));
    let cut: Vec<u8> = digits.iter().filter(|b| b.is_ascii_digit()).map(|digit| digit - b'0').collect();
    assert_eq!(bench.read("two.table"), cut);
    assert_eq!(digits.split(|b| *b == b'\n').next().map(<[u8]>::len), Some(12));
    // Everything goes: an image without items, and a table without verdicts.
    let all = "trim today.image none.image --at 20991231235959 --table today.table --table-out none.table";
    assert!(bench.status(all, 0).out.contains("13 of 13 items go"));
    assert_eq!((bench.read("none.image").len(), bench.read("none.table").len()), (12, 0));
}

/// The chains of a JSON answer, by the signers' subjects.
fn chains(bench: &Bench, image: &str, table: &str, at: &str) -> Vec<String> {
    let run = bench.line(&format!("chain {image} --table {table} --at {at} --signer all"));
    run.out.lines().filter(|line| line.contains("PASSED")).map(str::to_string).collect()
}

#[test]
fn chains_are_the_same_under_new_places() {
    let bench = packed("trim-chains");
    bench.status(&trim(NOON), 0);
    // Place 9 went: what stood behind it has a number less.
    let before = chains(&bench, "today.image", "today.table", NOON);
    let after = chains(&bench, "new.image", "new.table", NOON);
    assert_eq!(before.len(), 4);
    let renumbered: Vec<String> = before.iter().map(|line| line.replace("10", "9")).collect();
    assert_eq!(after, renumbered);
    // Again at the same moment changes nothing.
    let again = "trim new.image again.image --at 20261115120000 --table new.table --table-out again.table";
    assert!(bench.status(again, 0).out.contains("0 of 12 items go"));
    assert_eq!(bench.read("again.image"), bench.read("new.image"));
    assert_eq!(bench.read("again.table"), bench.read("new.table"));
}

#[test]
fn what_fails_goes() {
    let bench = Bench::new("trim-fails");
    let items = format!("--anchor {MADE}/xo-anchor-1.der --signer {MADE}/ut-anchor-1.der --crl {MADE}/xo-crl.der");
    bench.status(&format!("pack small.image --day 20261115 --version 2 {items}"), 0);
    bench.write("small.table", b"101\n000\n000\n");
    let line = "trim small.image new.image --at 20261115120000 --table small.table --table-out new.table";
    let run = bench.status(line, 0);
    assert!(run.out.contains("does not pass its profile: 4, detail 9"), "{}", run.out);
    assert_eq!(bench.read("new.table"), b"11\n00\n");
    bench.status("image new.image --letters", 0);
}
