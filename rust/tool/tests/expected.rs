//! Outputs held to the stored texts in `tests/expected`. With VRBOLIST_STORE set the texts are written anew.

mod common;

use common::{Bench, Run, MADE};
use std::path::Path;

fn held(name: &str, run: &Run) {
    let path = Path::new(env!("CARGO_MANIFEST_DIR")).join("tests/expected").join(name);
    let told = format!("{}{}exit status {}\n", run.out, run.err, run.status.unwrap());
    if std::env::var_os("VRBOLIST_STORE").is_some() {
        std::fs::write(&path, &told).unwrap();
    }
    assert_eq!(std::fs::read_to_string(&path).unwrap_or_default(), told, "{name}");
    let code = name.contains("json");
    assert!(!code || common::json::sound(&run.out), "{name} is not JSON");
    assert!(code || told.lines().all(|line| line.chars().count() <= 100), "{name} is wider than 100 columns");
}

#[test]
fn items() {
    let bench = Bench::new("expected-items");
    held("item-anchor.txt", &bench.line(&format!("item {MADE}/xo-anchor-1.der --as anchor")));
    held("item-signer.txt", &bench.line(&format!("item {MADE}/ut-signer-4.der --as signer")));
    held("item-crl.txt", &bench.line(&format!("item {MADE}/ut-crl-today.der --as crl")));
    held("item-json.txt", &bench.line(&format!("item {MADE}/ut-link-12.der --as link --json")));
    held("item-crl-json.txt", &bench.line(&format!("item {MADE}/xo-crl.der --as crl --json")));
    held("item-refused.txt", &bench.line(&format!("item {MADE}/ut-signer-1.der --as anchor")));
    held("item-refused-json.txt", &bench.line(&format!("item {MADE}/ut-signer-1.der --as crl --json")));
    let mut cut = std::fs::read(common::root().join(MADE).join("ut-link-23.der")).unwrap();
    cut.truncate(400);
    bench.write("cut.der", &cut);
    held("item-cut.txt", &bench.line("item cut.der --as link"));
}

/// An item with the two types of its document type list exchanged.
fn turned(item: &[u8]) -> Vec<u8> {
    let types = b"\x13\x01P\x13\x02ID";
    let at = item.windows(types.len()).position(|part| part == types).unwrap();
    let mut item = item.to_vec();
    item[at..at + types.len()].rotate_left(3);
    item
}

#[test]
fn trees() {
    let bench = Bench::new("expected-trees");
    held("walk.txt", &bench.line(&format!("walk {MADE}/ut-crl-today.der")));
    bench.write("fault.der", &[0x30, 0x0b, 0x30, 0x06, 0x01, 0x01, 0xff, 0x01, 0x01, 0x05, 0x02, 0x01, 0x07]);
    held("walk-fault.txt", &bench.line("walk fault.der"));
    held("walk-json.txt", &bench.line("walk fault.der --json"));
    bench.write("set.der", &[0x31, 0x0d, 0x13, 0x01, 0x50, 0x13, 0x02, 0x49, 0x44, 0x13, 0x02, 0x41, 0x43, 0x05, 0x00]);
    held("walk-set.txt", &bench.line("walk set.der"));
    held("walk-set-json.txt", &bench.line("walk set.der --json"));
    let signer = std::fs::read(common::root().join(MADE).join("ut-signer-5.der")).unwrap();
    bench.write("types.der", &turned(&signer));
    held("item-types.txt", &bench.line("item types.der --as signer"));
}

#[test]
fn images() {
    let bench = Bench::new("expected-images");
    held("pack.txt", &bench.pack("yesterday"));
    held("image.txt", &bench.line("image yesterday.image --day 20261114"));
    held("image-stale.txt", &bench.line("image yesterday.image --day 20261115"));
    held("image-stale-json.txt", &bench.line("image yesterday.image --day 20261115 --json"));
    held("unpack.txt", &bench.line("unpack yesterday.image items"));
    let small = format!("--anchor {MADE}/xo-anchor-1.der --signer {MADE}/ut-anchor-1.der");
    held("pack-json.txt", &bench.line(&format!("pack small.image --day 20261115 --json {small}")));
    held("image-json.txt", &bench.line("image small.image --json"));
    held("image-broken.txt", &bench.line("image small.image"));
    held("unpack-json.txt", &bench.line("unpack small.image small --json"));
}

#[test]
fn versions() {
    let bench = Bench::new("expected-versions");
    bench.pack("yesterday");
    held("convert.txt", &bench.line("convert yesterday.image two.image --to 2"));
    held("convert-again.txt", &bench.line("convert two.image three.image --to 2"));
    held("convert-back-json.txt", &bench.line("convert two.image one.image --to 1 --json"));
    held("image-letters.txt", &bench.line("image two.image --letters"));
    held("image-letters-refused.txt", &bench.line("image one.image --letters"));
    let small =
        format!("--anchor {MADE}/xo-anchor-1.der --signer {MADE}/ut-anchor-1.der --crl {MADE}/ut-crl-today.der");
    held("pack-2.txt", &bench.line(&format!("pack small.image --day 20261115 --version 2 {small}")));
    let mut bad = bench.read("small.image");
    let index = bad.len() - 12 - 3 * 12;
    bad[index + 8..index + 10].copy_from_slice(b"UT");
    bad[index + 20..index + 22].copy_from_slice(b"UT");
    bad[index + 32..index + 34].copy_from_slice(&[0x7f, 0]);
    bench.write("bad.image", &bad);
    held("image-letters-false.txt", &bench.line("image bad.image --letters"));
    held("image-letters-json.txt", &bench.line("image bad.image --letters --json"));
    held("anchors.txt", &bench.line("anchors yesterday.image --country UT"));
    held("anchors-none.txt", &bench.line("anchors yesterday.image --country AB"));
    held("anchors-by-index.txt", &bench.line("anchors two.image --country XO --by-index"));
    held("anchors-json.txt", &bench.line("anchors two.image --country XO --by-index --json"));
    held("anchors-no-letters.txt", &bench.line("anchors two.image --country ut"));
    held("anchors-version-1.txt", &bench.line("anchors yesterday.image --country UT --by-index"));
    held("anchors-false.txt", &bench.line("anchors bad.image --country UT --by-index"));
    held("anchors-false-json.txt", &bench.line("anchors bad.image --country UT --by-index --json"));
}

#[test]
fn trimming() {
    let bench = Bench::new("expected-trimming");
    bench.pack("today");
    let trim = |at: &str, more: &str| {
        bench.line(&format!("trim today.image new.image --at {at} --table today.table --table-out new.table {more}"))
    };
    held("trim-dry.txt", &trim("20261201060001", "--dry-run"));
    held("trim.txt", &trim("20261115120000", ""));
    held("trim-json.txt", &trim("20261115120000", "--json --force"));
    held("trim-refused.txt", &trim("20261115240000", "--force"));
    held("trim-refused-json.txt", &trim("20261115240000", "--json"));
}

#[test]
fn chains() {
    let bench = Bench::new("expected-chains");
    bench.pack("today");
    let ask = |signer: &str| {
        bench.line(&format!("chain today.image --table today.table --at 20261115120000 --signer {signer}"))
    };
    held("chain.txt", &ask("8"));
    held("chain-none.txt", &ask("7"));
    held("chain-all.txt", &ask("all"));
    held("chain-json.txt", &ask("8 --json"));
    held("chain-none-json.txt", &ask("7 --json"));
    let early = "chain today.image --table today.table --at 20261110235959 --signer 8";
    held("chain-early.txt", &bench.line(early));
}

#[test]
fn proposals() {
    let bench = Bench::new("expected-proposals");
    bench.pack("today");
    let ask = |rest: &str| bench.line(&format!("propose today.image --table today.table --at 20261115120000 {rest}"));
    held("propose.txt", &ask("--signer 8 --chain 1,3,8"));
    held("propose-json.txt", &ask("--signer 8 --chain 0,4,3,8 --json"));
    held("propose-step.txt", &ask("--signer 8 --chain 0,3,8"));
    held("propose-step-json.txt", &ask("--signer 8 --chain 0,3,8 --json"));
    held("propose-listed.txt", &ask("--signer 7 --chain 1,7"));
    held("propose-order.txt", &ask("--signer 8 --chain 3,1,8"));
    held("propose-end.txt", &ask("--signer 8 --chain 1,3,6"));
    held("propose-range.txt", &ask("--signer 8 --chain 1,13"));
    held("propose-one.txt", &ask("--signer 8 --chain 8"));
}

#[test]
fn trays() {
    let bench = Bench::new("expected-trays");
    held("tray-append.txt", &bench.line("tray night.log --append --open 20261115 --load 20261114 --burn 1-40"));
    held("tray-stale.txt", &bench.line("tray night.log"));
    let more = "--load 20261115 --burn 1-20 --burn 7 --open 20261114 --open 20261231 --burn 1 --burn 41";
    held("tray-more-json.txt", &bench.line(&format!("tray night.log --append {more} --json")));
    held("tray-json.txt", &bench.line("tray night.log --json"));
    let good = "--open 20261115 --load 20261115 --burn 1-3 --burn 7 --open 20261115 --burn 3";
    bench.line(&format!("tray good.log --append {good}"));
    held("tray-good.txt", &bench.line("tray good.log"));
    bench.write("cut.log", &[1, 0, 0, 0, 1]);
    held("tray-cut.txt", &bench.line("tray cut.log"));
    bench.write("every.log", &every_fault());
    held("tray-every-fault.txt", &bench.line("tray every.log"));
}

/// A log with each fault, in the order of the rules.
fn every_fault() -> Vec<u8> {
    let day = |number: u32| number.to_be_bytes();
    let record =
        |action: u8, unit: u8, zeros: [u8; 2], [a, b, c, d]: [u8; 4]| [action, unit, zeros[0], zeros[1], a, b, c, d];
    [
        record(3, 1, [0, 0], day(0)),
        record(3, 1, [0, 0], day(20261115)),
        record(1, 1, [0, 0], day(20261115)),
        record(1, 0, [0, 1], day(20261115)),
        record(1, 0, [0, 0], day(20260229)),
        record(1, 0, [0, 0], day(20261115)),
        record(3, 1, [0, 0], day(0)),
        record(2, 0, [0, 0], day(19491231)),
        record(2, 9, [0, 0], day(20261115)),
        record(2, 0, [0, 0], day(20261114)),
        record(3, 1, [0, 0], day(0)),
        record(2, 0, [0, 0], day(20261115)),
        record(3, 0, [0, 0], day(0)),
        record(3, 41, [0, 0], day(0)),
        record(3, 40, [0, 0], day(0)),
        record(3, 40, [0, 0], day(0)),
        record(3, 1, [0, 0], day(1)),
        record(1, 0, [0, 0], day(20261114)),
        record(4, 0, [0, 0], day(0)),
        record(0, 0, [0, 0], day(0)),
    ]
    .concat()
}

#[test]
fn days_and_demo() {
    let bench = Bench::new("expected-days");
    held("days.txt", &bench.line("days 20210101 20201231"));
    held("days-json.txt", &bench.line("days 19500101 20991231 --json"));
    held("days-refused.txt", &bench.line("days 20230229 20240301"));
    held("age.txt", &bench.line(&format!("age {MADE}/ut-crl-yesterday.der 20261115")));
    held("age-json.txt", &bench.line(&format!("age {MADE}/ut-crl-yesterday.der 20261115 --json")));
    held("demo.txt", &bench.line("demo"));
    held("demo-json.txt", &bench.line("demo --json"));
    held("help.txt", &bench.line("--help"));
}
