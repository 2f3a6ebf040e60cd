//! Every exit status, and files that are missing, empty, long, not DER or PEM.

mod common;

use common::{pem, root, Bench, MADE};
use std::io::Write;
use std::process::Stdio;

fn made(name: &str) -> Vec<u8> {
    std::fs::read(root().join(MADE).join(name)).unwrap()
}

#[test]
fn passes() {
    let bench = Bench::new("passes");
    for row in std::fs::read_to_string(root().join(MADE).join("places.tsv")).unwrap().lines().skip(1) {
        let row: Vec<&str> = row.split('\t').collect();
        let kind = ["anchor", "link", "signer", "crl"][row[3].parse::<usize>().unwrap() - 1];
        bench.status(&format!("item {MADE}/{} --as {kind}", row[5]), 0);
    }
    bench.status("--help", 0);
    bench.status("--version", 0);
    bench.status("help pack", 0);
    bench.status("days --help", 0);
    bench.status("demo", 0);
}

#[test]
fn refusal_1_arguments() {
    let bench = Bench::new("arguments");
    bench.pack("today");
    for line in [
        "days 20230229 20230301",
        "days 19491231 20230301",
        "days 20230301 21000101",
        "days 18446744073709551615 0",
        "image today.image --day 20261131",
        "pack bad.image --day 20261131",
        "age tests/data/made/xo-crl.der 0",
        "chain today.image --table today.table --at 20261115240000 --signer 5",
        "chain today.image --table today.table --at 20261115 --signer 5",
        "chain today.image --table today.table --at 20261115120000 --signer 4",
        "chain today.image --table today.table --at 20261115120000 --signer 13",
        "chain today.image --table tests/data/made/ut-anchor-1.der --at 20261115120000 --signer 5",
        "anchors today.image --country ut",
        "anchors today.image --country U[",
        "anchors today.image --country @T",
        "anchors today.image --country ut --by-index",
        "anchors tests/data/made/ut-anchor-1.der --country 00",
        "propose today.image --table today.table --at 20261115240000 --signer 8 --chain 1,3,8",
        "propose today.image --table today.table --at 20261115120000 --signer 4 --chain 0,4",
        "propose today.image --table today.table --at 20261115120000 --signer 8 --chain 8",
        "propose today.image --table today.table --at 20261115120000 --signer 8 --chain=",
        "propose today.image --table today.table --at 20261115120000 --signer 8 --chain 1,13",
        "propose today.image --table today.table --at 20261115120000 --signer 8 --chain 1,300,8",
    ] {
        let run = bench.status(line, 1);
        assert!(run.out.contains("REFUSED  1, detail 0"), "{line}: {}", run.out);
        assert!(run.out.lines().count() > 1, "{line} is not explained: {}", run.out);
    }
    assert!(!bench.folder.join("bad.image").exists());
    bench.write("empty.der", &[]);
    let run = bench.status("pack bad.image --day 20261115 --crl empty.der", 1);
    assert!(run.out.contains("place 0"), "{}", run.out);
    let many = "--crl tests/data/made/xo-crl.der ".repeat(97);
    let run = bench.status(&format!("pack bad.image --day 20261115 {many}"), 1);
    assert!(run.out.contains("97 items"), "{}", run.out);
    bench.status("pack none.image --day 20261115", 0);
    let run = bench.status("chain none.image --table empty.der --at 20261115120000 --signer all", 1);
    assert!(run.out.contains("no document signer"), "{}", run.out);
}

#[test]
fn refusals_2_and_3_of_bytes() {
    let bench = Bench::new("bytes");
    let cases: &[(&[u8], i32, u64, &str)] = &[
        (&[], 2, 0, "the file is empty"),
        (&[0x30], 2, 0, "the length octet is missing"),
        (&[0x30, 0x80], 2, 0, "indefinite"),
        (&[0x30, 0x81, 3, 2, 1, 5], 2, 0, "needs one octet"),
        (&[0x30, 0x82, 0, 3, 2, 1, 5], 2, 0, "needs fewer octets"),
        (&[0x30, 0x81], 2, 0, "length octets are missing"),
        (&[0x30, 0x83, 0, 0, 1], 2, 0, "length form 83"),
        (&[0x30, 3, 2, 2, 5], 2, 2, "has only 1 byte left"),
        (&[5, 0, 0], 2, 2, "1 byte follows"),
        (&[2, 2, 0, 0x7f], 2, 0, "nine bits"),
        (&[2, 0], 2, 0, "at least one octet"),
        (&[3, 2, 7, 0x81], 2, 0, "unused bits"),
        (&[1, 1, 1], 2, 0, "00 or FF"),
        (&[5, 1, 0], 2, 0, "no contents"),
        (&[6, 1, 0x80], 2, 0, "OBJECT IDENTIFIER"),
        (&[0x1f, 0x20, 0], 2, 0, "several octets"),
        (&[0, 0], 2, 0, "universal tag 0"),
        (&[0x10, 0], 2, 0, "must be constructed"),
        (&[0x22, 0], 2, 0, "must be primitive"),
        (&[0x31, 6, 0x13, 1, 0x50, 0x13, 1, 0x44], 2, 5, "below member 1 at byte 2, 13 01 50"),
        (&[0x31, 6, 2, 1, 5, 1, 1, 5], 2, 5, "octet 1 differs first"),
        (&[0x31, 6, 1, 1, 0, 1, 1, 5], 2, 5, "00 or FF"),
        (&[0x30, 8, 0x31, 6, 5, 0, 5, 0, 4, 0], 2, 8, "SET at byte 2 member 3, 04 00"),
    ];
    for (bytes, number, at, words) in cases {
        bench.write("x.der", bytes);
        let run = bench.status("walk x.der", *number);
        assert!(run.out.contains(&format!("At byte {at} (hex {at:x}):")), "{bytes:02x?}: {}", run.out);
        assert!(run.out.contains(words), "{bytes:02x?}: {}", run.out);
        bench.status("item x.der --as anchor", *number);
        bench.status("age x.der 20261115", *number);
    }
    let limits: [(Vec<u8>, &str); 3] = [
        (make::der::nested(17), "depth 17"),
        (make::der::sequence(&vec![&[5u8, 0][..]; 4096]), "element 4,097"),
        (vec![0x30; 16_385], "16385 bytes"),
    ];
    for (bytes, words) in limits {
        bench.write("x.der", &bytes);
        let run = bench.status("walk x.der", 3);
        assert!(run.out.contains(words), "{}", run.out);
    }
}

#[test]
fn refusal_3_of_an_image() {
    let bench = Bench::new("long-image");
    bench.write("long.der", &vec![0x30; 16_384]);
    let run = bench.status(&format!("pack long.image --day 20261115 {}", "--crl long.der ".repeat(16)), 3);
    assert!(run.out.contains("262,144"), "{}", run.out);
    bench.status(&format!("pack long.image --day 20261115 {}", "--crl long.der ".repeat(15)), 0);
    // Version 1 fits just so, version 2 does not.
    bench.write("rest.der", &vec![0x30; 16_384 - 16 * 8 - 12]);
    let items = format!("--crl rest.der {}", "--crl long.der ".repeat(15));
    bench.status(&format!("pack full.image --day 20261115 {items}"), 0);
    assert_eq!(bench.read("full.image").len(), 262_144);
    let run = bench.status("convert full.image fuller.image --to 2", 3);
    assert!(run.out.contains("262,144"), "{}", run.out);
    bench.status(&format!("pack fuller.image --day 20261115 --version 2 {items}"), 3);
    assert!(!bench.folder.join("fuller.image").exists());
}

#[test]
fn refusal_4_tells_every_rule() {
    let bench = Bench::new("profile");
    let mut random = make::random::Random::new(4);
    for rule in 1..=14 {
        let role = if rule == 13 { 3 } else { 1 };
        let kind = if rule == 13 { "signer" } else { "anchor" };
        let mut item = make::certificate::Certificate::typical(role);
        let ways = make::certificate_breaks::ways(role);
        let way = ways.into_iter().find(|way| way.rule == rule).unwrap();
        (way.apply)(&mut item, &mut random);
        bench.write("x.der", &item.encode());
        let run = bench.status(&format!("item x.der --as {kind}"), 4);
        assert!(run.out.contains(&format!("Broken is rule {rule} of the certificate profile.\n  ")), "{}", run.out);
        assert!(run.out.lines().nth(3).is_some_and(|line| line.len() > 20), "{}", run.out);
    }
    for rule in 1..=8 {
        let mut item = make::crl::Crl::typical(3);
        let way = make::crl_breaks::ways().into_iter().find(|way| way.rule == rule).unwrap();
        (way.apply)(&mut item, &mut random);
        bench.write("x.der", &item.encode());
        let run = bench.status("item x.der --as crl", 4);
        assert!(run.out.contains(&format!("Broken is rule {rule} of the CRL profile.\n  ")), "{}", run.out);
        bench.status("age x.der 20261115", 4);
    }
}

#[test]
fn published_items_get_their_stored_answers() {
    let bench = Bench::new("published");
    let folder = "tests/data/published";
    let rows = std::fs::read_to_string(root().join(folder).join("answers.tsv")).unwrap();
    for row in rows.lines().skip(1) {
        let row: Vec<&str> = row.split('\t').collect();
        let number = row[2].parse().unwrap();
        let run = bench.status(&format!("item {folder}/{} --as {}", row[0], row[1]), number);
        assert!(number == 0 || run.out.contains(&format!("REFUSED  {number}, detail {}:", row[3])), "{}", run.out);
        assert!(run.out.lines().skip(1).all(|line| line.chars().count() <= 100), "{}", run.out);
    }
}

#[test]
fn refusal_5_tells_every_rule() {
    let bench = Bench::new("image-rules");
    bench.pack("today");
    bench.status("convert today.image lettered.image --to 2", 0);
    for (name, width) in [("today.image", 8), ("lettered.image", 12)] {
        let good = bench.read(name);
        let end = good.len();
        let index = end - 12 - 13 * width;
        let mut cases: Vec<(usize, u8, u64)> =
            vec![(end - 5, 3, 2), (end - 7, 97, 3), (end - 1, 99, 4), (end - 9, 0, 5)];
        cases.extend([(end - 5, if width == 8 { 2 } else { 1 }, 5), (index, 9, 6), (index + 1, 2, 6)]);
        cases.extend([(index + 10, 1, 6), (index + 11, 255, 6)].into_iter().filter(|_| width == 12));
        for (at, value, rule) in cases {
            let mut bad = good.clone();
            bad[at] = value;
            bench.write("bad.image", &bad);
            let run = bench.status("image bad.image", 5);
            assert!(run.out.contains(&format!("rule {rule} of the trust image")), "{rule}: {}", run.out);
            bench.status("unpack bad.image items", 5);
            bench.status("image bad.image --letters", 5);
            bench.status("anchors bad.image --country UT", 5);
            bench.status("anchors bad.image --country UT --by-index", 5);
            bench.status("convert bad.image other.image --to 1", 5);
            bench.status("convert bad.image other.image --to 2", 5);
            bench.status("chain bad.image --table today.table --at 20261115120000 --signer all", 5);
        }
    }
    bench.write("bad.image", b"short");
    let run = bench.status("image bad.image", 5);
    assert!(run.out.contains("rule 1 of the trust image"), "{}", run.out);
    bench.write("bad.image", &[&[0u8][..], &[0, 0, 0, 1, 0, 0, 0, 1, 1, 0x34, 0xd7, 0xad]].concat());
    let run = bench.status("image bad.image", 5);
    assert!(run.out.contains("rule 7 of the trust image"), "{}", run.out);
    assert!(!bench.folder.join("items").exists() && !bench.folder.join("other.image").exists());
}

#[test]
fn versions() {
    let bench = Bench::new("versions");
    bench.pack("today");
    bench.status("convert today.image two.image --to 2", 0);
    bench.status("convert two.image one.image --to 1", 0);
    assert_eq!(bench.read("one.image"), bench.read("today.image"));
    assert_eq!(bench.read("two.image").len(), bench.read("one.image").len() + 13 * 4);
    bench.status("image two.image --letters --day 20261115", 0);
    bench.status("image two.image --letters --day 20261114", 6);
    let ask =
        |image: &str| bench.line(&format!("chain {image} --table today.table --at 20261115120000 --signer all")).out;
    assert_eq!(ask("one.image"), ask("two.image"));
    // Each in the version that it has already, and the check of version 1.
    let run = bench.status("convert two.image other.image --to 2", 5);
    assert!(run.out.contains("detail 2") && run.out.contains("of version 2 already"), "{}", run.out);
    let run = bench.status("convert one.image other.image --to 1", 5);
    assert!(run.out.contains("detail 2") && run.out.contains("of version 1 already"), "{}", run.out);
    let run = bench.status("image one.image --letters", 5);
    assert!(run.out.contains("detail 2") && run.out.contains("version has to be 2"), "{}", run.out);
    let run = bench.status("anchors one.image --country UT --by-index", 5);
    assert!(run.out.contains("detail 2") && run.out.contains("version has to be 2"), "{}", run.out);
    bench.status("convert one.image other.image --to 3", 64);
    bench.status("convert one.image two.image --to 2", 73);
    bench.status("convert one.image two.image --to 2 --force", 0);
    let run = bench.status("pack other.image --day 20261115 --version 3", 1);
    assert!(run.out.contains("There is no version 3"), "{}", run.out);
    assert!(!bench.folder.join("other.image").exists());
}

#[test]
fn packed_in_version_2() {
    let bench = Bench::new("packed-2");
    let items =
        format!("--anchor {MADE}/xo-anchor-1.der --signer {MADE}/ut-anchor-1.der --crl {MADE}/ut-crl-today.der");
    bench.status(&format!("pack one.image --day 20261115 --version 1 {items}"), 0);
    bench.status(&format!("pack two.image --day 20261115 --version 2 {items}"), 0);
    bench.status("convert one.image moved.image --to 2", 0);
    assert_eq!(bench.read("two.image"), bench.read("moved.image"));
    let run = bench.status("image two.image --letters", 0);
    assert!(run.out.contains("LETTERS  true"), "{}", run.out);
}

#[test]
fn status_65_letters_that_are_not_true() {
    let bench = Bench::new("letters");
    bench.pack("today");
    bench.status("convert today.image two.image --to 2", 0);
    let good = bench.read("two.image");
    let letters = good.len() - 12 - 13 * 12 + 3 * 12 + 8;
    for (octets, shown) in [(*b"XO", "XO"), ([0, 0], "-"), ([7, 255], "07 FF"), (*b"UV", "UV")] {
        let mut bad = good.clone();
        bad[letters..letters + 2].copy_from_slice(&octets);
        bench.write("bad.image", &bad);
        bench.status("image bad.image", 0);
        let run = bench.status("anchors bad.image --country UT --by-index", 65);
        assert!(run.out.contains("Ask without --by-index") && !run.out.contains("PASSED"), "{}", run.out);
        bench.status("anchors bad.image --country ut --by-index", 1);
        let run = bench.status("anchors bad.image --country UT", 0);
        assert!(run.out.contains("PASSED   2 enabled anchors of UT\n"), "{}", run.out);
        let run = bench.status("image bad.image --letters", 65);
        assert!(run.out.contains("LETTERS  false at 1 of 13 places\n"), "{}", run.out);
        assert!(run.out.contains(&format!("    3  {shown:<5} stands in the index, UT is true\n")), "{}", run.out);
        bench.status("convert bad.image back.image --to 1 --force", 0);
        assert_eq!(bench.read("back.image"), bench.read("today.image"));
    }
}

#[test]
fn refusals_6_and_7() {
    let bench = Bench::new("stale");
    bench.pack("today");
    bench.status("image today.image --day 20261115", 0);
    let run = bench.status("image today.image --day 20261116", 6);
    assert!(run.out.contains("older by 1 day"), "{}", run.out);
    let run = bench.status("image today.image --day 20261113", 6);
    assert!(run.out.contains("later day, by 2 days"), "{}", run.out);
    let run = bench.status("chain today.image --table today.table --at 20261115120000 --signer 7", 7);
    assert!(run.out.contains("is listed by the CRL at place 11"), "{}", run.out);
}

#[test]
fn usage_64() {
    let bench = Bench::new("usage");
    bench.write("ragged.table", b"01\n001\n");
    bench.status("pack none.image --day 20261115", 0);
    for line in [
        "",
        "nothing",
        "item",
        "item a b --as crl",
        "item tests/data/made/xo-crl.der",
        "item tests/data/made/xo-crl.der --as king",
        "item tests/data/made/xo-crl.der --as crl --as crl",
        "item tests/data/made/xo-crl.der --as",
        "walk --deep x",
        "walk -x",
        "days 1",
        "days 1 2 3",
        "days 1 two",
        "days 1 -2",
        "days 1 99999999999999999999999",
        "image x --day today",
        "pack out.image",
        "pack --day 20261115",
        "pack out.image --day 20261115 --version two",
        "pack out.image --day 20261115 --version 1 --version 2",
        "unpack x",
        "anchors none.image",
        "anchors none.image --country",
        "anchors none.image --country U",
        "anchors none.image --country UTO",
        "anchors none.image --country UT --country XO",
        "anchors --country UT",
        "convert none.image out.image",
        "convert none.image --to 2",
        "convert none.image out.image --to 0",
        "convert none.image out.image --to two",
        "chain none.image --table ragged.table --at 1 --signer 1",
        "chain none.image --table ragged.table --at 1 --signer x",
        "chain none.image --table ragged.table --signer 1",
        "chain none.image --at 1 --signer 1",
        "chain none.image --table ragged.table --at 1",
        "age x",
        "demo x",
        "help nothing",
    ] {
        let run = bench.status(line, 64);
        assert!(run.out.is_empty() && run.err.contains("--help"), "{line}: {}{}", run.out, run.err);
    }
}

#[test]
fn no_input_66() {
    let bench = Bench::new("missing");
    bench.pack("today");
    for line in [
        "item no.der --as crl",
        "walk no.der",
        "walk tests",
        "image no.image",
        "pack out.image --day 20261115 --crl no.der",
        "unpack no.image items",
        "convert no.image out.image --to 2",
        "chain no.image --table today.table --at 20261115120000 --signer 5",
        "chain today.image --table no.table --at 20261115120000 --signer 5",
        "age no.der 20261115",
    ] {
        let run = bench.status(line, 66);
        assert!(run.out.is_empty() && run.err.starts_with("vrbolist: "), "{line}: {}{}", run.out, run.err);
    }
    assert!(!bench.folder.join("out.image").exists() && !bench.folder.join("items").exists());
}

#[test]
fn cannot_write_73() {
    let bench = Bench::new("writing");
    bench.pack("today");
    let before = bench.read("today.image");
    let run = bench.status("pack today.image --day 20261116", 73);
    assert!(run.err.contains("--force"), "{}", run.err);
    assert_eq!(bench.read("today.image"), before);
    bench.status("pack today.image --day 20261116 --force", 0);
    assert_eq!(bench.read("today.image").len(), 12);
    bench.status("pack no/such/folder.image --day 20261116", 73);
    bench.status("pack tests --day 20261116", 73);
    bench.status("convert today.image no/such/folder.image --to 2", 73);
    bench.status("convert today.image today.image --to 2", 73);
    bench.status("pack tests --day 20261116 --force", 73);
    bench.status("pack /dev/null --day 20261116 --force", 73);
    bench.write("file", b"file");
    bench.status("unpack today.image file", 73);
    bench.status("unpack today.image file --force", 73);
    bench.status("unpack today.image no/such/folder", 73);
    let full = std::fs::OpenOptions::new().write(true).open("/dev/full").unwrap();
    assert_eq!(bench.command(&["demo"]).stdout(full).status().unwrap().code(), Some(73));
    let left: Vec<_> = std::fs::read_dir(&bench.folder).unwrap().map(|file| file.unwrap().file_name()).collect();
    assert!(left.iter().all(|name| !name.to_string_lossy().contains(".tmp")), "{left:?}");
}

#[test]
fn packs_and_unpacks() {
    let bench = Bench::new("round");
    bench.pack("yesterday");
    bench.status("unpack yesterday.image items", 0);
    assert_eq!(bench.read("items/01-anchor-disabled.der"), made("ut-anchor-2.der"));
    assert_eq!(bench.read("items/12-crl.der"), made("xo-crl.der"));
    bench.status("unpack yesterday.image items", 73);
    bench.status("unpack yesterday.image items --force", 0);
    std::fs::create_dir(bench.folder.join("empty")).unwrap();
    bench.status("unpack yesterday.image empty", 0);
    let mut names: Vec<String> = std::fs::read_dir(bench.folder.join("items"))
        .unwrap()
        .map(|file| file.unwrap().file_name().into_string().unwrap())
        .collect();
    names.sort();
    assert_eq!(names.len(), 13);
    let mut line = "pack again.image --day=20261114".to_string();
    for name in names {
        let option = if name.contains("disabled") { "disabled-anchor" } else { &name[3..name.len() - 4] };
        line += &format!(" --{option} items/{name}");
    }
    bench.status(&line, 0);
    assert_eq!(bench.read("again.image"), bench.read("yesterday.image"));
}

#[test]
fn files_of_all_sorts() {
    let bench = Bench::new("sorts");
    let item = made("ut-signer-1.der");
    let text = pem("CERTIFICATE", &item);
    let other = pem("CERTIFICATE", &made("ut-anchor-1.der"));
    for around in [
        text.clone(),
        format!("junk before\n\u{1b}[31m\n{text}junk behind\n{other}"),
        text.replace('\n', "\r\n"),
        format!("Bag Attributes\n    name: x\n-----BEGIN-----\n{text}"),
        text.replacen('\n', "\nProc-Type: 4\n\n", 1),
    ] {
        bench.write("x.pem", around.as_bytes());
        let run = bench.status("item x.pem --as signer", 0);
        assert!(run.out.contains("PEM CERTIFICATE, 1132 bytes"), "{}", run.out);
    }
    bench.status("pack pem.image --day 20261115 --signer x.pem", 0);
    bench.status("unpack pem.image pem", 0);
    assert_eq!(bench.read("pem/00-signer.der"), item);
    for (broken, words) in [
        (text.replace("-----END", "----END"), "no END line"),
        (text.replace("END CERT", "END SERT"), "another name"),
        (text.replacen("MI", "M*", 1), "not base64"),
        (text.replacen("MI", "M", 1), "not base64"),
    ] {
        bench.write("x.pem", broken.as_bytes());
        let run = bench.status("item x.pem --as signer", 2);
        assert!(run.out.contains(words), "{}", run.out);
    }
    bench.write("huge", &vec![0x30; 5 << 20]);
    bench.status("item huge --as signer", 3);
    bench.status("walk huge", 3);
    bench.status("image huge", 5);
    bench.status("age huge 20261115", 3);
    bench.status("pack huge.image --day 20261115 --crl huge", 1);
    bench.write("text", &b"not DER at all\n".repeat(300_000));
    bench.status("walk text", 3);
    bench.write("text", b"not DER at all\n");
    bench.status("walk text", 2);
    bench.write("empty", b"");
    bench.status("image empty", 5);
    bench.status("item empty --as crl", 2);
}

#[test]
fn standard_input_and_a_closed_pipe() {
    let bench = Bench::new("pipes");
    let mut child =
        bench.command(&["item", "-", "--as", "crl"]).stdin(Stdio::piped()).stdout(Stdio::piped()).spawn().unwrap();
    child.stdin.take().unwrap().write_all(&made("xo-crl.der")).unwrap();
    assert_eq!(child.wait_with_output().unwrap().status.code(), Some(0));
    let mut child = bench.command(&["walk", "tests/data/made/xo-crl.der"]).stdout(Stdio::piped()).spawn().unwrap();
    drop(child.stdout.take());
    assert_eq!(child.wait().unwrap().code(), Some(0));
}

#[test]
fn status_65_faulty_records() {
    let bench = Bench::new("faulty");
    bench.status("tray night.log", 66);
    bench.status("tray night.log --append --open 20261115 --load 20261115 --burn 1-40", 0);
    bench.status("tray night.log", 0);
    bench.status("tray night.log --append --burn 41", 0);
    bench.status("tray night.log", 65);
    let all = bench.read("night.log");
    assert_eq!(all.len(), 43 * 8);
    for line in [
        "tray night.log --open 20261115",
        "tray night.log --append",
        "tray night.log --append --burn 256",
        "tray night.log --append --burn 3-2",
        "tray night.log --append --burn x",
        "tray night.log --append --open 4294967296",
        "tray night.log --append --burn 1 --load day",
        "tray - --append --burn 1",
        "tray",
    ] {
        bench.status(line, 64);
    }
    assert_eq!(bench.read("night.log"), all, "the log was changed");
    bench.status("tray none/night.log --append --burn 1", 73);
    bench.write("cut.log", &all[..9]);
    bench.status("tray cut.log", 1);
    bench.status("tray cut.log --append --burn 1", 1);
    assert_eq!(bench.read("cut.log"), all[..9], "a log that is cut was changed");
}
