//! The library on the items of tests/data: the published ones against the
//! answers and the record beside them, and the made set with its images.

#![forbid(unsafe_code)]

use std::collections::BTreeMap;
use std::fs;
use std::path::PathBuf;

use differ::hex;
use vrbolist::answers::{self, Certificate, Crl};

fn folder(name: &str) -> PathBuf {
    PathBuf::from(env!("CARGO_MANIFEST_DIR")).join("../../tests/data").join(name)
}

fn text(folder_name: &str, file: &str) -> String {
    let path = folder(folder_name).join(file);
    fs::read_to_string(&path).unwrap_or_else(|error| panic!("{}: {error}", path.display()))
}

fn item(folder_name: &str, file: &str) -> Vec<u8> {
    let path = folder(folder_name).join(file);
    fs::read(&path).unwrap_or_else(|error| panic!("{}: {error}", path.display()))
}

/// The rows of a table by column, without the line of names.
fn rows(folder_name: &str, file: &str) -> Vec<BTreeMap<String, String>> {
    let text = text(folder_name, file);
    let mut lines = text.lines().map(|line| line.split('\t').map(str::to_string));
    let names: Vec<String> = lines.next().expect("a line of names").collect();
    lines.map(|values| names.iter().cloned().zip(values).collect()).collect()
}

/// A record: the fields of each file.
fn record(folder_name: &str) -> BTreeMap<String, BTreeMap<String, String>> {
    let fields = |line: &str| -> BTreeMap<String, String> {
        line.split('\t')
            .map(|field| field.split_once('=').expect("name=value"))
            .map(|(name, value)| (name.to_string(), value.to_string()))
            .collect()
    };
    text(folder_name, "record.txt").lines().map(fields).map(|fields| (fields["file"].clone(), fields)).collect()
}

fn number<T: std::str::FromStr>(row: &BTreeMap<String, String>, column: &str) -> T {
    row[column].parse().unwrap_or_else(|_| panic!("{column} of {row:?} is no number"))
}

/// Octets in hexadecimal.
fn part(item: &[u8], at: u64, len: u64) -> String {
    hex(&item[at as usize..(at + len) as usize])
}

/// A key identifier as a record has it: - where there is none.
fn key_id(item: &[u8], at: u64, len: u64) -> String {
    if at == 0 {
        "-".to_string()
    } else {
        part(item, at, len)
    }
}

fn letters(country: [u8; 2]) -> String {
    String::from_utf8_lossy(&country).into_owned()
}

/// What the library tells of a certificate, as a record has it.
fn certificate_fields(item: &[u8], told: &Certificate) -> Vec<(&'static str, String)> {
    vec![
        ("read", "certificate".to_string()),
        ("letters", letters(told.country)),
        ("issuer", part(item, told.issuer_at, told.issuer_len)),
        ("start", format!("{:014}", told.start)),
        ("end", format!("{:014}", told.end)),
        ("serial", part(item, told.serial_at, told.serial_len)),
        ("subject", part(item, told.subject_at, told.subject_len)),
        ("key", part(item, told.key_at, told.key_len)),
        ("subject_key", key_id(item, told.subject_key_id_at, told.subject_key_id_len)),
        ("authority_key", key_id(item, told.authority_key_id_at, told.authority_key_id_len)),
    ]
}

/// What the library tells of a CRL, as a record has it. It does not tell the serials.
fn crl_fields(item: &[u8], told: &Crl) -> Vec<(&'static str, String)> {
    vec![
        ("read", "crl".to_string()),
        ("letters", letters(told.country)),
        ("issuer", part(item, told.issuer_at, told.issuer_len)),
        ("this_update", format!("{:014}", told.this_update)),
        ("next_update", format!("{:014}", told.next_update)),
        ("entries", told.entries.to_string()),
    ]
}

/// Every field told is that of the record; gives how many were compared. A ? says
/// that the reader behind the record does not tell the part.
fn equal(file: &str, told: &[(&str, String)], record: &BTreeMap<String, String>) -> usize {
    let known = told.iter().filter(|(name, _)| record[*name] != "?");
    for (name, value) in known.clone() {
        assert_eq!(value, &record[*name], "{name} of {file}");
    }
    for name in record.keys() {
        let elsewhere = name == "file" || name == "serials";
        assert!(elsewhere || told.iter().any(|(told, _)| told == name), "{name} of {file} is not compared");
    }
    known.count()
}

/// Asks for an item in its role or as a CRL: number, detail and the fields of a pass.
fn judge(item: &[u8], role: &str) -> ((u64, u64), Vec<(&'static str, String)>) {
    let role = match role {
        "anchor" | "1" => 1,
        "link" | "2" => 2,
        "signer" | "3" => 3,
        "crl" | "4" => {
            let told = answers::crl(item);
            let fields = if told.number == 0 { crl_fields(item, &told) } else { Vec::new() };
            return ((told.number, told.detail), fields);
        }
        other => panic!("no role: {other}"),
    };
    let told = answers::certificate(item, role);
    let fields = if told.number == 0 { certificate_fields(item, &told) } else { Vec::new() };
    ((told.number, told.detail), fields)
}

#[test]
fn published_items() {
    let record = record("published");
    let rows = rows("published", "answers.tsv");
    let (mut passes, mut compared) = (0, 0);
    for row in &rows {
        let file = &row["file"];
        let (head, fields) = judge(&item("published", file), &row["role"]);
        assert_eq!(head, (number(row, "number"), number(row, "detail")), "{file}");
        if head.0 == 0 {
            passes += 1;
            compared += equal(file, &fields, &record[file]);
        }
    }
    assert_eq!(rows.len(), record.len());
    assert!(rows.len() >= 178 && passes >= 95, "{} items, {passes} passes", rows.len());
    println!("{} items, {passes} passes, {compared} fields", rows.len());
}

/// All items that are DER, also those that break a rule of their profile.
#[test]
fn published_items_are_der() {
    for row in rows("published", "answers.tsv") {
        let told = answers::walk(&item("published", &row["file"]));
        assert_eq!((told.number, told.detail), (0, 0), "{}", row["file"]);
        assert!(told.count > 10, "{}", row["file"]);
    }
}

/// An image of the made set with the table of its verdicts.
struct Made {
    files: Vec<String>,
    kinds: Vec<u8>,
    flags: Vec<u8>,
    day: u64,
    table: Vec<u8>,
}

fn made_images() -> BTreeMap<String, Made> {
    let mut images = BTreeMap::new();
    for row in rows("made", "places.tsv") {
        let day = number(&row, "day");
        let new = || Made { files: Vec::new(), kinds: Vec::new(), flags: Vec::new(), day, table: Vec::new() };
        let made = images.entry(row["image"].clone()).or_insert_with(new);
        assert_eq!(made.files.len(), number::<usize>(&row, "place"));
        assert_eq!(made.day, day);
        made.files.push(row["file"].clone());
        made.kinds.push(number(&row, "kind"));
        made.flags.push(number(&row, "flags"));
    }
    let mut next = BTreeMap::new();
    for row in rows("made", "verdicts.tsv") {
        let made = images.get_mut(&row["image"]).expect("an image of places.tsv");
        let place = next.entry(row["image"].clone()).or_insert(0usize);
        assert_eq!(*place, number::<usize>(&row, "place"));
        *place += 1;
        assert_eq!(row["verdicts"].len(), made.files.len());
        made.table.extend(row["verdicts"].bytes().map(|digit| digit - b'0'));
    }
    images
}

impl Made {
    /// The library writes the image in a version, with the letters of the record; what is beyond it stays.
    fn write(&self, version: u64) -> Vec<u8> {
        let items: Vec<Vec<u8>> = self.files.iter().map(|file| item("made", file)).collect();
        let lengths: Vec<u32> = items.iter().map(|item| item.len() as u32).collect();
        let (width, letters) = match version {
            1 => (8, vec![0; 2 * items.len()]),
            _ => (12, self.letters().concat()),
        };
        let needed = items.concat().len() + width * items.len() + 12;
        let mut out = vec![0xA5; needed + 100];
        let (items, kinds, flags) = (items.concat(), &self.kinds, &self.flags);
        let told = answers::write(&items, kinds, flags, &lengths, &letters, version, self.day, &mut out);
        assert_eq!((told.number, told.detail, told.length), (0, 0, needed as u64));
        assert!(out[needed..].iter().all(|&octet| octet == 0xA5));
        out.truncate(needed);
        out
    }

    /// The letters of each item as the record has them.
    fn letters(&self) -> Vec<[u8; 2]> {
        let record = record("made");
        let of = |file: &String| record[file]["letters"].as_bytes().try_into().expect("two letters");
        self.files.iter().map(of).collect()
    }
}

#[test]
fn made_items_pass() {
    let record = record("made");
    let mut compared = 0;
    for made in made_images().values() {
        for (file, kind) in made.files.iter().zip(&made.kinds) {
            let (head, fields) = judge(&item("made", file), &kind.to_string());
            assert_eq!(head, (0, 0), "{file}");
            compared += equal(file, &fields, &record[file]);
        }
    }
    println!("{} items, {compared} fields", record.len());
    assert_eq!(record.len(), 14);
}

#[test]
fn made_images_read_back() {
    let images = made_images();
    assert_eq!(images.len(), 2);
    for (made, version) in images.values().flat_map(|made| [(made, 1), (made, 2)]) {
        let image = made.write(version);
        let told = answers::image(&image);
        assert_eq!((told.number, told.detail), (0, 0));
        assert_eq!((told.entries, told.day, told.version), (made.files.len() as u64, made.day, version));
        assert_eq!(answers::image_for_day(&image, made.day).number, 0);
        assert_eq!(answers::image_for_day(&image, 20261113).number, 6);
        for (place, file) in made.files.iter().enumerate() {
            let told = answers::entry(&image, place as u64);
            assert_eq!((told.number, told.detail), (0, 0));
            assert_eq!((told.kind, told.flags), (made.kinds[place] as u64, made.flags[place] as u64));
            assert_eq!(told.country, if version == 1 { [0, 0] } else { made.letters()[place] });
            assert_eq!(part(&image, told.offset, told.length), hex(&item("made", file)), "{file}");
        }
        assert_eq!(answers::entry(&image, made.files.len() as u64).number, 1);
    }
}

/// Moved there and back, and the letters of the record are the true ones.
#[test]
fn made_images_move() {
    for made in made_images().values() {
        let (one, two) = (made.write(1), made.write(2));
        let mut out = vec![0xA5; two.len() + 3];
        assert_eq!(answers::move_to_2(&one, &mut out).length, two.len() as u64);
        assert_eq!((&out[..two.len()], &out[two.len()..]), (&two[..], &[0xA5; 3][..]));
        assert_eq!(answers::letters(&two).letters_true, 1);
        assert_eq!(answers::move_to_1(&two, &mut out).length, one.len() as u64);
        assert_eq!((&out[..one.len()], &out[one.len()..two.len()]), (&one[..], &two[one.len()..]));
    }
}

#[test]
fn made_chains() {
    made_chains_of(1);
    made_chains_of(2);
}

fn made_chains_of(version: u64) {
    let images = made_images();
    let written: BTreeMap<&String, Vec<u8>> = images.iter().map(|(name, made)| (name, made.write(version))).collect();
    let rows = rows("made", "chains.tsv");
    for row in &rows {
        let name = &row["image"];
        let told = answers::chain(&written[name], &images[name].table, number(row, "moment"), number(row, "place"));
        assert_eq!((told.number, told.detail), (number(row, "number"), number(row, "detail")), "{row:?}");
        assert_eq!(told.length, number::<u64>(row, "length"), "{row:?}");
        let (used, unused) = told.places.split_at(told.length as usize);
        let places: Vec<String> = used.iter().map(u8::to_string).collect();
        let wanted = if row["places"] == "-" { "" } else { &row["places"] };
        assert_eq!(places.join(","), wanted, "{row:?}");
        assert!(unused.iter().all(|&place| place == 255), "{row:?}");
    }
    let chains = rows.iter().filter(|row| row["number"] == "0").count();
    println!("{} questions, {chains} chains", rows.len());
    assert!(rows.len() >= 72 && chains > 0 && chains < rows.len());
}
