//! The proved library for Rust: every answer is a `Result`, and parts come back as slices of what was lent.
//!
//! No call asks for anything to be checked first, and none panics.

#![deny(unsafe_code)]

pub mod answers;
#[allow(unsafe_code)]
mod raw;
mod refusal;

pub use refusal::Refusal;

/// What is told of a certificate that passes.
#[derive(Clone, Copy, Debug, PartialEq, Eq)]
pub struct Certificate<'a> {
    /// Start and end as the numbers YYYYMMDDHHMMSS.
    pub start: u64,
    pub end: u64,
    pub country: [u8; 2],
    /// The whole elements.
    pub issuer: &'a [u8],
    pub subject: &'a [u8],
    pub key: &'a [u8],
    /// The contents alone.
    pub serial: &'a [u8],
    pub subject_key_id: Option<&'a [u8]>,
    pub authority_key_id: Option<&'a [u8]>,
}

/// What is told of a revocation list that passes.
#[derive(Clone, Copy, Debug, PartialEq, Eq)]
pub struct Crl<'a> {
    pub this_update: u64,
    pub next_update: u64,
    pub country: [u8; 2],
    pub entries: u64,
    pub issuer: &'a [u8],
}

/// The number of entries of a good trust image, its day as the number YYYYMMDD, and its version, 1 or 2.
#[derive(Clone, Copy, Debug, PartialEq, Eq)]
pub struct Image {
    pub entries: u64,
    pub day: u64,
    pub version: u64,
}

/// One entry of an image. Kinds: 1 anchor, 2 link, 3 document signer, 4 CRL.
#[derive(Clone, Copy, Debug, PartialEq, Eq)]
pub struct Entry<'a> {
    pub kind: u64,
    pub flags: u64,
    /// The letters in the index, zeros in version 1. Reading does not test them: `letters` does.
    pub country: [u8; 2],
    pub item: &'a [u8],
}

/// An image in which room was made, and its verdict table: the parts of the lent outputs that they take.
#[derive(Clone, Copy, Debug, PartialEq, Eq)]
pub struct Room<'a> {
    pub image: &'a [u8],
    pub table: &'a [u8],
    /// How many items stay.
    pub entries: u64,
}

/// An image of version 2 whose letters are true, as the check of them has told: its index tells the country of each anchor.
#[derive(Clone, Copy, Debug, PartialEq, Eq)]
pub struct Lettered<'a> {
    image: &'a [u8],
}

/// The bytes of the record of one place.
pub const RECORD: usize = 97;

/// The number of elements of an item that is DER.
pub fn walk(item: &[u8]) -> Result<u64, Refusal> {
    let told = answers::walk(item);
    passed(told.number, told.detail, told.count)
}

/// An INTEGER as a number.
pub fn integer(item: &[u8]) -> Result<i64, Refusal> {
    let told = answers::integer(item);
    passed(told.number, told.detail, told.value)
}

/// Roles: 1 anchor, 2 link, 3 document signer.
pub fn certificate(item: &[u8], role: u64) -> Result<Certificate<'_>, Refusal> {
    let told = answers::certificate(item, role);
    let key = |at: u64, len: u64| (at != 0).then(|| part(item, at, len));
    let fields = Certificate {
        start: told.start,
        end: told.end,
        country: told.country,
        issuer: part(item, told.issuer_at, told.issuer_len),
        subject: part(item, told.subject_at, told.subject_len),
        key: part(item, told.key_at, told.key_len),
        serial: part(item, told.serial_at, told.serial_len),
        subject_key_id: key(told.subject_key_id_at, told.subject_key_id_len),
        authority_key_id: key(told.authority_key_id_at, told.authority_key_id_len),
    };
    passed(told.number, told.detail, fields)
}

pub fn crl(item: &[u8]) -> Result<Crl<'_>, Refusal> {
    let told = answers::crl(item);
    let fields = Crl {
        this_update: told.this_update,
        next_update: told.next_update,
        country: told.country,
        entries: told.entries,
        issuer: part(item, told.issuer_at, told.issuer_len),
    };
    passed(told.number, told.detail, fields)
}

/// Days from the first day to the second, negative when the second is earlier. Days are numbers YYYYMMDD.
pub fn day_difference(first: u64, second: u64) -> Result<i64, Refusal> {
    let told = answers::day_difference(first, second);
    passed(told.number, told.detail, told.days)
}

/// Days from a CRL's this-update day to a day.
pub fn crl_age(item: &[u8], day: u64) -> Result<i64, Refusal> {
    let told = answers::crl_age(item, day);
    passed(told.number, told.detail, told.days)
}

pub fn image(bytes: &[u8]) -> Result<Image, Refusal> {
    let told = answers::image(bytes);
    passed(told.number, told.detail, Image { entries: told.entries, day: told.day, version: told.version })
}

/// The same for a wanted day: a stale image is refused.
pub fn image_for_day(bytes: &[u8], wanted: u64) -> Result<Image, Refusal> {
    let told = answers::image_for_day(bytes, wanted);
    passed(told.number, told.detail, Image { entries: told.entries, day: told.day, version: told.version })
}

pub fn entry(bytes: &[u8], place: u64) -> Result<Entry<'_>, Refusal> {
    let told = answers::entry(bytes, place);
    let item = part(bytes, told.offset, told.length);
    let found = Entry { kind: told.kind, flags: told.flags, country: told.country, item };
    passed(told.number, told.detail, found)
}

/// Writes an image of a version and gives the part of the output that it takes; the rest of the output stays. Letters are two
/// for each item: any in version 2, zeros in version 1.
#[allow(clippy::too_many_arguments)]
pub fn write<'a>(
    items: &[u8],
    kinds: &[u8],
    flags: &[u8],
    lengths: &[u32],
    letters: &[u8],
    version: u64,
    day: u64,
    out: &'a mut [u8],
) -> Result<&'a [u8], Refusal> {
    let told = answers::write(items, kinds, flags, lengths, letters, version, day, out);
    passed(told.number, told.detail, ()).map(|()| part(out, 0, told.length))
}

/// Writes an image of version 1 again in version 2, with the true letters, and gives the part of the output that it takes.
pub fn move_to_2<'a>(image: &[u8], out: &'a mut [u8]) -> Result<&'a [u8], Refusal> {
    let told = answers::move_to_2(image, out);
    passed(told.number, told.detail, ()).map(|()| part(out, 0, told.length))
}

/// Writes an image of version 2 again in version 1, without the letters, and gives the part of the output that it takes.
pub fn move_to_1<'a>(image: &[u8], out: &'a mut [u8]) -> Result<&'a [u8], Refusal> {
    let told = answers::move_to_1(image, out);
    passed(told.number, told.detail, ()).map(|()| part(out, 0, told.length))
}

/// Writes an image again without the items that fail their profile and those whose end, or next update, is before the moment, and
/// its verdict table without their rows and columns. The rest of both outputs stays.
pub fn make_room<'a>(
    image: &[u8],
    table: &[u8],
    moment: u64,
    out: &'a mut [u8],
    table_out: &'a mut [u8],
) -> Result<Room<'a>, Refusal> {
    let told = answers::make_room(image, table, moment, out, table_out);
    passed(told.number, told.detail, ()).map(|()| Room {
        image: part(out, 0, told.length),
        table: part(table_out, 0, told.table_length),
        entries: told.entries,
    })
}

/// Whether the letters of every item of an image of version 2 are the true ones.
pub fn letters(image: &[u8]) -> Result<bool, Refusal> {
    let told = answers::letters(image);
    passed(told.number, told.detail, told.letters_true == 1)
}

/// The same check, which gives an image whose letters are true, and nothing where they are not.
pub fn lettered(image: &[u8]) -> Result<Option<Lettered<'_>>, Refusal> {
    letters(image).map(|letters_true| letters_true.then_some(Lettered { image }))
}

/// The places of the enabled anchors that pass their profile and report the letters of a country, ascending.
pub fn anchors(image: &[u8], country: [u8; 2]) -> Result<Vec<u8>, Refusal> {
    listed(answers::anchors(image, country[0] as u64, country[1] as u64))
}

impl Lettered<'_> {
    /// The answer of `anchors`, from the index alone: no item is opened.
    pub fn anchors(&self, country: [u8; 2]) -> Result<Vec<u8>, Refusal> {
        listed(answers::anchors_by_index(self.image, country[0] as u64, country[1] as u64))
    }
}

/// The places of the best chain to a document signer, from the anchor on.
pub fn chain(image: &[u8], table: &[u8], moment: u64, target: u64) -> Result<Vec<u8>, Refusal> {
    places(answers::chain(image, table, moment, target))
}

/// The same by the second search, which is plainer and slower.
pub fn chain_by_rounds(image: &[u8], table: &[u8], moment: u64, target: u64) -> Result<Vec<u8>, Refusal> {
    places(answers::chain_by_rounds(image, table, moment, target))
}

/// Whether these places, from the anchor on, are a good chain to a document signer; it need not be the best one.
pub fn proposal(image: &[u8], table: &[u8], moment: u64, target: u64, places: &[u8]) -> Result<(), Refusal> {
    let told = answers::proposal(image, table, moment, target, places);
    passed(told.number, told.detail, ())
}

/// The chains to every signer of an image in one call: for each place `RECORD` bytes of the lent output, the length of its chain
/// and 96 slots, of which those unused are 255; 0 and 255s where there is none. The rest of the output stays.
pub fn all_signers<'a>(image: &[u8], table: &[u8], moment: u64, out: &'a mut [u8]) -> Result<&'a [u8], Refusal> {
    let told = answers::all_signers(image, table, moment, out);
    passed(told.number, told.detail, ()).map(|()| part(out, 0, told.length))
}

/// Replays a tray log, records of 8 bytes, and gives the numbers of the faulty records, from 0. The list is lent: it has to
/// have room for them, and its rest stays.
pub fn replay<'a>(log: &[u8], list: &'a mut [u64]) -> Result<&'a [u64], Refusal> {
    let told = answers::replay(log, list);
    passed(told.number, told.detail, ()).map(|()| list.get(..told.faulty as usize).unwrap_or_default())
}

fn listed(told: answers::Anchors) -> Result<Vec<u8>, Refusal> {
    passed(told.number, told.detail, ()).map(|()| part(&told.places, 0, told.count).to_vec())
}

fn places(told: answers::Chain) -> Result<Vec<u8>, Refusal> {
    passed(told.number, told.detail, ()).map(|()| part(&told.places, 0, told.length).to_vec())
}

fn passed<T>(number: u64, detail: u64, fields: T) -> Result<T, Refusal> {
    match number {
        0 => Ok(fields),
        _ => Err(Refusal { number, detail }),
    }
}

// What is told of a pass lies in what was lent; a part that did not would be empty.
fn part(bytes: &[u8], at: u64, len: u64) -> &[u8] {
    bytes.get(at as usize..at.saturating_add(len) as usize).unwrap_or_default()
}
