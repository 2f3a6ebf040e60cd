//! Questions as text.

use std::fmt::Write;

use make::questions::Question;

/// The kind of a question.
pub fn kind(question: &Question) -> &'static str {
    match question {
        Question::Walk(_) => "walk",
        Question::Integer(_) => "integer",
        Question::Certificate(..) => "certificate",
        Question::Crl(_) => "crl",
        Question::Days(..) => "day difference",
        Question::Age(..) => "crl age",
        Question::Image(_) => "image",
        Question::ImageForDay(..) => "image for day",
        Question::Entry(..) => "entry",
        Question::Write { .. } => "write",
        Question::MoveTo2(..) => "move to 2",
        Question::MoveTo1(..) => "move to 1",
        Question::Room { .. } => "room",
        Question::Letters(_) => "letters",
        Question::Anchors(..) => "anchors",
        Question::AnchorsByIndex(..) => "anchors by index",
        Question::Chain { .. } => "chain",
        Question::Proposal { .. } => "proposal",
        Question::Signers { .. } => "signers",
        Question::Replay { .. } => "replay",
    }
}

/// Octets in hexadecimal.
pub fn hex(octets: &[u8]) -> String {
    let mut text = String::with_capacity(2 * octets.len());
    for octet in octets {
        let _ = write!(text, "{octet:02x}");
    }
    text
}

/// All arguments of a question, octets in hexadecimal.
pub fn show(question: &Question) -> String {
    match question {
        Question::Walk(item) | Question::Integer(item) | Question::Crl(item) => format!("item {}", hex(item)),
        Question::Certificate(item, role) => format!("role {role}, item {}", hex(item)),
        Question::Days(first, second) => format!("first {first}, second {second}"),
        Question::Age(item, day) => format!("day {day}, item {}", hex(item)),
        Question::Image(image) | Question::Letters(image) => format!("image {}", hex(image)),
        Question::Anchors(image, first, second) | Question::AnchorsByIndex(image, first, second) => {
            format!("first {first}, second {second}, image {}", hex(image))
        }
        Question::MoveTo2(image, room) | Question::MoveTo1(image, room) => format!("room {room}, image {}", hex(image)),
        Question::Room { image, table, moment, room, table_room } => {
            format!("moment {moment}, room {room} and {table_room}, table {}, image {}", hex(table), hex(image))
        }
        Question::ImageForDay(image, wanted) => format!("wanted {wanted}, image {}", hex(image)),
        Question::Entry(image, place) => format!("place {place}, image {}", hex(image)),
        Question::Write { items, kinds, flags, lengths, letters, version, day, room } => format!(
            "version {version}, day {day}, room {room}, kinds {}, flags {}, lengths {lengths:?}, letters {}, items {}",
            hex(kinds),
            hex(flags),
            hex(letters),
            hex(items)
        ),
        Question::Chain { image, table, moment, target } => {
            format!("moment {moment}, target {target}, table {}, image {}", hex(table), hex(image))
        }
        Question::Proposal { image, table, moment, target, places } => {
            format!("moment {moment}, target {target}, places {places:?}, table {}, image {}", hex(table), hex(image))
        }
        Question::Signers { image, table, moment, room } => {
            format!("moment {moment}, room {room}, table {}, image {}", hex(table), hex(image))
        }
        Question::Replay { log, room } => format!("room {room}, log {}", hex(log)),
    }
}
