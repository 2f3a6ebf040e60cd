//! One form for the answers of all readers: that of the plain reader.

use vrbolist::answers;

/// An answer with all its fields.
#[derive(Clone, Copy, Debug, PartialEq, Eq)]
pub enum Answer {
    Walk(plain::Walk),
    Integer(plain::Integer),
    Certificate(plain::Certificate),
    Crl(plain::Crl),
    Days(plain::Days),
    Image(plain::Image),
    Entry(plain::Entry),
    Write(plain::Written),
    Letters(plain::Letters),
    Room(plain::Made),
    Anchors(plain::Anchors),
    Chain(plain::Chain),
    Signers(plain::Signers),
    Replay(plain::Replayed),
    Told(plain::Told),
}

impl Answer {
    /// The answer's number and detail.
    pub fn head(&self) -> (u64, u64) {
        match self {
            Answer::Walk(told) => (told.number, told.detail),
            Answer::Integer(told) => (told.number, told.detail),
            Answer::Certificate(told) => (told.number, told.detail),
            Answer::Crl(told) => (told.number, told.detail),
            Answer::Days(told) => (told.number, told.detail),
            Answer::Image(told) => (told.number, told.detail),
            Answer::Entry(told) => (told.number, told.detail),
            Answer::Write(told) => (told.number, told.detail),
            Answer::Letters(told) => (told.number, told.detail),
            Answer::Room(told) => (told.number, told.detail),
            Answer::Anchors(told) => (told.number, told.detail),
            Answer::Chain(told) => (told.number, told.detail),
            Answer::Signers(told) => (told.number, told.detail),
            Answer::Replay(told) => (told.number, told.detail),
            Answer::Told(told) => (told.number, told.detail),
        }
    }
}

// Each pattern and each value below names every field: one that only one side has does not compile.
macro_rules! same_fields {
    ($name:ident, $library:ident, $plain:ident { $($field:ident),* }) => {
        impl From<answers::$library> for Answer {
            fn from(told: answers::$library) -> Answer {
                let answers::$library { number, detail, $($field),* } = told;
                Answer::$name(plain::$plain { number, detail, $($field),* })
            }
        }

        impl From<plain::$plain> for Answer {
            fn from(told: plain::$plain) -> Answer {
                Answer::$name(told)
            }
        }
    };
}

same_fields!(Walk, Walk, Walk { count });
same_fields!(Integer, Integer, Integer { value });
same_fields!(
    Certificate,
    Certificate,
    Certificate {
        start,
        end,
        issuer_at,
        issuer_len,
        subject_at,
        subject_len,
        key_at,
        key_len,
        serial_at,
        serial_len,
        subject_key_id_at,
        subject_key_id_len,
        authority_key_id_at,
        authority_key_id_len,
        country
    }
);
same_fields!(Crl, Crl, Crl { this_update, next_update, entries, issuer_at, issuer_len, country });
same_fields!(Days, Days, Days { days });
same_fields!(Image, Image, Image { entries, day, version });
same_fields!(Entry, Entry, Entry { kind, flags, length, offset, country });
same_fields!(Write, Write, Written { length });
same_fields!(Letters, Letters, Letters { letters_true });
same_fields!(Room, Room, Made { length, table_length, entries });
same_fields!(Anchors, Anchors, Anchors { count, places });
same_fields!(Chain, Chain, Chain { length, places });
same_fields!(Signers, Signers, Signers { length });
same_fields!(Replay, Replay, Replayed { faulty });
same_fields!(Told, Told, Told {});
