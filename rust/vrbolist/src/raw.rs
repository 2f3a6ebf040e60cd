//! The C interface as it is declared in `include/vrbolist.h`.

use std::mem::{offset_of, size_of};

/// An answer: its size, and its fields, each with its offset. A size or an offset that the compiler does not find so is an
/// error here; `tests/c/vrbolist_test.c` holds the header and the archive to the same numbers.
macro_rules! answer {
    ($name:ident, $size:literal { $($at:literal $field:ident : $kind:ty),* $(,)? }) => {
        #[repr(C)]
        #[derive(Clone, Copy)]
        pub struct $name {
            pub number: u64,
            pub detail: u64,
            $(pub $field: $kind,)*
        }
        const _: () = assert!(size_of::<$name>() == $size);
        const _: () = assert!(offset_of!($name, number) == 0 && offset_of!($name, detail) == 8);
        $(const _: () = assert!(offset_of!($name, $field) == $at);)*
    };
}

answer!(Walk, 24 { 16 count: u64 });
answer!(Integer, 24 { 16 value: i64 });
answer!(Days, 24 { 16 days: i64 });
answer!(Certificate, 136 {
    16 start: u64,
    24 end: u64,
    32 issuer_at: u64,
    40 issuer_len: u64,
    48 subject_at: u64,
    56 subject_len: u64,
    64 key_at: u64,
    72 key_len: u64,
    80 serial_at: u64,
    88 serial_len: u64,
    96 subject_key_id_at: u64,
    104 subject_key_id_len: u64,
    112 authority_key_id_at: u64,
    120 authority_key_id_len: u64,
    128 country: [u8; 2],
});
answer!(Crl, 64 {
    16 this_update: u64,
    24 next_update: u64,
    32 entries: u64,
    40 issuer_at: u64,
    48 issuer_len: u64,
    56 country: [u8; 2],
});
answer!(Image, 40 { 16 entries: u64, 24 day: u64, 32 version: u64 });
answer!(Entry, 56 { 16 kind: u64, 24 flags: u64, 32 length: u64, 40 offset: u64, 48 country: [u8; 2] });
answer!(Write, 24 { 16 length: u64 });
answer!(Room, 40 { 16 length: u64, 24 table_length: u64, 32 entries: u64 });
answer!(Letters, 24 { 16 letters_true: u64 });
answer!(Anchors, 120 { 16 count: u64, 24 places: [u8; 96] });
answer!(Chain, 120 { 16 length: u64, 24 places: [u8; 96] });
answer!(Signers, 24 { 16 length: u64 });
answer!(Replay, 24 { 16 faulty: u64 });
answer!(Told, 16 {});

extern "C" {
    pub fn vrbolist_walk(item: *const u8, item_len: usize) -> Walk;
    pub fn vrbolist_integer(item: *const u8, item_len: usize) -> Integer;
    pub fn vrbolist_certificate(item: *const u8, item_len: usize, role: u64) -> Certificate;
    pub fn vrbolist_crl(item: *const u8, item_len: usize) -> Crl;
    pub fn vrbolist_day_difference(first: u64, second: u64) -> Days;
    pub fn vrbolist_crl_age(item: *const u8, item_len: usize, day: u64) -> Days;
    pub fn vrbolist_image(image: *const u8, image_len: usize) -> Image;
    pub fn vrbolist_image_for_day(image: *const u8, image_len: usize, wanted: u64) -> Image;
    pub fn vrbolist_entry(image: *const u8, image_len: usize, place: u64) -> Entry;
    pub fn vrbolist_write(
        items: *const u8,
        items_len: usize,
        kinds: *const u8,
        kinds_len: usize,
        flags: *const u8,
        flags_len: usize,
        lengths: *const u32,
        lengths_len: usize,
        letters: *const u8,
        letters_len: usize,
        version: u64,
        day: u64,
        out: *mut u8,
        out_len: usize,
    ) -> Write;
    pub fn vrbolist_move_to_2(image: *const u8, image_len: usize, out: *mut u8, out_len: usize) -> Write;
    pub fn vrbolist_move_to_1(image: *const u8, image_len: usize, out: *mut u8, out_len: usize) -> Write;
    pub fn vrbolist_make_room(
        image: *const u8,
        image_len: usize,
        table: *const u8,
        table_len: usize,
        moment: u64,
        out: *mut u8,
        out_len: usize,
        table_out: *mut u8,
        table_out_len: usize,
    ) -> Room;
    pub fn vrbolist_letters(image: *const u8, image_len: usize) -> Letters;
    pub fn vrbolist_anchors(image: *const u8, image_len: usize, first: u64, second: u64) -> Anchors;
    pub fn vrbolist_anchors_by_index(image: *const u8, image_len: usize, first: u64, second: u64) -> Anchors;
    pub fn vrbolist_chain(
        image: *const u8,
        image_len: usize,
        table: *const u8,
        table_len: usize,
        moment: u64,
        target: u64,
    ) -> Chain;
    pub fn vrbolist_chain_by_rounds(
        image: *const u8,
        image_len: usize,
        table: *const u8,
        table_len: usize,
        moment: u64,
        target: u64,
    ) -> Chain;
    pub fn vrbolist_proposal(
        image: *const u8,
        image_len: usize,
        table: *const u8,
        table_len: usize,
        moment: u64,
        target: u64,
        places: *const u8,
        places_len: usize,
    ) -> Told;
    pub fn vrbolist_all_signers(
        image: *const u8,
        image_len: usize,
        table: *const u8,
        table_len: usize,
        moment: u64,
        out: *mut u8,
        out_len: usize,
    ) -> Signers;
    pub fn vrbolist_replay(log: *const u8, log_len: usize, list: *mut u64, list_len: usize) -> Replay;
}
