/*
 * The C interface of libvrbolist.a (x86-64): C99, and usable from C++.
 *
 * Every function is total: nothing has to be checked before a call, and any number may be passed for any number. Only two
 * things are the caller's, since no call can test them: a pointer is not null and points to as many elements as the length
 * beside it says, unless that length is 0; and buffers lent to one call do not overlap.
 *
 * Every answer is a struct returned by value. Its first fields are `number`, 0 where the call passed and else the number of
 * the refusal, and `detail`, which belongs to the refusal and is 0 in a pass. In a refusal every other field is 0, every
 * place of a chain or a list of anchors is VRBOLIST_NO_PLACE, and lent buffers keep their bytes.
 *
 * A part of an item or image is told as an offset (`_at`) from its first byte and a length (`_len`). Days are numbers
 * YYYYMMDD, moments YYYYMMDDHHMMSS.
 */
#ifndef VRBOLIST_H
#define VRBOLIST_H

#include <stddef.h>
#include <stdint.h>

#ifdef __cplusplus
extern "C" {
#endif

/* What `number` says, with the detail told beside it. */
#define VRBOLIST_PASSED 0   /* passed; 0 */
#define VRBOLIST_ARGUMENT 1 /* an argument is out of its range; 0 */
#define VRBOLIST_DER 2      /* a DER rule is broken; offset of the element that breaks it */
#define VRBOLIST_LIMIT 3    /* a limit is passed; offset of the element that passes it, 0 for a whole that is too long */
#define VRBOLIST_PROFILE 4  /* a rule of the profile is broken; the smallest such rule */
#define VRBOLIST_IMAGE 5    /* a rule of the trust image is broken; the smallest such rule */
#define VRBOLIST_DAY 6      /* the image is not of the wanted day; 0 */
#define VRBOLIST_CHAIN 7    /* there is no good chain; 0 */
#define VRBOLIST_WIDE 8     /* an INTEGER asked for as a number has more than 8 octets; 0 */
#define VRBOLIST_SHORT 9    /* the lent output is shorter than what would be written; 0 */

/* Roles of certificates are the first three of the kinds of entries. */
#define VRBOLIST_KIND_ANCHOR 1
#define VRBOLIST_KIND_LINK 2
#define VRBOLIST_KIND_SIGNER 3
#define VRBOLIST_KIND_CRL 4

#define VRBOLIST_ITEM_LIMIT 16384   /* most bytes of an item */
#define VRBOLIST_IMAGE_LIMIT 262144 /* most bytes of an image */
#define VRBOLIST_PLACES 96          /* most entries of an image, and places of a chain */
#define VRBOLIST_NO_PLACE 255       /* in a slot that is not used */
#define VRBOLIST_SIGNER_RECORD 97   /* bytes that vrbolist_all_signers writes for each entry */

#define VRBOLIST_RECORD 8           /* bytes of a record of a tray log */

/* A record of a tray log: its action, a unit, two zero bytes, and a day, big-endian in four bytes. */
#define VRBOLIST_ACTION_OPEN 1 /* opens a tray for the day */
#define VRBOLIST_ACTION_LOAD 2 /* loads an image of the day */
#define VRBOLIST_ACTION_BURN 3 /* burns the unit, 1 to VRBOLIST_UNITS; the day is 0 */
#define VRBOLIST_UNITS 40      /* units of a tray */

typedef struct {
    uint64_t number;
    uint64_t detail;
    uint64_t count; /* elements in the tree */
} vrbolist_walk_answer;

typedef struct {
    uint64_t number;
    uint64_t detail;
    int64_t value;
} vrbolist_integer_answer;

/* Issuer, subject and key are whole elements; serial and key identifiers are contents alone. A key identifier that the
 * certificate does not have is told as 0 and 0, an empty one with its real offset. */
typedef struct {
    uint64_t number;
    uint64_t detail;
    uint64_t start;
    uint64_t end;
    uint64_t issuer_at;
    uint64_t issuer_len;
    uint64_t subject_at;
    uint64_t subject_len;
    uint64_t key_at;
    uint64_t key_len;
    uint64_t serial_at;
    uint64_t serial_len;
    uint64_t subject_key_id_at;
    uint64_t subject_key_id_len;
    uint64_t authority_key_id_at;
    uint64_t authority_key_id_len;
    uint8_t country[2];
} vrbolist_certificate_answer;

typedef struct {
    uint64_t number;
    uint64_t detail;
    uint64_t this_update;
    uint64_t next_update;
    uint64_t entries;
    uint64_t issuer_at;
    uint64_t issuer_len;
    uint8_t country[2];
} vrbolist_crl_answer;

typedef struct {
    uint64_t number;
    uint64_t detail;
    int64_t days;
} vrbolist_days_answer;

typedef struct {
    uint64_t number;
    uint64_t detail;
    uint64_t entries;
    uint64_t day;
    uint64_t version; /* 1 or 2 */
} vrbolist_image_answer;

typedef struct {
    uint64_t number;
    uint64_t detail;
    uint64_t kind;
    uint64_t flags;
    uint64_t length;
    uint64_t offset;
    uint8_t country[2]; /* the letters in the index, which reading does not test; zeros in version 1 */
} vrbolist_entry_answer;

typedef struct {
    uint64_t number;
    uint64_t detail;
    uint64_t length;
} vrbolist_write_answer;

typedef struct {
    uint64_t number;
    uint64_t detail;
    uint64_t length;       /* bytes of the new image */
    uint64_t table_length; /* bytes of the new table */
    uint64_t entries;      /* how many items stay */
} vrbolist_room_answer;

typedef struct {
    uint64_t number;
    uint64_t detail;
    uint64_t letters_true; /* 1 where the letters of every item are its true ones, else 0 */
} vrbolist_letters_answer;

typedef struct {
    uint64_t number;
    uint64_t detail;
    uint64_t count; /* how many places are used */
    uint8_t places[VRBOLIST_PLACES];
} vrbolist_anchors_answer;

typedef struct {
    uint64_t number;
    uint64_t detail;
    uint64_t length; /* how many places are used */
    uint8_t places[VRBOLIST_PLACES];
} vrbolist_chain_answer;

typedef struct {
    uint64_t number;
    uint64_t detail;
    uint64_t length; /* how many bytes the records take */
} vrbolist_signers_answer;

typedef struct {
    uint64_t number;
    uint64_t detail;
    uint64_t faulty; /* how many records are faulty, and listed */
} vrbolist_replay_answer;

/* The answer of number and detail alone. */
typedef struct {
    uint64_t number;
    uint64_t detail;
} vrbolist_told;

/* Walks an item and counts its elements.
 * Refusals: 3 at 0 for more than VRBOLIST_ITEM_LIMIT bytes, then 2 and 3 as the walk meets them. */
vrbolist_walk_answer vrbolist_walk(const uint8_t *item, size_t item_len);

/* Reads an item that is one INTEGER of at most 8 octets as a number.
 * Refusals: those of the walk, then 1 for another element, then 8. */
vrbolist_integer_answer vrbolist_integer(const uint8_t *item, size_t item_len);

/* Judges a certificate in a role: VRBOLIST_KIND_ANCHOR, VRBOLIST_KIND_LINK or VRBOLIST_KIND_SIGNER.
 * Refusals: 1 for another role, then those of the walk, then 4 with a rule of 1 to 14. */
vrbolist_certificate_answer vrbolist_certificate(const uint8_t *item, size_t item_len, uint64_t role);

/* Judges a revocation list.
 * Refusals: those of the walk, then 4 with a rule of 1 to 8. */
vrbolist_crl_answer vrbolist_crl(const uint8_t *item, size_t item_len);

/* Counts the days from the first day to the second, below zero where the second is earlier.
 * Refusals: 1 for a day that is not real or not of 1950 to 2099. */
vrbolist_days_answer vrbolist_day_difference(uint64_t first, uint64_t second);

/* Counts the days from the day of a revocation list's this-update to a day.
 * Refusals: 1 for the day as above, then those of vrbolist_crl, then 1 for a this-update after 2099. */
vrbolist_days_answer vrbolist_crl_age(const uint8_t *item, size_t item_len, uint64_t day);

/* Judges a trust image of version 1 or 2 and tells its number of entries, its day and its version; items are not opened.
 * Refusals: 5 with a rule of 1 to 7. */
vrbolist_image_answer vrbolist_image(const uint8_t *image, size_t image_len);

/* Judges a trust image that must be of a wanted day.
 * Refusals: 1 for a wanted day that is not real or not of 1950 to 2099, then 5, then 6. */
vrbolist_image_answer vrbolist_image_for_day(const uint8_t *image, size_t image_len, uint64_t wanted);

/* Tells the entry of a trust image at a place, counted from 0.
 * Refusals: 5, then 1 for a place that is not there. */
vrbolist_entry_answer vrbolist_entry(const uint8_t *image, size_t image_len, uint64_t place);

/* Writes a trust image of a version, 1 or 2, of items that stand packed in `items`, with a kind, flags, a length and two
 * letters for each, to the first bytes of `out`; its other bytes stay. In version 2 the letters may be any bytes, in version 1
 * they are zeros.
 * Refusals: 1 where the version, a kind, flags, length, letters or the day is out of its range, there are more than
 * VRBOLIST_PLACES items, the columns are not equally long, with two letters for each item, or the lengths do not add up to
 * items_len; then 3 at 0 for an image of more than VRBOLIST_IMAGE_LIMIT bytes; then 9. */
vrbolist_write_answer vrbolist_write(const uint8_t *items, size_t items_len, const uint8_t *kinds, size_t kinds_len,
                                     const uint8_t *flags, size_t flags_len, const uint32_t *lengths, size_t lengths_len,
                                     const uint8_t *letters, size_t letters_len, uint64_t version, uint64_t day, uint8_t *out,
                                     size_t out_len);

/* Writes a trust image of version 1 again in version 2, with the same items, flags and day and the true letters of each item, to
 * the first bytes of `out`; its other bytes stay. The true letters are those that an item reports where it passes its profile
 * for its kind, else two zeros.
 * Refusals: 5, with rule 2 for an image of version 2; then 3 at 0 for an image of more than VRBOLIST_IMAGE_LIMIT bytes; then
 * 9. */
vrbolist_write_answer vrbolist_move_to_2(const uint8_t *image, size_t image_len, uint8_t *out, size_t out_len);

/* Writes a trust image of version 2 again in version 1, without the letters, to the first bytes of `out`; its other bytes stay.
 * Refusals: 5, with rule 2 for an image of version 1; then 9. */
vrbolist_write_answer vrbolist_move_to_1(const uint8_t *image, size_t image_len, uint8_t *out, size_t out_len);

/* Makes room in a trust image: writes it again to the first bytes of `out` without the certificates whose end, and the
 * revocation lists whose next update, is before the moment, and without the items that fail their profile for their kind. The
 * others keep their order, flags and letters, and the image its day and version; an item that ends at the moment itself stays.
 * `table` has a byte, 0 or 1, for each pair of entries, as for vrbolist_chain; `table_out` gets the rows and columns of the items
 * that stay. The other bytes of both outputs stay. From that moment on every document signer that stays has the same chain under
 * the new places, or none in both. Outputs as long as image and table are always long enough.
 * Refusals: 5 for the image, then 1 for the table and a moment that is not real or not of 1950 to 2099, then 9 where either
 * output is too short; each leaves both outputs as they are. */
vrbolist_room_answer vrbolist_make_room(const uint8_t *image, size_t image_len, const uint8_t *table, size_t table_len,
                                        uint64_t moment, uint8_t *out, size_t out_len, uint8_t *table_out,
                                        size_t table_out_len);

/* Tells whether the letters of every item of a trust image of version 2 are its true ones. No other call tests them.
 * Refusals: 5, with rule 2 for an image of version 1. */
vrbolist_letters_answer vrbolist_letters(const uint8_t *image, size_t image_len);

/* Lists the places of the enabled anchors of a trust image that pass their profile and report the two letters of a country,
 * ascending. Each enabled anchor is opened once and no other item; its times play no part.
 * Refusals: 1 for a letter outside A to Z (65 to 90), then 5. */
vrbolist_anchors_answer vrbolist_anchors(const uint8_t *image, size_t image_len, uint64_t first, uint64_t second);

/* The same from trailer and index alone: the enabled anchors whose letters in the index are these; no item is opened. It is for
 * bytes of which vrbolist_letters has told 1: of these the answer is that of vrbolist_anchors for every two letters. Of others
 * it tells what the index says, true or not.
 * Refusals: those of vrbolist_anchors, 5 with rule 2 for an image of version 1. */
vrbolist_anchors_answer vrbolist_anchors_by_index(const uint8_t *image, size_t image_len, uint64_t first, uint64_t second);

/* Finds the best good chain from an enabled anchor to the document signer at the place `target`; `table` has a byte, 0 or 1,
 * for each pair of entries, row by row: whether the entry of the row signed that of the column.
 * Refusals: 5 for the image, then 1 for a table that is not of that form, a moment that is not real or not of 1950 to 2099
 * or a place that has no document signer, then 7. */
vrbolist_chain_answer vrbolist_chain(const uint8_t *image, size_t image_len, const uint8_t *table, size_t table_len,
                                     uint64_t moment, uint64_t target);

/* The same answer to every question, by a second and plainer search: it opens every item, then goes from the anchors round by
 * round. For audits; vrbolist_chain is the quicker. */
vrbolist_chain_answer vrbolist_chain_by_rounds(const uint8_t *image, size_t image_len, const uint8_t *table, size_t table_len,
                                               uint64_t moment, uint64_t target);

/* Judges a proposed chain to the document signer at the place `target`: `places` has a byte for each of its places, from the
 * anchor on. It passes where it is a good chain; it need not be the best one, and a link may stand in it twice.
 * Refusals: those of vrbolist_chain but 7, then 1 for fewer than 2 or more than VRBOLIST_PLACES places or a place that is not
 * there, then 7 for what is no good chain. */
vrbolist_told vrbolist_proposal(const uint8_t *image, size_t image_len, const uint8_t *table, size_t table_len,
                                uint64_t moment, uint64_t target, const uint8_t *places, size_t places_len);

/* Asks for the best good chain to every document signer in one call, each item opened once. Writes VRBOLIST_SIGNER_RECORD
 * bytes to `out` for each entry: the length of the chain and its VRBOLIST_PLACES slots, as vrbolist_chain tells them for that
 * place; 0 and VRBOLIST_NO_PLACE where there is no chain or no document signer. The other bytes of `out` stay.
 * Refusals: 5 for the image, then 1 for the table and the moment as above, then 9; each leaves `out` as it is. */
vrbolist_signers_answer vrbolist_all_signers(const uint8_t *image, size_t image_len, const uint8_t *table, size_t table_len,
                                             uint64_t moment, uint8_t *out, size_t out_len);

/* Replays a tray log, records of VRBOLIST_RECORD bytes, and lists the numbers of the faulty records, from 0 and ascending, at
 * the front of `list`; its other numbers stay. A list with a number for each record is always long enough, and the quickest.
 * Refusals: 1 for a log that is not of whole records, then 9 for a list that is shorter than the faulty records. */
vrbolist_replay_answer vrbolist_replay(const uint8_t *log, size_t log_len, uint64_t *list, size_t list_len);

#ifdef __cplusplus
}
#endif

#endif
