/*
 * Calls every function of libvrbolist.a, passing and refused, and checks every field of each answer, and where it stands.
 *
 *   vrbolist_test DATA    where DATA is the folder tests/data/made
 *
 * Prints a line for each check that failed, then `N passed, M failed`; exit status 1 if any failed. Every buffer lent to
 * the library ends where a page begins that may not be touched, so that a byte read or written beyond it stops the test.
 */
#define _DEFAULT_SOURCE
#include <stdio.h>
#include <stdlib.h>
#include <string.h>
#include <sys/mman.h>
#include <unistd.h>

#include "vrbolist.h"

#define MOMENT 20261115120000u
#define DAY 20261115u
#define FILL 0xA5
#define LENT 512 /* most buffers lent in one run */

static unsigned long passed, failed;

static void check(int line, const char *what, long long is, long long wanted) {
    if (is == wanted) {
        passed++;
    } else {
        failed++;
        printf("line %d: %s is %lld, not %lld\n", line, what, is, wanted);
    }
}

#define FIELD(answer, field, wanted) check(line, #field, (long long)(answer).field, (long long)(wanted))
#define HEAD(answer, number_wanted, detail_wanted) \
    (FIELD(answer, number, number_wanted), FIELD(answer, detail, detail_wanted))
#define CHECK(what) check(__LINE__, #what, (what) ? 1 : 0, 1)

/* Buffers. */

struct lent {
    uint8_t *at;
    uint8_t *copy;
    size_t len;
};
static struct lent lent[LENT];
static size_t lent_count;

static void stop(const char *what) {
    perror(what);
    exit(2);
}

/* Room for `len` bytes that ends at a page that may not be touched. */
static uint8_t *guarded(size_t len) {
    size_t page = (size_t)sysconf(_SC_PAGESIZE);
    size_t size = (len + page - 1) / page * page;
    uint8_t *start = mmap(NULL, size + page, PROT_READ | PROT_WRITE, MAP_PRIVATE | MAP_ANONYMOUS, -1, 0);
    if (start == MAP_FAILED || mprotect(start + size, page, PROT_NONE) != 0) {
        stop("guarded");
    }
    return start + size - len;
}

/* A guarded copy that the library may read; `all_kept` says whether it stayed as it is. */
static const uint8_t *lend(const void *bytes, size_t len) {
    struct lent *one = &lent[lent_count++];
    if (lent_count > LENT || (one->copy = malloc(len + 1)) == NULL) {
        stop("lend");
    }
    one->at = guarded(len);
    one->len = len;
    if (len > 0) {
        memcpy(one->at, bytes, len);
        memcpy(one->copy, bytes, len);
    }
    return one->at;
}

static int all_kept(void) {
    size_t i;
    for (i = 0; i < lent_count; i++) {
        if (memcmp(lent[i].at, lent[i].copy, lent[i].len) != 0) {
            return 0;
        }
    }
    return 1;
}

static uint8_t *output(size_t len) {
    uint8_t *out = guarded(len);
    memset(out, FILL, len);
    return out;
}

static int filled(const uint8_t *from, size_t len) {
    size_t i;
    for (i = 0; i < len; i++) {
        if (from[i] != FILL) {
            return 0;
        }
    }
    return 1;
}

struct item {
    const uint8_t *at;
    size_t len;
};

static struct item read_item(const char *folder, const char *name) {
    static uint8_t bytes[VRBOLIST_ITEM_LIMIT];
    char path[4096];
    struct item item;
    FILE *file;
    snprintf(path, sizeof path, "%s/%s", folder, name);
    file = fopen(path, "rb");
    if (file == NULL) {
        stop(path);
    }
    item.len = fread(bytes, 1, sizeof bytes, file);
    fclose(file);
    item.at = lend(bytes, item.len);
    return item;
}

/* Whether a part of an item is these bytes. */
static int part_is(struct item item, uint64_t at, uint64_t len, const void *wanted, size_t wanted_len) {
    return len == wanted_len && at <= item.len && len <= item.len - at && memcmp(item.at + at, wanted, wanted_len) == 0;
}

/* Layout: the size of every answer, and offset and size of its fields. rust/vrbolist/src/raw.rs has numbers of its own. */

struct field {
    const char *name;
    size_t at_in_header, at, len_in_header, len;
};
#define AT(type, field, at, len) \
    {#type "." #field, offsetof(vrbolist_##type##_answer, field), at, sizeof(((vrbolist_##type##_answer *)0)->field), len}
#define HEAD_AT(type) AT(type, number, 0, 8), AT(type, detail, 8, 8)

static const struct field walk_fields[] = {HEAD_AT(walk), AT(walk, count, 16, 8)};
static const struct field integer_fields[] = {HEAD_AT(integer), AT(integer, value, 16, 8)};
static const struct field certificate_fields[] = {
    HEAD_AT(certificate), AT(certificate, start, 16, 8), AT(certificate, end, 24, 8), AT(certificate, issuer_at, 32, 8),
    AT(certificate, issuer_len, 40, 8), AT(certificate, subject_at, 48, 8), AT(certificate, subject_len, 56, 8),
    AT(certificate, key_at, 64, 8), AT(certificate, key_len, 72, 8), AT(certificate, serial_at, 80, 8),
    AT(certificate, serial_len, 88, 8), AT(certificate, subject_key_id_at, 96, 8),
    AT(certificate, subject_key_id_len, 104, 8), AT(certificate, authority_key_id_at, 112, 8),
    AT(certificate, authority_key_id_len, 120, 8), AT(certificate, country, 128, 2),
};
static const struct field crl_fields[] = {
    HEAD_AT(crl), AT(crl, this_update, 16, 8), AT(crl, next_update, 24, 8), AT(crl, entries, 32, 8),
    AT(crl, issuer_at, 40, 8), AT(crl, issuer_len, 48, 8), AT(crl, country, 56, 2),
};
static const struct field days_fields[] = {HEAD_AT(days), AT(days, days, 16, 8)};
static const struct field image_fields[] = {
    HEAD_AT(image), AT(image, entries, 16, 8), AT(image, day, 24, 8), AT(image, version, 32, 8),
};
static const struct field entry_fields[] = {
    HEAD_AT(entry), AT(entry, kind, 16, 8), AT(entry, flags, 24, 8), AT(entry, length, 32, 8), AT(entry, offset, 40, 8),
    AT(entry, country, 48, 2),
};
static const struct field write_fields[] = {HEAD_AT(write), AT(write, length, 16, 8)};
static const struct field room_fields[] = {
    HEAD_AT(room), AT(room, length, 16, 8), AT(room, table_length, 24, 8), AT(room, entries, 32, 8),
};
static const struct field letters_fields[] = {HEAD_AT(letters), AT(letters, letters_true, 16, 8)};
static const struct field anchors_fields[] = {HEAD_AT(anchors), AT(anchors, count, 16, 8), AT(anchors, places, 24, 96)};
static const struct field chain_fields[] = {HEAD_AT(chain), AT(chain, length, 16, 8), AT(chain, places, 24, 96)};
static const struct field signers_fields[] = {HEAD_AT(signers), AT(signers, length, 16, 8)};
static const struct field replay_fields[] = {HEAD_AT(replay), AT(replay, faulty, 16, 8)};

/* The functions as the convention of x86-64 calls them: an answer of more than 16 bytes is written where a first argument
 * points. So the answer can be lent a buffer of its size that ends at a page that may not be touched. */
void walk_to(void *answer, const uint8_t *item, size_t len) __asm__("vrbolist_walk");
void integer_to(void *answer, const uint8_t *item, size_t len) __asm__("vrbolist_integer");
void certificate_to(void *answer, const uint8_t *item, size_t len, uint64_t role) __asm__("vrbolist_certificate");
void crl_to(void *answer, const uint8_t *item, size_t len) __asm__("vrbolist_crl");
void difference_to(void *answer, uint64_t first, uint64_t second) __asm__("vrbolist_day_difference");
void age_to(void *answer, const uint8_t *item, size_t len, uint64_t day) __asm__("vrbolist_crl_age");
void image_to(void *answer, const uint8_t *image, size_t len) __asm__("vrbolist_image");
void image_for_day_to(void *answer, const uint8_t *image, size_t len, uint64_t wanted) __asm__("vrbolist_image_for_day");
void entry_to(void *answer, const uint8_t *image, size_t len, uint64_t place) __asm__("vrbolist_entry");
void write_to(void *answer, const uint8_t *items, size_t items_len, const uint8_t *kinds, size_t kinds_len,
              const uint8_t *flags, size_t flags_len, const uint32_t *lengths, size_t lengths_len, const uint8_t *letters,
              size_t letters_len, uint64_t version, uint64_t day, uint8_t *out, size_t out_len) __asm__("vrbolist_write");
void move_to_2_to(void *answer, const uint8_t *image, size_t len, uint8_t *out, size_t out_len) __asm__("vrbolist_move_to_2");
void move_to_1_to(void *answer, const uint8_t *image, size_t len, uint8_t *out, size_t out_len) __asm__("vrbolist_move_to_1");
void make_room_to(void *answer, const uint8_t *image, size_t image_len, const uint8_t *table, size_t table_len, uint64_t moment,
                  uint8_t *out, size_t out_len, uint8_t *table_out, size_t table_out_len) __asm__("vrbolist_make_room");
void letters_to(void *answer, const uint8_t *image, size_t len) __asm__("vrbolist_letters");
void anchors_to(void *answer, const uint8_t *image, size_t len, uint64_t first, uint64_t second) __asm__("vrbolist_anchors");
void anchors_by_index_to(void *answer, const uint8_t *image, size_t len, uint64_t first,
                         uint64_t second) __asm__("vrbolist_anchors_by_index");
void chain_to(void *answer, const uint8_t *image, size_t image_len, const uint8_t *table, size_t table_len, uint64_t moment,
              uint64_t target) __asm__("vrbolist_chain");
void chain_by_rounds_to(void *answer, const uint8_t *image, size_t image_len, const uint8_t *table, size_t table_len,
                        uint64_t moment, uint64_t target) __asm__("vrbolist_chain_by_rounds");
void all_signers_to(void *answer, const uint8_t *image, size_t image_len, const uint8_t *table, size_t table_len,
                    uint64_t moment, uint8_t *out, size_t out_len) __asm__("vrbolist_all_signers");
void replay_to(void *answer, const uint8_t *log, size_t log_len, uint64_t *list, size_t list_len) __asm__("vrbolist_replay");

/* The header has these sizes and offsets, and the library wrote each field. */
static void laid_out(int line, const uint8_t *answer, size_t in_header, size_t size, const struct field *fields, size_t count) {
    size_t i;
    check(line, "size", (long long)in_header, (long long)size);
    for (i = 0; i < count; i++) {
        check(line, fields[i].name, (long long)fields[i].at_in_header, (long long)fields[i].at);
        check(line, fields[i].name, (long long)fields[i].len_in_header, (long long)fields[i].len);
        check(line, fields[i].name, filled(answer + fields[i].at, fields[i].len), 0);
    }
}

#define LAID_OUT(type, size, call) \
    (to = output(size), call, \
     laid_out(__LINE__, to, sizeof(vrbolist_##type##_answer), size, type##_fields, sizeof type##_fields / sizeof(struct field)))

static void layout(void) {
    uint8_t *to;
    LAID_OUT(walk, 24, walk_to(to, NULL, 0));
    LAID_OUT(integer, 24, integer_to(to, NULL, 0));
    LAID_OUT(certificate, 136, certificate_to(to, NULL, 0, VRBOLIST_KIND_LINK));
    LAID_OUT(crl, 64, crl_to(to, NULL, 0));
    LAID_OUT(days, 24, difference_to(to, DAY, DAY));
    LAID_OUT(days, 24, age_to(to, NULL, 0, DAY));
    LAID_OUT(image, 40, image_to(to, NULL, 0));
    LAID_OUT(image, 40, image_for_day_to(to, NULL, 0, DAY));
    LAID_OUT(entry, 56, entry_to(to, NULL, 0, 0));
    LAID_OUT(write, 24, write_to(to, NULL, 0, NULL, 0, NULL, 0, NULL, 0, NULL, 0, 2, DAY, NULL, 0));
    LAID_OUT(write, 24, move_to_2_to(to, NULL, 0, NULL, 0));
    LAID_OUT(write, 24, move_to_1_to(to, NULL, 0, NULL, 0));
    LAID_OUT(room, 40, make_room_to(to, NULL, 0, NULL, 0, MOMENT, NULL, 0, NULL, 0));
    LAID_OUT(letters, 24, letters_to(to, NULL, 0));
    LAID_OUT(anchors, 120, anchors_to(to, NULL, 0, 'U', 'T'));
    LAID_OUT(anchors, 120, anchors_by_index_to(to, NULL, 0, 'U', 'T'));
    LAID_OUT(chain, 120, chain_to(to, NULL, 0, NULL, 0, MOMENT, 0));
    LAID_OUT(chain, 120, chain_by_rounds_to(to, NULL, 0, NULL, 0, MOMENT, 0));
    LAID_OUT(signers, 24, all_signers_to(to, NULL, 0, NULL, 0, MOMENT, NULL, 0));
    LAID_OUT(replay, 24, replay_to(to, NULL, 0, NULL, 0));
    /* An answer of 16 bytes comes back in registers, so its layout is the header's alone. */
    CHECK(sizeof(vrbolist_told) == 16);
    CHECK(offsetof(vrbolist_told, number) == 0 && offsetof(vrbolist_told, detail) == 8);
}

/* Walk. */

static void walk_is(int line, vrbolist_walk_answer answer, uint64_t number, uint64_t detail, uint64_t count) {
    HEAD(answer, number, detail);
    FIELD(answer, count, count);
}

#define WALK(bytes, number, detail, count) \
    walk_is(__LINE__, vrbolist_walk(lend(bytes, sizeof bytes), sizeof bytes), number, detail, count)

static void walks(void) {
    static const uint8_t two[] = {0x30, 3, 2, 1, 5}, after[] = {5, 0, 0}, inside[] = {0x30, 3, 2, 1, 5, 0xFF},
                         boolean[] = {0x30, 3, 1, 1, 1}, missing[] = {0x30};
    static uint8_t deep[34], big[VRBOLIST_ITEM_LIMIT + 1];
    size_t i;
    WALK(two, 0, 0, 2);
    WALK(after, VRBOLIST_DER, 2, 0);
    WALK(inside, VRBOLIST_DER, 5, 0);
    WALK(boolean, VRBOLIST_DER, 2, 0);
    WALK(missing, VRBOLIST_DER, 0, 0);
    walk_is(__LINE__, vrbolist_walk(NULL, 0), VRBOLIST_DER, 0, 0);
    for (i = 0; i < 17; i++) {
        deep[2 * i] = 0x30;
        deep[2 * i + 1] = (uint8_t)(32 - 2 * i);
    }
    WALK(deep, VRBOLIST_LIMIT, 32, 0);
    WALK(big, VRBOLIST_LIMIT, 0, 0);
}

/* Numbers. */

static void integer_is(int line, vrbolist_integer_answer answer, uint64_t number, uint64_t detail, int64_t value) {
    HEAD(answer, number, detail);
    FIELD(answer, value, value);
}

#define INTEGER(bytes, number, detail, value) \
    integer_is(__LINE__, vrbolist_integer(lend(bytes, sizeof bytes), sizeof bytes), number, detail, value)

static void integers(void) {
    static const uint8_t positive[] = {2, 2, 0, 0x80}, negative[] = {2, 1, 0x80},
                         most[] = {2, 8, 0x7F, 0xFF, 0xFF, 0xFF, 0xFF, 0xFF, 0xFF, 0xFF},
                         least[] = {2, 8, 0x80, 0, 0, 0, 0, 0, 0, 0}, wide[] = {2, 9, 0, 0x80, 0, 0, 0, 0, 0, 0, 0},
                         other[] = {0x30, 0}, padded[] = {2, 2, 0, 1};
    INTEGER(positive, 0, 0, 128);
    INTEGER(negative, 0, 0, -128);
    INTEGER(most, 0, 0, INT64_MAX);
    INTEGER(least, 0, 0, INT64_MIN);
    INTEGER(wide, VRBOLIST_WIDE, 0, 0);
    INTEGER(other, VRBOLIST_ARGUMENT, 0, 0);
    INTEGER(padded, VRBOLIST_DER, 0, 0);
    integer_is(__LINE__, vrbolist_integer(NULL, 0), VRBOLIST_DER, 0, 0);
}

/* Days. */

static void days_are(int line, vrbolist_days_answer answer, uint64_t number, uint64_t detail, int64_t days) {
    HEAD(answer, number, detail);
    FIELD(answer, days, days);
}

static void days(struct item crl, struct item anchor) {
    days_are(__LINE__, vrbolist_day_difference(20201231, 20210101), 0, 0, 1);
    days_are(__LINE__, vrbolist_day_difference(20210101, 20201231), 0, 0, -1);
    days_are(__LINE__, vrbolist_day_difference(19500101, 20991231), 0, 0, 54786);
    days_are(__LINE__, vrbolist_day_difference(20230229, 20230301), VRBOLIST_ARGUMENT, 0, 0);
    days_are(__LINE__, vrbolist_day_difference(20230301, 21000101), VRBOLIST_ARGUMENT, 0, 0);
    days_are(__LINE__, vrbolist_day_difference(0, UINT64_MAX), VRBOLIST_ARGUMENT, 0, 0);
    days_are(__LINE__, vrbolist_crl_age(crl.at, crl.len, DAY), 0, 0, 14);
    days_are(__LINE__, vrbolist_crl_age(crl.at, crl.len, 20261031), 0, 0, -1);
    days_are(__LINE__, vrbolist_crl_age(crl.at, crl.len, 20261131), VRBOLIST_ARGUMENT, 0, 0);
    days_are(__LINE__, vrbolist_crl_age(NULL, 0, UINT64_MAX), VRBOLIST_ARGUMENT, 0, 0);
    days_are(__LINE__, vrbolist_crl_age(anchor.at, anchor.len, DAY), VRBOLIST_PROFILE, 1, 0);
    days_are(__LINE__, vrbolist_crl_age(NULL, 0, DAY), VRBOLIST_DER, 0, 0);
}

/* Certificates and revocation lists. */

/* The name of the country UT's authority. */
static const uint8_t authority[] =
    "\x30\x4c\x31\x0b\x30\x09\x06\x03\x55\x04\x06\x13\x02UT\x31\x0f\x30\x0d\x06\x03\x55\x04\x0a\x0c\x06Utopia"
    "\x31\x2c\x30\x2a\x06\x03\x55\x04\x03\x0c\x23" "Country Signing Authority of Utopia";
#define AUTHORITY_LEN (sizeof authority - 1)

static void certificate_refused(int line, vrbolist_certificate_answer answer, uint64_t number, uint64_t detail) {
    HEAD(answer, number, detail);
    FIELD(answer, start, 0);
    FIELD(answer, end, 0);
    FIELD(answer, issuer_at, 0);
    FIELD(answer, issuer_len, 0);
    FIELD(answer, subject_at, 0);
    FIELD(answer, subject_len, 0);
    FIELD(answer, key_at, 0);
    FIELD(answer, key_len, 0);
    FIELD(answer, serial_at, 0);
    FIELD(answer, serial_len, 0);
    FIELD(answer, subject_key_id_at, 0);
    FIELD(answer, subject_key_id_len, 0);
    FIELD(answer, authority_key_id_at, 0);
    FIELD(answer, authority_key_id_len, 0);
    FIELD(answer, country[0], 0);
    FIELD(answer, country[1], 0);
}

/* What both certificates have in common: the order of their parts, and the anchor's key identifier. */
static void certificate_parts(int line, vrbolist_certificate_answer answer, struct item item, const uint8_t *anchor_id) {
    HEAD(answer, 0, 0);
    FIELD(answer, country[0], 'U');
    FIELD(answer, country[1], 'T');
    /* Two headers of 4 octets, the version's 5, the serial's header. */
    FIELD(answer, serial_at, 4 + 4 + 5 + 2);
    check(line, "issuer", part_is(item, answer.issuer_at, answer.issuer_len, authority, AUTHORITY_LEN), 1);
    /* Between issuer and subject stand two UTCTimes, each of 15 octets, in a SEQUENCE. */
    FIELD(answer, subject_at, answer.issuer_at + answer.issuer_len + 32);
    FIELD(answer, key_at, answer.subject_at + answer.subject_len);
    check(line, "key", answer.key_at < item.len && item.at[answer.key_at] == 0x30, 1);
    check(line, "authority_key_id",
          part_is(item, answer.authority_key_id_at, answer.authority_key_id_len, anchor_id, 20), 1);
}

static void certificates(struct item anchor, struct item signer) {
    int line = __LINE__;
    vrbolist_certificate_answer a = vrbolist_certificate(anchor.at, anchor.len, VRBOLIST_KIND_ANCHOR);
    vrbolist_certificate_answer s = vrbolist_certificate(signer.at, signer.len, VRBOLIST_KIND_SIGNER);
    const uint8_t *anchor_id = anchor.at + (a.subject_key_id_at < anchor.len ? a.subject_key_id_at : 0);
    certificate_parts(line, a, anchor, anchor_id);
    FIELD(a, start, 20161201000000);
    FIELD(a, end, 20261130235959);
    CHECK(part_is(anchor, a.serial_at, a.serial_len, "\x01", 1));
    CHECK(part_is(anchor, a.subject_at, a.subject_len, authority, AUTHORITY_LEN));
    /* A key of RSA with 3,072 bits: its length in 2 octets, 4 octets of header. */
    CHECK(part_is(anchor, a.key_at, 4, "\x30\x82\x01\xa2", 4));
    FIELD(a, key_len, 0x1a2 + 4);
    FIELD(a, subject_key_id_len, 20);
    CHECK(part_is(anchor, a.subject_key_id_at - 2, 2, "\x04\x14", 2));
    certificate_parts(line, s, signer, anchor_id);
    FIELD(s, start, 20210301000000);
    FIELD(s, end, 20310228235959);
    CHECK(s.serial_len > 0 && signer.at[s.serial_at - 1] == s.serial_len);
    CHECK(signer.at[s.subject_at] == 0x30 && signer.at[s.subject_at + 1] + 2u == s.subject_len);
    /* A key of P-256: 2 octets of header. */
    CHECK(part_is(signer, s.key_at, 2, "\x30\x59", 2));
    FIELD(s, key_len, 0x59 + 2);
    CHECK(s.subject_key_id_len == 0 || part_is(signer, s.subject_key_id_at - 2, 2, "\x04\x14", 2));

    certificate_refused(__LINE__, vrbolist_certificate(signer.at, signer.len, VRBOLIST_KIND_ANCHOR), VRBOLIST_PROFILE, 9);
    certificate_refused(__LINE__, vrbolist_certificate(anchor.at, anchor.len, VRBOLIST_KIND_SIGNER), VRBOLIST_PROFILE, 9);
    certificate_refused(__LINE__, vrbolist_certificate(anchor.at, anchor.len - 1, VRBOLIST_KIND_ANCHOR), VRBOLIST_DER, 0);
    certificate_refused(__LINE__, vrbolist_certificate(anchor.at, anchor.len, 0), VRBOLIST_ARGUMENT, 0);
    certificate_refused(__LINE__, vrbolist_certificate(anchor.at, anchor.len, VRBOLIST_KIND_CRL), VRBOLIST_ARGUMENT, 0);
    certificate_refused(__LINE__, vrbolist_certificate(anchor.at, anchor.len, UINT64_MAX), VRBOLIST_ARGUMENT, 0);
    certificate_refused(__LINE__, vrbolist_certificate(NULL, 0, UINT64_MAX), VRBOLIST_ARGUMENT, 0);
    certificate_refused(__LINE__, vrbolist_certificate(NULL, 0, VRBOLIST_KIND_LINK), VRBOLIST_DER, 0);
}

static void crl_refused(int line, vrbolist_crl_answer answer, uint64_t number, uint64_t detail) {
    HEAD(answer, number, detail);
    FIELD(answer, this_update, 0);
    FIELD(answer, next_update, 0);
    FIELD(answer, entries, 0);
    FIELD(answer, issuer_at, 0);
    FIELD(answer, issuer_len, 0);
    FIELD(answer, country[0], 0);
    FIELD(answer, country[1], 0);
}

static void crls(struct item crl, struct item anchor) {
    int line = __LINE__;
    vrbolist_crl_answer answer = vrbolist_crl(crl.at, crl.len);
    HEAD(answer, 0, 0);
    FIELD(answer, this_update, 20261101060000);
    FIELD(answer, next_update, 20261201060000);
    FIELD(answer, entries, 2);
    CHECK(part_is(crl, answer.issuer_at, answer.issuer_len, authority, AUTHORITY_LEN));
    FIELD(answer, country[0], 'U');
    FIELD(answer, country[1], 'T');
    crl_refused(__LINE__, vrbolist_crl(anchor.at, anchor.len), VRBOLIST_PROFILE, 1);
    crl_refused(__LINE__, vrbolist_crl(crl.at, crl.len - 1), VRBOLIST_DER, 0);
    crl_refused(__LINE__, vrbolist_crl(NULL, 0), VRBOLIST_DER, 0);
}

/* Images. */

static void image_is(int line, vrbolist_image_answer answer, uint64_t entries, uint64_t day, uint64_t version) {
    HEAD(answer, 0, 0);
    FIELD(answer, entries, entries);
    FIELD(answer, day, day);
    FIELD(answer, version, version);
}

static void image_refused(int line, vrbolist_image_answer answer, uint64_t number, uint64_t detail) {
    HEAD(answer, number, detail);
    FIELD(answer, entries, 0);
    FIELD(answer, day, 0);
    FIELD(answer, version, 0);
}

static void entry_is(int line, vrbolist_entry_answer answer, uint64_t kind, uint64_t flags, uint64_t length,
                     uint64_t offset, const uint8_t *country) {
    HEAD(answer, 0, 0);
    FIELD(answer, kind, kind);
    FIELD(answer, flags, flags);
    FIELD(answer, length, length);
    FIELD(answer, offset, offset);
    FIELD(answer, country[0], country[0]);
    FIELD(answer, country[1], country[1]);
}

static void entry_refused(int line, vrbolist_entry_answer answer, uint64_t number, uint64_t detail) {
    HEAD(answer, number, detail);
    FIELD(answer, kind, 0);
    FIELD(answer, flags, 0);
    FIELD(answer, length, 0);
    FIELD(answer, offset, 0);
    FIELD(answer, country[0], 0);
    FIELD(answer, country[1], 0);
}

static void write_is(int line, vrbolist_write_answer answer, uint64_t number, uint64_t detail, uint64_t length) {
    HEAD(answer, number, detail);
    FIELD(answer, length, length);
}

static void letters_are(int line, vrbolist_letters_answer answer, uint64_t number, uint64_t detail, uint64_t letters_true) {
    HEAD(answer, number, detail);
    FIELD(answer, letters_true, letters_true);
}

/* The image without items, of a version. */
static void small_image(uint64_t version) {
    uint8_t empty[] = {0, 0, 0, 0, 0, 0, 0, 0, 0x01, 0x35, 0x28, 0xfb};
    const uint8_t *good;
    uint8_t *out = output(20);
    empty[7] = (uint8_t)version;
    good = lend(empty, sizeof empty);
    image_is(__LINE__, vrbolist_image(good, 12), 0, DAY, version);
    image_refused(__LINE__, vrbolist_image(good, 11), VRBOLIST_IMAGE, 1);
    image_is(__LINE__, vrbolist_image_for_day(good, 12, DAY), 0, DAY, version);
    image_refused(__LINE__, vrbolist_image_for_day(good, 12, DAY - 1), VRBOLIST_DAY, 0);
    image_refused(__LINE__, vrbolist_image_for_day(good, 12, 20261131), VRBOLIST_ARGUMENT, 0);
    entry_refused(__LINE__, vrbolist_entry(good, 12, 0), VRBOLIST_ARGUMENT, 0);
#define WRITE_NONE(letters_n, version, day, out, room, number, length) \
    write_is(__LINE__, vrbolist_write(NULL, 0, NULL, 0, NULL, 0, NULL, 0, good, letters_n, version, day, out, room), number, 0, \
             length)
    WRITE_NONE(0, version, DAY, NULL, 0, VRBOLIST_SHORT, 0);
    WRITE_NONE(0, version, UINT64_MAX, NULL, 0, VRBOLIST_ARGUMENT, 0);
    WRITE_NONE(0, 0, DAY, out, 20, VRBOLIST_ARGUMENT, 0);
    WRITE_NONE(0, 3, DAY, out, 20, VRBOLIST_ARGUMENT, 0);
    WRITE_NONE(0, version + 256, DAY, out, 20, VRBOLIST_ARGUMENT, 0);
    WRITE_NONE(0, version + 4294967296, DAY, out, 20, VRBOLIST_ARGUMENT, 0);
    WRITE_NONE(0, UINT64_MAX, DAY, out, 20, VRBOLIST_ARGUMENT, 0);
    WRITE_NONE(2, version, DAY, out, 20, VRBOLIST_ARGUMENT, 0);
    WRITE_NONE(0, version, DAY, out, 11, VRBOLIST_SHORT, 0);
    CHECK(filled(out, 20));
    WRITE_NONE(0, version, DAY, out, 20, 0, 12);
    CHECK(memcmp(out, empty, 12) == 0);
    CHECK(filled(out + 12, 8));
}

/* Versions that there are not, and no image at all. */
static void no_images(void) {
    static const uint8_t version[] = {0, 0, 0, 0, 0, 0, 0, 3, 0x01, 0x35, 0x28, 0xfb};
    const uint8_t *bad = lend(version, sizeof version);
    uint8_t *out = output(20);
    image_refused(__LINE__, vrbolist_image(bad, 12), VRBOLIST_IMAGE, 2);
    image_refused(__LINE__, vrbolist_image(NULL, 0), VRBOLIST_IMAGE, 1);
    image_refused(__LINE__, vrbolist_image_for_day(bad, 12, UINT64_MAX), VRBOLIST_ARGUMENT, 0);
    image_refused(__LINE__, vrbolist_image_for_day(bad, 12, DAY), VRBOLIST_IMAGE, 2);
    image_refused(__LINE__, vrbolist_image_for_day(NULL, 0, DAY), VRBOLIST_IMAGE, 1);
    entry_refused(__LINE__, vrbolist_entry(bad, 12, 0), VRBOLIST_IMAGE, 2);
    entry_refused(__LINE__, vrbolist_entry(NULL, 0, UINT64_MAX), VRBOLIST_IMAGE, 1);
    write_is(__LINE__, vrbolist_move_to_2(bad, 12, out, 20), VRBOLIST_IMAGE, 2, 0);
    write_is(__LINE__, vrbolist_move_to_1(bad, 12, out, 20), VRBOLIST_IMAGE, 2, 0);
    write_is(__LINE__, vrbolist_move_to_2(bad, 11, out, 20), VRBOLIST_IMAGE, 1, 0);
    write_is(__LINE__, vrbolist_move_to_1(NULL, 0, NULL, 0), VRBOLIST_IMAGE, 1, 0);
    letters_are(__LINE__, vrbolist_letters(bad, 12), VRBOLIST_IMAGE, 2, 0);
    letters_are(__LINE__, vrbolist_letters(NULL, 0), VRBOLIST_IMAGE, 1, 0);
    CHECK(filled(out, 20));
}

#define LONG (VRBOLIST_IMAGE_LIMIT + 1024) /* room for an image that is too long */

/* Images with about 262,144 bytes, by the octets of an index entry. */
static void long_image(uint64_t version, size_t width) {
    static uint8_t bytes[16 * VRBOLIST_ITEM_LIMIT];
    static const uint8_t none[32];
    uint8_t kind[16], *out = output(LONG);
    uint32_t length[16];
    const uint8_t *items = lend(bytes, sizeof bytes), *kinds, *flags = lend(none, 16), *letters = lend(none, 32);
    const uint32_t *lengths;
    size_t i, less = width * 16 + 12;
    for (i = 0; i < 16; i++) {
        kind[i] = VRBOLIST_KIND_CRL;
        length[i] = VRBOLIST_ITEM_LIMIT;
    }
    kinds = lend(kind, 16);
#define WRITE_LONG(less, number, written) \
    (length[15] = (uint32_t)(VRBOLIST_ITEM_LIMIT - (less)), \
     lengths = (const uint32_t *)(const void *)lend(length, sizeof length), \
     write_is(__LINE__, \
              vrbolist_write(items, sizeof bytes - (less), kinds, 16, flags, 16, lengths, 16, letters, 32, version, DAY, out, \
                             LONG), \
              number, 0, written))
    WRITE_LONG(0, VRBOLIST_LIMIT, 0);
    WRITE_LONG(less - 1, VRBOLIST_LIMIT, 0);
    CHECK(filled(out, LONG));
    WRITE_LONG(less, 0, VRBOLIST_IMAGE_LIMIT);
    CHECK(filled(out + VRBOLIST_IMAGE_LIMIT, 1024));
    image_is(__LINE__, vrbolist_image(out, VRBOLIST_IMAGE_LIMIT), 16, DAY, version);
}

/* An image of version 1 whose move to version 2 has 262,144 bytes, and one with a byte more. */
static void long_move(void) {
    static uint8_t bytes[16 * VRBOLIST_ITEM_LIMIT];
    static const uint8_t none[32];
    uint8_t kind[16], *one = output(LONG), *two = output(LONG), *back = output(LONG);
    uint32_t length[16];
    size_t i, len = VRBOLIST_IMAGE_LIMIT - 4 * 16;
    for (i = 0; i < 16; i++) {
        kind[i] = VRBOLIST_KIND_CRL;
        length[i] = VRBOLIST_ITEM_LIMIT;
    }
    length[15] -= 12 * 16 + 12;
#define WRITE_ONE(items_n, written) \
    write_is(__LINE__, vrbolist_write(bytes, items_n, kind, 16, none, 16, length, 16, none, 32, 1, DAY, one, LONG), 0, 0, written)
    WRITE_ONE(len - 8 * 16 - 12, len);
    write_is(__LINE__, vrbolist_move_to_2(one, len, two, VRBOLIST_IMAGE_LIMIT - 1), VRBOLIST_SHORT, 0, 0);
    CHECK(filled(two, LONG));
    write_is(__LINE__, vrbolist_move_to_2(one, len, two, LONG), 0, 0, VRBOLIST_IMAGE_LIMIT);
    CHECK(filled(two + VRBOLIST_IMAGE_LIMIT, LONG - VRBOLIST_IMAGE_LIMIT));
    letters_are(__LINE__, vrbolist_letters(two, VRBOLIST_IMAGE_LIMIT), 0, 0, 1);
    write_is(__LINE__, vrbolist_move_to_1(two, VRBOLIST_IMAGE_LIMIT, back, LONG), 0, 0, len);
    CHECK(memcmp(one, back, len) == 0 && filled(back + len, LONG - len));
    length[15]++;
    memset(two, FILL, LONG);
    WRITE_ONE(len - 8 * 16 - 11, len + 1);
    write_is(__LINE__, vrbolist_move_to_2(one, len + 1, two, LONG), VRBOLIST_LIMIT, 0, 0);
    write_is(__LINE__, vrbolist_move_to_2(one, len + 1, two, 0), VRBOLIST_LIMIT, 0, 0);
    CHECK(filled(two, LONG));
}

static const uint8_t no_letters[] = {0, 0, 0, 0, 0, 0}, true_letters[] = {'U', 'T', 'U', 'T', 'U', 'T'};

/* Writes the image of anchor, signer and CRL, with every refusal on the way, and gives a lent copy of it. */
static struct item three(struct item anchor, struct item signer, struct item crl, uint64_t version) {
    static uint8_t packed[3 * VRBOLIST_ITEM_LIMIT];
    static const uint8_t kind[] = {1, 3, 4}, flag[] = {1, 0, 0}, kind_wrong[] = {1, 3, 5}, flag_wrong[] = {1, 1, 0};
    const uint8_t *items, *kinds = lend(kind, 3), *flags = lend(flag, 3), *kinds_wrong = lend(kind_wrong, 3),
                          *flags_wrong = lend(flag_wrong, 3), *letters = lend(version == 2 ? true_letters : no_letters, 6);
    const uint32_t *lengths, *lengths_wrong;
    uint32_t length[3], length_wrong[3];
    size_t items_len = anchor.len + signer.len + crl.len, image_len = items_len + 3 * (version == 2 ? 12 : 8) + 12,
           room = image_len + 50;
    uint8_t *out = output(room);
    struct item image;
    memcpy(packed, anchor.at, anchor.len);
    memcpy(packed + anchor.len, signer.at, signer.len);
    memcpy(packed + anchor.len + signer.len, crl.at, crl.len);
    items = lend(packed, items_len);
    length[0] = (uint32_t)anchor.len;
    length[1] = (uint32_t)signer.len;
    length[2] = (uint32_t)crl.len;
    lengths = (const uint32_t *)(const void *)lend(length, sizeof length);
    memcpy(length_wrong, length, sizeof length);
    length_wrong[2] += 65536;
    lengths_wrong = (const uint32_t *)(const void *)lend(length_wrong, sizeof length_wrong);

#define WRITE(items_n, kinds, kinds_n, flags, flags_n, lengths, lengths_n, letters_n, day, room, number, length) \
    write_is(__LINE__, \
             vrbolist_write(items, items_n, kinds, kinds_n, flags, flags_n, lengths, lengths_n, letters, letters_n, version, day, \
                            out, room), \
             number, 0, length)
    WRITE(items_len, kinds_wrong, 3, flags, 3, lengths, 3, 6, DAY, room, VRBOLIST_ARGUMENT, 0);
    WRITE(items_len, kinds, 3, flags_wrong, 3, lengths, 3, 6, DAY, room, VRBOLIST_ARGUMENT, 0);
    WRITE(items_len, kinds, 3, flags, 3, lengths_wrong, 3, 6, DAY, room, VRBOLIST_ARGUMENT, 0);
    WRITE(items_len, kinds, 3, flags, 3, lengths, 3, 6, 20260229, room, VRBOLIST_ARGUMENT, 0);
    WRITE(items_len, kinds, 3, flags, 3, lengths, 3, 6, UINT64_MAX, room, VRBOLIST_ARGUMENT, 0);
    WRITE(items_len, kinds, 2, flags, 3, lengths, 3, 6, DAY, room, VRBOLIST_ARGUMENT, 0);
    WRITE(items_len, kinds, 3, flags, 2, lengths, 3, 6, DAY, room, VRBOLIST_ARGUMENT, 0);
    WRITE(items_len, kinds, 3, flags, 3, lengths, 2, 6, DAY, room, VRBOLIST_ARGUMENT, 0);
    WRITE(items_len, kinds, 3, flags, 3, lengths, 3, 5, DAY, room, VRBOLIST_ARGUMENT, 0);
    WRITE(items_len, kinds, 3, flags, 3, lengths, 3, 3, DAY, room, VRBOLIST_ARGUMENT, 0);
    WRITE(items_len, kinds, 3, flags, 3, lengths, 3, 0, DAY, room, VRBOLIST_ARGUMENT, 0);
    WRITE(items_len - 1, kinds, 3, flags, 3, lengths, 3, 6, DAY, room, VRBOLIST_ARGUMENT, 0);
    WRITE(items_len, kinds, 3, flags, 3, lengths, 3, 6, DAY, image_len - 1, VRBOLIST_SHORT, 0);
    WRITE(items_len, kinds, 3, flags, 3, lengths, 3, 6, DAY, 0, VRBOLIST_SHORT, 0);
    CHECK(filled(out, room));
    if (version == 1) {
        write_is(__LINE__,
                 vrbolist_write(items, items_len, kinds, 3, flags, 3, lengths, 3, lend(true_letters, 6), 6, 1, DAY, out, room),
                 VRBOLIST_ARGUMENT, 0, 0);
        CHECK(filled(out, room));
    }
    WRITE(items_len, kinds, 3, flags, 3, lengths, 3, 6, DAY, room, 0, image_len);
    CHECK(memcmp(out, packed, items_len) == 0);
    CHECK(filled(out + image_len, room - image_len));
    memset(out, FILL, room);
    /* The image fills the output to its last byte. */
    out += room - image_len;
    WRITE(items_len, kinds, 3, flags, 3, lengths, 3, 6, DAY, image_len, 0, image_len);
    image.at = lend(out, image_len);
    image.len = image_len;
    return image;
}

static void entries(struct item image, struct item anchor, struct item signer, struct item crl, uint64_t version) {
    const uint8_t *letters = version == 2 ? true_letters : no_letters;
    image_is(__LINE__, vrbolist_image(image.at, image.len), 3, DAY, version);
    image_is(__LINE__, vrbolist_image_for_day(image.at, image.len, DAY), 3, DAY, version);
    image_refused(__LINE__, vrbolist_image_for_day(image.at, image.len, DAY + 1), VRBOLIST_DAY, 0);
    image_refused(__LINE__, vrbolist_image(image.at, image.len - 1), VRBOLIST_IMAGE, 2);
    image_refused(__LINE__, vrbolist_image(image.at + 1, image.len - 1), VRBOLIST_IMAGE, 5);
    entry_is(__LINE__, vrbolist_entry(image.at, image.len, 0), VRBOLIST_KIND_ANCHOR, 1, anchor.len, 0, letters);
    entry_is(__LINE__, vrbolist_entry(image.at, image.len, 1), VRBOLIST_KIND_SIGNER, 0, signer.len, anchor.len, letters);
    entry_is(__LINE__, vrbolist_entry(image.at, image.len, 2), VRBOLIST_KIND_CRL, 0, crl.len, anchor.len + signer.len, letters);
    entry_refused(__LINE__, vrbolist_entry(image.at, image.len, 3), VRBOLIST_ARGUMENT, 0);
    entry_refused(__LINE__, vrbolist_entry(image.at, image.len, UINT64_MAX), VRBOLIST_ARGUMENT, 0);
    entry_refused(__LINE__, vrbolist_entry(image.at + 1, image.len - 1, 3), VRBOLIST_IMAGE, 5);
}

/* Moves. */

/* The move of an image to the other version writes these bytes and no more, and needs room for all of them. */
static void moved(int line, vrbolist_write_answer (*move)(const uint8_t *, size_t, uint8_t *, size_t), struct item from,
                  struct item to) {
    uint8_t *out = output(to.len + 9), *exact = output(to.len);
    write_is(line, move(from.at, from.len, out, to.len - 1), VRBOLIST_SHORT, 0, 0);
    write_is(line, move(from.at, from.len, out, 0), VRBOLIST_SHORT, 0, 0);
    write_is(line, move(to.at, to.len, out, to.len + 9), VRBOLIST_IMAGE, 2, 0);
    write_is(line, move(from.at + 1, from.len - 1, out, to.len + 9), VRBOLIST_IMAGE, 5, 0);
    check(line, "kept", filled(out, to.len + 9), 1);
    write_is(line, move(from.at, from.len, out, to.len + 9), 0, 0, to.len);
    check(line, "moved", memcmp(out, to.at, to.len) == 0 && filled(out + to.len, 9), 1);
    write_is(line, move(from.at, from.len, exact, to.len), 0, 0, to.len);
    check(line, "moved", memcmp(exact, to.at, to.len) == 0, 1);
}

static void moves(struct item one, struct item two) {
    uint8_t *changed = output(two.len);
    size_t place, at;
    moved(__LINE__, vrbolist_move_to_2, one, two);
    moved(__LINE__, vrbolist_move_to_1, two, one);
    letters_are(__LINE__, vrbolist_letters(two.at, two.len), 0, 0, 1);
    letters_are(__LINE__, vrbolist_letters(one.at, one.len), VRBOLIST_IMAGE, 2, 0);
    letters_are(__LINE__, vrbolist_letters(two.at + 1, two.len - 1), VRBOLIST_IMAGE, 5, 0);
    for (place = 0; place < 3; place++) {
        for (at = 8; at < 12; at++) {
            size_t octet = two.len - 12 - 12 * (3 - place) + at;
            memcpy(changed, two.at, two.len);
            changed[octet] ^= 1;
            /* A letter is free, and false; behind the letters stand zeros. */
            if (at < 10) {
                image_is(__LINE__, vrbolist_image(changed, two.len), 3, DAY, 2);
                letters_are(__LINE__, vrbolist_letters(changed, two.len), 0, 0, 0);
            } else {
                image_refused(__LINE__, vrbolist_image(changed, two.len), VRBOLIST_IMAGE, 6);
                letters_are(__LINE__, vrbolist_letters(changed, two.len), VRBOLIST_IMAGE, 6, 0);
            }
        }
    }
}

/* Room. */

static void room_is(int line, vrbolist_room_answer answer, uint64_t number, uint64_t detail, uint64_t length,
                    uint64_t table_length, uint64_t entries) {
    HEAD(answer, number, detail);
    FIELD(answer, length, length);
    FIELD(answer, table_length, table_length);
    FIELD(answer, entries, entries);
}

/* At a moment these items stay, packed in `items`, and these verdicts; one byte less in either output is 9. */
static void room_left(int line, struct item image, const uint8_t *table, uint64_t moment, struct item items,
                      const uint8_t *kinds, const uint32_t *lengths, size_t entries, uint64_t version, const uint8_t *verdicts) {
    static const uint8_t flags[] = {0, 0};
    const uint8_t *letters = version == 2 ? true_letters : no_letters;
    size_t cells = entries * entries, len = items.len + (version == 2 ? 12 : 8) * entries + 12;
    uint8_t *wanted = output(len), *out = output(len + 7), *table_out = output(cells + 5);
    write_is(line, vrbolist_write(items.at, items.len, kinds, entries, flags, entries, lengths, entries, letters, 2 * entries,
                                  version, DAY, wanted, len), 0, 0, len);
    room_is(line, vrbolist_make_room(image.at, image.len, table, 9, moment, out, len - 1, table_out, cells + 5),
            VRBOLIST_SHORT, 0, 0, 0, 0);
    if (cells > 0) {
        room_is(line, vrbolist_make_room(image.at, image.len, table, 9, moment, out, len + 7, table_out, cells - 1),
                VRBOLIST_SHORT, 0, 0, 0, 0);
    }
    check(line, "kept", filled(out, len + 7) && filled(table_out, cells + 5), 1);
    room_is(line, vrbolist_make_room(image.at, image.len, table, 9, moment, out, len + 7, table_out, cells + 5), 0, 0, len,
            cells, entries);
    check(line, "image", memcmp(out, wanted, len) == 0 && filled(out + len, 7), 1);
    check(line, "table", memcmp(table_out, verdicts, cells) == 0 && filled(table_out + cells, 5), 1);
    out = output(len);
    table_out = output(cells);
    room_is(line, vrbolist_make_room(image.at, image.len, table, 9, moment, out, len, table_out, cells), 0, 0, len, cells,
            entries);
    check(line, "exact", memcmp(out, wanted, len) == 0 && memcmp(table_out, verdicts, cells) == 0, 1);
}

/* The anchor ends at the end of November 2026, the CRL's next update is 06:00 of the day after, the signer goes on to 2031. */
static void rooms(struct item image, struct item anchor, struct item signer, struct item crl, uint64_t version) {
    static const uint8_t verdicts[] = {1, 0, 1, 0, 0, 1, 0, 0, 1}, last[] = {0, 1, 0, 1}, wrong[] = {0, 0, 0, 0, 0, 0, 0, 0, 2},
                         kinds[] = {3, 4};
    const uint8_t *table = lend(verdicts, 9);
    uint8_t *out = output(image.len), *table_out = output(9);
    struct item rest;
    uint32_t lengths[2];
#define ROOM(image, image_n, table, table_n, moment, number, detail) \
    room_is(__LINE__, vrbolist_make_room(image, image_n, table, table_n, moment, out, 0, table_out, 0), number, detail, 0, 0, 0)
    ROOM(image.at + 1, image.len - 1, NULL, 0, UINT64_MAX, VRBOLIST_IMAGE, 5);
    ROOM(NULL, 0, NULL, 0, 0, VRBOLIST_IMAGE, 1);
    ROOM(image.at, image.len, table, 8, MOMENT, VRBOLIST_ARGUMENT, 0);
    ROOM(image.at, image.len, lend(wrong, 9), 9, MOMENT, VRBOLIST_ARGUMENT, 0);
    ROOM(image.at, image.len, table, 9, 20261115126000, VRBOLIST_ARGUMENT, 0);
    ROOM(image.at, image.len, table, 9, UINT64_MAX, VRBOLIST_ARGUMENT, 0);
    ROOM(image.at, image.len, table, 9, MOMENT, VRBOLIST_SHORT, 0);
    CHECK(filled(out, image.len) && filled(table_out, 9));
    /* At the last second of the anchor all stay. */
    room_is(__LINE__, vrbolist_make_room(image.at, image.len, table, 9, 20261130235959, out, image.len, table_out, 9), 0, 0,
            image.len, 9, 3);
    CHECK(memcmp(out, image.at, image.len) == 0 && memcmp(table_out, verdicts, 9) == 0);
    rest.at = image.at + anchor.len;
    rest.len = signer.len + crl.len;
    lengths[0] = (uint32_t)signer.len;
    lengths[1] = (uint32_t)crl.len;
    room_left(__LINE__, image, table, 20261201000000, rest, kinds, lengths, 2, version, last);
    room_left(__LINE__, image, table, 20261201060000, rest, kinds, lengths, 2, version, last);
    rest.len = signer.len;
    room_left(__LINE__, image, table, 20261201060001, rest, kinds, lengths, 1, version, last);
    rest.len = 0;
    room_left(__LINE__, image, table, 20991231235959, rest, kinds, lengths, 0, version, last);
}

/* Anchors of a country. */

static void anchors_are(int line, vrbolist_anchors_answer answer, uint64_t number, uint64_t detail, uint64_t count) {
    size_t i;
    HEAD(answer, number, detail);
    FIELD(answer, count, count);
    for (i = 0; i < VRBOLIST_PLACES; i++) {
        FIELD(answer, places[i], i < count ? i : VRBOLIST_NO_PLACE);
    }
}

/* Of an image of a version whose only anchor is at place 0 and of the country UT; in version 2 its letters are at `letters`. */
static void anchors(struct item image, uint64_t version) {
    static const uint64_t wrong[] = {0, 64, '[', 'a', 'u', 255, 256, 256 + 'U', 4294967296 + 'U', UINT64_MAX};
    const size_t index = image.len - 12 - 3 * 12, letters = index + 8;
    uint8_t *changed = guarded(image.len);
    size_t i;
#define FULL(image, image_n, first, second, number, detail, count) \
    anchors_are(__LINE__, vrbolist_anchors(image, image_n, first, second), number, detail, count)
#define SHORT(image, image_n, first, second, number, detail, count) \
    anchors_are(__LINE__, vrbolist_anchors_by_index(image, image_n, first, second), number, detail, count)
#define ANCHORS(image, image_n, first, second, number, detail, count) \
    (FULL(image, image_n, first, second, number, detail, count), SHORT(image, image_n, first, second, number, detail, count))
    for (i = 0; i < sizeof wrong / sizeof *wrong; i++) {
        ANCHORS(image.at, image.len, wrong[i], 'T', VRBOLIST_ARGUMENT, 0, 0);
        ANCHORS(image.at, image.len, 'U', wrong[i], VRBOLIST_ARGUMENT, 0, 0);
        ANCHORS(NULL, 0, wrong[i], wrong[i], VRBOLIST_ARGUMENT, 0, 0);
    }
    ANCHORS(NULL, 0, 'U', 'T', VRBOLIST_IMAGE, 1, 0);
    FULL(image.at, image.len, 'U', 'T', 0, 0, 1);
    FULL(image.at, image.len, 'T', 'U', 0, 0, 0);
    FULL(image.at, image.len, 'A', 'Z', 0, 0, 0);
    FULL(image.at + 1, image.len - 1, 'U', 'T', VRBOLIST_IMAGE, 5, 0);
    if (version == 1) {
        SHORT(image.at, image.len, 'U', 'T', VRBOLIST_IMAGE, 2, 0);
        SHORT(image.at + 1, image.len - 1, 'U', 'T', VRBOLIST_IMAGE, 2, 0);
        return;
    }
    SHORT(image.at, image.len, 'U', 'T', 0, 0, 1);
    SHORT(image.at, image.len, 'T', 'U', 0, 0, 0);
    SHORT(image.at, image.len, 'A', 'Z', 0, 0, 0);
    SHORT(image.at + 1, image.len - 1, 'U', 'T', VRBOLIST_IMAGE, 5, 0);
    memcpy(changed, image.at, image.len);
    changed[letters] = 'A';
    changed[letters + 1] = 'Z';
    FULL(changed, image.len, 'U', 'T', 0, 0, 1);
    SHORT(changed, image.len, 'U', 'T', 0, 0, 0);
    FULL(changed, image.len, 'A', 'Z', 0, 0, 0);
    SHORT(changed, image.len, 'A', 'Z', 0, 0, 1);
    memcpy(changed, image.at, image.len);
    changed[index + 1] = 0;
    ANCHORS(changed, image.len, 'U', 'T', 0, 0, 0);
    memcpy(changed, image.at, image.len);
    changed[0] ^= 1;
    FULL(changed, image.len, 'U', 'T', 0, 0, 0);
    SHORT(changed, image.len, 'U', 'T', 0, 0, 1);
}

/* 96 anchors, each listed. */
static void every_anchor(struct item anchor) {
    const size_t size = VRBOLIST_PLACES * (anchor.len + 12) + 12;
    uint8_t *items = guarded(VRBOLIST_PLACES * anchor.len), *out = output(size);
    uint8_t ones[VRBOLIST_PLACES], letters[2 * VRBOLIST_PLACES];
    uint32_t lengths[VRBOLIST_PLACES];
    size_t i;
    for (i = 0; i < VRBOLIST_PLACES; i++) {
        memcpy(items + i * anchor.len, anchor.at, anchor.len);
        ones[i] = 1;
        lengths[i] = (uint32_t)anchor.len;
        letters[2 * i] = 'U';
        letters[2 * i + 1] = 'T';
    }
    write_is(__LINE__,
             vrbolist_write(items, VRBOLIST_PLACES * anchor.len, ones, VRBOLIST_PLACES, ones, VRBOLIST_PLACES, lengths,
                            VRBOLIST_PLACES, letters, 2 * VRBOLIST_PLACES, 2, DAY, out, size),
             0, 0, size);
    letters_are(__LINE__, vrbolist_letters(out, size), 0, 0, 1);
    ANCHORS(out, size, 'U', 'T', 0, 0, VRBOLIST_PLACES);
    ANCHORS(out, size, 'X', 'O', 0, 0, 0);
}

/* Chains. */

static void chain_is(int line, vrbolist_chain_answer answer, uint64_t number, uint64_t detail, uint64_t length,
                     const uint8_t *places) {
    size_t i;
    HEAD(answer, number, detail);
    FIELD(answer, length, length);
    for (i = 0; i < VRBOLIST_PLACES; i++) {
        FIELD(answer, places[i], i < length ? places[i] : VRBOLIST_NO_PLACE);
    }
}

static void chains(struct item image) {
    static const uint8_t both[] = {1, 1, 1, 0, 0, 0, 0, 0, 0}, no_crl[] = {1, 1, 0, 0, 0, 0, 0, 0, 0},
                         no_signer[] = {1, 0, 1, 0, 0, 0, 0, 0, 0}, two[] = {1, 1, 1, 0, 0, 0, 0, 0, 2}, places[] = {0, 1};
    const uint8_t *table = lend(both, 9);
#define CHAIN(image, image_n, table, table_n, moment, target, number, detail, length) \
    (chain_is(__LINE__, vrbolist_chain(image, image_n, table, table_n, moment, target), number, detail, length, places), \
     chain_is(__LINE__, vrbolist_chain_by_rounds(image, image_n, table, table_n, moment, target), number, detail, length, places))
    CHAIN(image.at, image.len, table, 9, MOMENT, 1, 0, 0, 2);
    CHAIN(image.at, image.len, table, 9, 20261101060000, 1, 0, 0, 2);
    CHAIN(image.at, image.len, table, 9, 20261101055959, 1, VRBOLIST_CHAIN, 0, 0);
    CHAIN(image.at, image.len, lend(no_crl, 9), 9, MOMENT, 1, VRBOLIST_CHAIN, 0, 0);
    CHAIN(image.at, image.len, lend(no_signer, 9), 9, MOMENT, 1, VRBOLIST_CHAIN, 0, 0);
    CHAIN(image.at, image.len, lend(two, 9), 9, MOMENT, 1, VRBOLIST_ARGUMENT, 0, 0);
    CHAIN(image.at, image.len, table, 8, MOMENT, 1, VRBOLIST_ARGUMENT, 0, 0);
    CHAIN(image.at, image.len, NULL, 0, MOMENT, 1, VRBOLIST_ARGUMENT, 0, 0);
    CHAIN(image.at, image.len, table, 9, 20261115126000, 1, VRBOLIST_ARGUMENT, 0, 0);
    CHAIN(image.at, image.len, table, 9, UINT64_MAX, 1, VRBOLIST_ARGUMENT, 0, 0);
    CHAIN(image.at, image.len, table, 9, MOMENT, 0, VRBOLIST_ARGUMENT, 0, 0);
    CHAIN(image.at, image.len, table, 9, MOMENT, 3, VRBOLIST_ARGUMENT, 0, 0);
    CHAIN(image.at, image.len, table, 9, MOMENT, UINT64_MAX, VRBOLIST_ARGUMENT, 0, 0);
    CHAIN(image.at + 1, image.len - 1, table, 9, UINT64_MAX, 3, VRBOLIST_IMAGE, 5, 0);
    CHAIN(NULL, 0, NULL, 0, 0, 0, VRBOLIST_IMAGE, 1, 0);
}

/* Proposed chains: `image` is an anchor, a signer and a CRL. */

static void told_is(int line, vrbolist_told answer, uint64_t number, uint64_t detail) {
    HEAD(answer, number, detail);
}

static void proposals(struct item image) {
    static const uint8_t both[] = {1, 1, 1, 0, 0, 0, 0, 0, 0}, no_crl[] = {1, 1, 0, 0, 0, 0, 0, 0, 0},
                         two[] = {1, 1, 1, 0, 0, 0, 0, 0, 2}, good[] = {0, 1}, turned[] = {1, 0}, past[] = {0, 3},
                         none[] = {0, VRBOLIST_NO_PLACE}, again[] = {0, 0, 1};
    static uint8_t most[VRBOLIST_PLACES + 1];
    const uint8_t *table = lend(both, 9), *places = lend(good, 2), *many = lend(most, sizeof most);
#define PROPOSED(image, image_n, table, table_n, moment, target, places, places_n, number, detail) \
    told_is(__LINE__, vrbolist_proposal(image, image_n, table, table_n, moment, target, places, places_n), number, detail)
    PROPOSED(image.at, image.len, table, 9, MOMENT, 1, places, 2, 0, 0);
    PROPOSED(image.at, image.len, table, 9, 20261101060000, 1, places, 2, 0, 0);
    PROPOSED(image.at, image.len, table, 9, 20261101055959, 1, places, 2, VRBOLIST_CHAIN, 0);
    PROPOSED(image.at, image.len, lend(no_crl, 9), 9, MOMENT, 1, places, 2, VRBOLIST_CHAIN, 0);
    PROPOSED(image.at, image.len, table, 9, MOMENT, 1, lend(turned, 2), 2, VRBOLIST_CHAIN, 0);
    PROPOSED(image.at, image.len, table, 9, MOMENT, 1, lend(again, 3), 3, VRBOLIST_CHAIN, 0);
    PROPOSED(image.at, image.len, table, 9, MOMENT, 1, many, VRBOLIST_PLACES, VRBOLIST_CHAIN, 0);
    PROPOSED(image.at, image.len, table, 9, MOMENT, 1, many, sizeof most, VRBOLIST_ARGUMENT, 0);
    PROPOSED(image.at, image.len, table, 9, MOMENT, 1, places, 1, VRBOLIST_ARGUMENT, 0);
    PROPOSED(image.at, image.len, table, 9, MOMENT, 1, NULL, 0, VRBOLIST_ARGUMENT, 0);
    PROPOSED(image.at, image.len, table, 9, MOMENT, 1, lend(past, 2), 2, VRBOLIST_ARGUMENT, 0);
    PROPOSED(image.at, image.len, table, 9, MOMENT, 1, lend(none, 2), 2, VRBOLIST_ARGUMENT, 0);
    PROPOSED(image.at, image.len, lend(two, 9), 9, MOMENT, 1, places, 2, VRBOLIST_ARGUMENT, 0);
    PROPOSED(image.at, image.len, table, 9, UINT64_MAX, 1, places, 2, VRBOLIST_ARGUMENT, 0);
    PROPOSED(image.at, image.len, table, 9, MOMENT, 2, places, 2, VRBOLIST_ARGUMENT, 0);
    PROPOSED(image.at, image.len, table, 9, MOMENT, UINT64_MAX, places, 2, VRBOLIST_ARGUMENT, 0);
    PROPOSED(image.at + 1, image.len - 1, table, 9, MOMENT, 1, NULL, 0, VRBOLIST_IMAGE, 5);
    PROPOSED(NULL, 0, NULL, 0, 0, 0, NULL, 0, VRBOLIST_IMAGE, 1);
}

/* Every signer in one call. */

static void signers_is(int line, vrbolist_signers_answer answer, uint64_t number, uint64_t detail, uint64_t length) {
    HEAD(answer, number, detail);
    FIELD(answer, length, length);
}

/* A record has the length of a chain, its places, and no place in each other slot. */
static void record_is(int line, const uint8_t *record, uint64_t length, const uint8_t *places) {
    size_t i;
    check(line, "length", record[0], (long long)length);
    for (i = 0; i < VRBOLIST_PLACES; i++) {
        check(line, "slot", record[i + 1], i < length ? places[i] : VRBOLIST_NO_PLACE);
    }
}

static void all_signers(struct item image) {
    static const uint8_t both[] = {1, 1, 1, 0, 0, 0, 0, 0, 0}, no_crl[] = {1, 1, 0, 0, 0, 0, 0, 0, 0},
                         two[] = {1, 1, 1, 0, 0, 0, 0, 0, 2}, places[] = {0, 1};
    const size_t size = 3 * VRBOLIST_SIGNER_RECORD;
    const uint8_t *table = lend(both, 9);
    uint8_t *out = output(size);
#define SIGNERS(image, image_n, table, table_n, moment, out_n, number, detail, length) \
    signers_is(__LINE__, vrbolist_all_signers(image, image_n, table, table_n, moment, out, out_n), number, detail, length)
    SIGNERS(image.at + 1, image.len - 1, table, 8, UINT64_MAX, 0, VRBOLIST_IMAGE, 5, 0);
    SIGNERS(image.at, image.len, table, 8, MOMENT, size, VRBOLIST_ARGUMENT, 0, 0);
    SIGNERS(image.at, image.len, lend(two, 9), 9, MOMENT, size, VRBOLIST_ARGUMENT, 0, 0);
    SIGNERS(image.at, image.len, table, 9, 20261115126000, 0, VRBOLIST_ARGUMENT, 0, 0);
    SIGNERS(image.at, image.len, table, 9, MOMENT, size - 1, VRBOLIST_SHORT, 0, 0);
    SIGNERS(image.at, image.len, table, 9, MOMENT, 0, VRBOLIST_SHORT, 0, 0);
    CHECK(filled(out, size));
    SIGNERS(image.at, image.len, table, 9, MOMENT, size, 0, 0, size);
    record_is(__LINE__, out, 0, places);
    record_is(__LINE__, out + VRBOLIST_SIGNER_RECORD, 2, places);
    record_is(__LINE__, out + 2 * VRBOLIST_SIGNER_RECORD, 0, places);
    SIGNERS(image.at, image.len, lend(no_crl, 9), 9, MOMENT, size, 0, 0, size);
    record_is(__LINE__, out + VRBOLIST_SIGNER_RECORD, 0, places);
    out = output(size + 5);
    SIGNERS(image.at, image.len, table, 9, MOMENT, size + 5, 0, 0, size);
    CHECK(out[VRBOLIST_SIGNER_RECORD] == 2 && filled(out + size, 5));
    signers_is(__LINE__, vrbolist_all_signers(NULL, 0, NULL, 0, 0, NULL, 0), VRBOLIST_IMAGE, 1, 0);
}

/* Tray logs. */

static void replay_is(int line, vrbolist_replay_answer answer, uint64_t number, uint64_t detail, uint64_t faulty) {
    HEAD(answer, number, detail);
    FIELD(answer, faulty, faulty);
}

static void record(uint8_t *at, unsigned action, unsigned unit, uint32_t day) {
    at[0] = (uint8_t)action;
    at[1] = (uint8_t)unit;
    at[2] = at[3] = 0;
    at[4] = (uint8_t)(day >> 24);
    at[5] = (uint8_t)(day >> 16);
    at[6] = (uint8_t)(day >> 8);
    at[7] = (uint8_t)day;
}

/* A lent list that ends where a page begins that may not be touched. */
static uint64_t *list_of(size_t count) {
    return (uint64_t *)(void *)output(count * sizeof(uint64_t));
}

static int untouched(const uint64_t *from, size_t count) {
    return filled((const uint8_t *)from, count * sizeof *from);
}

#define NIGHT (VRBOLIST_UNITS + 2) /* records of a night */

/* The night with yesterday's image: every burn is faulty. Then the same with the image of the day. */
static void replays(void) {
    uint8_t bytes[(NIGHT + 1) * VRBOLIST_RECORD];
    const uint8_t *log;
    uint64_t *list, i;
    record(bytes, VRBOLIST_ACTION_OPEN, 0, DAY);
    record(bytes + VRBOLIST_RECORD, VRBOLIST_ACTION_LOAD, 0, DAY - 1);
    for (i = 1; i <= VRBOLIST_UNITS; i++) {
        record(bytes + (i + 1) * VRBOLIST_RECORD, VRBOLIST_ACTION_BURN, (unsigned)i, 0);
    }
    log = lend(bytes, NIGHT * VRBOLIST_RECORD);
    list = list_of(VRBOLIST_UNITS);
    replay_is(__LINE__, vrbolist_replay(log, NIGHT * VRBOLIST_RECORD, list, VRBOLIST_UNITS), 0, 0, VRBOLIST_UNITS);
    for (i = 0; i < VRBOLIST_UNITS; i++) {
        CHECK(list[i] == i + 2);
    }
    list = list_of(NIGHT);
    replay_is(__LINE__, vrbolist_replay(log, NIGHT * VRBOLIST_RECORD, list, NIGHT), 0, 0, VRBOLIST_UNITS);
    CHECK(list[0] == 2 && list[VRBOLIST_UNITS - 1] == NIGHT - 1 && untouched(list + VRBOLIST_UNITS, 2));
    list = list_of(VRBOLIST_UNITS - 1);
    replay_is(__LINE__, vrbolist_replay(log, NIGHT * VRBOLIST_RECORD, list, VRBOLIST_UNITS - 1), VRBOLIST_SHORT, 0, 0);
    CHECK(untouched(list, VRBOLIST_UNITS - 1));
    replay_is(__LINE__, vrbolist_replay(log, NIGHT * VRBOLIST_RECORD - 7, list, 0), VRBOLIST_ARGUMENT, 0, 0);
    replay_is(__LINE__, vrbolist_replay(NULL, 0, NULL, 0), 0, 0, 0);

    record(bytes + VRBOLIST_RECORD, VRBOLIST_ACTION_LOAD, 0, DAY);
    record(bytes + NIGHT * VRBOLIST_RECORD, VRBOLIST_ACTION_BURN, VRBOLIST_UNITS, 0);
    log = lend(bytes, sizeof bytes);
    replay_is(__LINE__, vrbolist_replay(log, NIGHT * VRBOLIST_RECORD, NULL, 0), 0, 0, 0);
    list = list_of(3);
    replay_is(__LINE__, vrbolist_replay(log, sizeof bytes, list, 3), 0, 0, 1);
    CHECK(list[0] == NIGHT && untouched(list + 1, 2));
}

int main(int argc, char **argv) {
    struct item anchor, signer, crl, one, two;
    if (argc != 2) {
        fprintf(stderr, "usage: vrbolist_test DATA\n");
        return 2;
    }
    anchor = read_item(argv[1], "ut-anchor-1.der");
    signer = read_item(argv[1], "ut-signer-1.der");
    crl = read_item(argv[1], "ut-crl-yesterday.der");
    layout();
    walks();
    integers();
    days(crl, anchor);
    certificates(anchor, signer);
    crls(crl, anchor);
    small_image(1);
    small_image(2);
    no_images();
    long_image(1, 8);
    long_image(2, 12);
    long_move();
    one = three(anchor, signer, crl, 1);
    two = three(anchor, signer, crl, 2);
    entries(one, anchor, signer, crl, 1);
    entries(two, anchor, signer, crl, 2);
    moves(one, two);
    rooms(one, anchor, signer, crl, 1);
    rooms(two, anchor, signer, crl, 2);
    anchors(one, 1);
    anchors(two, 2);
    every_anchor(anchor);
    chains(one);
    chains(two);
    proposals(one);
    proposals(two);
    all_signers(one);
    all_signers(two);
    replays();
    CHECK(all_kept());
    printf("%lu passed, %lu failed\n", passed, failed);
    return failed > 0;
}
