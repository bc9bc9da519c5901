/* Runs the samples of document 01 through the C ABI, in both modes, calls of the writer on states that hold
   anything, and prune with memory of every length. Prints what differs, a line each, and exits with 1 if anything does. */
#include <stdio.h>
#include <string.h>

#include "twine.h"

#define WORDS 64
#define ROOM 512
#define JUNK 0xaaaaaaaau

static int failures;

/* The mode in which the reading calls ask. */
static uint32_t mode = TWINE_STRICT;

static void expect(int line, const char *what, uint64_t got, uint64_t want) {
    if (got != want) {
        printf("test.c:%d: %s: %llu, and not %llu, in mode %lu\n", line, what, (unsigned long long)got,
               (unsigned long long)want, (unsigned long)mode);
        failures++;
    }
}

#define EXPECT(got, want) expect(__LINE__, #got, (uint64_t)(got), (uint64_t)(want))

/* A byte string literal as pointer and length. */
#define BYTES(s) (const uint8_t *)(s), sizeof(s) - 1

/* ---- check and depths */

/* What check and depths are to return: the answer, out, and the first words of the tables; the others are 0. */
struct checked {
    uint32_t error;
    uint64_t out[2];
    size_t count;
    uint32_t starts[4], depths[4];
};

/* Checks a file, given tables of junk. */
static void check(int line, const uint8_t *file, size_t len, struct checked want) {
    uint32_t starts[WORDS], depths[WORDS];
    for (int deep = 0; deep < 2; deep++) {
        uint64_t out[2] = {JUNK, JUNK};
        memset(starts, 0xaa, sizeof starts);
        memset(depths, 0xaa, sizeof depths);
        uint32_t error = deep ? twine_depths(file, len, mode, starts, WORDS, depths, WORDS, out)
                              : twine_check(file, len, mode, starts, WORDS, out);
        expect(line, deep ? "twine_depths" : "twine_check", error, want.error);
        expect(line, "out[0]", out[0], want.out[0]);
        expect(line, "out[1]", out[1], want.out[1]);
        for (size_t i = 0; i < WORDS; i++) {
            expect(line, "a start", starts[i], i < want.count ? want.starts[i] : 0);
            expect(line, "a depth", depths[i], !deep ? JUNK : i < want.count ? want.depths[i] : 0);
        }
    }
}

#define REFUSED(file, error, place) check(__LINE__, BYTES(file), (struct checked){error, {place, 0}, 0, {0}, {0}})
#define ACCEPTED(file, count, entry, ...) \
    check(__LINE__, BYTES(file), (struct checked){TWINE_OK, {count, entry}, count, __VA_ARGS__})

#define HELLO "\x45hello\x61\xf6\x62\xf8\xf3\x72\x41\x61\xf5\x41\x78\x01\x06"
#define LEAST "\x2f\xf0\xff\xff\xff\xff\xff\xff\xff\x7f\x09"

static void samples(void) {
    REFUSED("", TWINE_EMPTY, 0);
    REFUSED("\x00", TWINE_BAD_ENTRY, 0);
    ACCEPTED("\x00\x00", 1, 0, {0}, {1});
    ACCEPTED(HELLO, 4, 11, {0, 6, 8, 11}, {1, 2, 3, 4});
    ACCEPTED("\x61\x1f\x1b\x64\xf3\x11\x12\x13\x04", 2, 3, {0, 3}, {1, 2});
    REFUSED("\x61\xf0\x01", TWINE_BAD_TARGET, 1);
    ACCEPTED("\x1f\x1b\xe1\x00", 2, 2, {0, 2}, {1, 2});
    REFUSED("\x61\x61\x00\x02", TWINE_NESTED, 1);
    REFUSED("\x7f\xf1\xff\xff\xff\xff\xff\xff\xff\x7f\x00", TWINE_LONG_LIST, 10);
    ACCEPTED(LEAST, 1, 0, {0}, {1});
    REFUSED("\x1f\xf1\xff\xff\xff\xff\xff\xff\xff\x7f\x09", TWINE_RANGE, 0);
    REFUSED("\x42\xc3\x28\x02", TWINE_BAD_TEXT, 0);
    REFUSED("\x43\xed\xa0\x80\x03", TWINE_BAD_TEXT, 0);
    REFUSED("\x41\x61\x41\x61\x00", TWINE_BAD_ENTRY, 4);
    REFUSED("\x41\x61\x41\x61\x05", TWINE_BAD_ENTRY, 4);
    REFUSED("\x90\x00", TWINE_RESERVED, 0);
}

/* What goes past the region's end. */
static void ends(void) {
    /* a length; the place is just after the numbers, even if the region ends there */
    REFUSED("\x45\x61\x00", TWINE_LONG_BODY, 1);
    REFUSED("\x52\x61\x00", TWINE_LONG_BODY, 1);
    REFUSED("\x41\x00", TWINE_LONG_BODY, 1);
    REFUSED("\x61\x45\x61\x00", TWINE_LONG_BODY, 2);
    REFUSED("\x5f\x01\x61\x00", TWINE_LONG_BODY, 2);
    ACCEPTED("\x41\x61\x01", 1, 0, {0}, {1});
    /* RANGE comes before it, BAD_TEXT after it */
    REFUSED("\x4f\xf1\xff\xff\xff\xff\xff\xff\xff\xff\x01\x00", TWINE_RANGE, 0);
    REFUSED("\x4f\xf0\xff\xff\xff\xff\xff\xff\xff\xff\x01\x00", TWINE_LONG_BODY, 11);
    REFUSED("\x43\xc3\x28\x00", TWINE_LONG_BODY, 1);

    /* a count of items or arguments, and one of pairs */
    REFUSED("\x62\x10\x00", TWINE_LONG_LIST, 1);
    REFUSED("\x61\x00", TWINE_LONG_LIST, 1);
    REFUSED("\x6f\x01\x10\x00", TWINE_LONG_LIST, 2);
    REFUSED("\xc0\x02\x10\x00", TWINE_LONG_LIST, 2);
    REFUSED("\xcf\x00\x02\x10\x00", TWINE_LONG_LIST, 3);
    REFUSED("\x71\x10\x00", TWINE_LONG_LIST, 1);
    REFUSED("\x72\x10\x10\x10\x00", TWINE_LONG_LIST, 1);
    ACCEPTED("\x71\x10\x10\x02", 1, 0, {0}, {1});
    ACCEPTED("\xc0\x01\x10\x02", 1, 0, {0}, {1});
    /* NESTED comes before it, the errors of the items after it */
    REFUSED("\x61\x63\x00", TWINE_NESTED, 1);
    REFUSED("\x63\x90\x90\x00", TWINE_LONG_LIST, 1);

    /* a number, a float, and an item */
    REFUSED("\x1f\x80\x00", TWINE_TRUNC, 0);
    REFUSED("\x4f\x00", TWINE_TRUNC, 0);
    REFUSED("\xc0\x00", TWINE_TRUNC, 0);
    REFUSED("\x61\x1f\x00", TWINE_TRUNC, 1);
    REFUSED("\x30\x01\x02\x03\x00", TWINE_TRUNC, 0);
    REFUSED("\x61\x31\x01\x00", TWINE_TRUNC, 1);
    REFUSED("\x62\x41\x61\x00", TWINE_TRUNC, 3);
    REFUSED("\x80\x00", TWINE_TRUNC, 1);
    REFUSED("\xb0\x00", TWINE_TRUNC, 1);
}

/* The hello sample, cut after each byte. */
static void cuts(void) {
    static const struct {
        uint32_t error;
        uint64_t place;
    } want[] = {
        {TWINE_EMPTY, 0},
        {TWINE_BAD_ENTRY, 0},
        /* in "hello" */
        {TWINE_LONG_BODY, 1}, {TWINE_LONG_BODY, 1}, {TWINE_LONG_BODY, 1}, {TWINE_LONG_BODY, 1}, {TWINE_LONG_BODY, 1},
        {TWINE_BAD_ENTRY, 6},
        /* in the two arrays */
        {TWINE_LONG_LIST, 7},
        {TWINE_BAD_ENTRY, 8},
        {TWINE_LONG_LIST, 9}, {TWINE_LONG_LIST, 9},
        {TWINE_BAD_ENTRY, 11},
        /* in the map: bytes for less than its items, inside its second key, and after that */
        {TWINE_LONG_LIST, 12}, {TWINE_LONG_LIST, 12}, {TWINE_LONG_LIST, 12}, {TWINE_LONG_LIST, 12},
        {TWINE_LONG_BODY, 16},
        {TWINE_TRUNC, 17},
    };
    EXPECT(sizeof want / sizeof want[0], sizeof HELLO - 1);
    for (size_t len = 0; len < sizeof want / sizeof want[0]; len++) {
        check(__LINE__, (const uint8_t *)HELLO, len,
              (struct checked){want[len].error, {want[len].place, 0}, 0, {0}, {0}});
    }
}

/* Tables that are too short, and a file that is too long. */
static void short_tables(void) {
    static uint8_t file[TWINE_LIMIT + 1];
    uint32_t starts[4] = {JUNK, JUNK, JUNK, JUNK}, depths[4] = {JUNK, JUNK, JUNK, JUNK};
    uint64_t out[2];
    EXPECT(twine_check(BYTES(HELLO), mode, starts, 3, out), TWINE_FULL);
    EXPECT(out[0], 11);
    EXPECT(out[1], 0);
    EXPECT(starts[0] | starts[1] | starts[2], 0);
    EXPECT(starts[3], JUNK);
    EXPECT(twine_depths(BYTES(HELLO), mode, starts, 4, depths, 2, out), TWINE_FULL);
    EXPECT(out[0], 8);
    EXPECT(starts[0] | starts[1] | starts[2] | starts[3] | depths[0] | depths[1], 0);
    EXPECT(depths[2], JUNK);
    EXPECT(twine_check(file, sizeof file, mode, starts, 4, out), TWINE_TOO_LONG);
    EXPECT(twine_read(file, sizeof file, mode, 0, (uint64_t[4]){0}), TWINE_TOO_LONG);
}

/* ---- queries */

static void read_at(int line, const uint8_t *file, size_t len, size_t at, uint32_t error, const uint64_t want[4]) {
    uint64_t out[4] = {JUNK, JUNK, JUNK, JUNK};
    expect(line, "twine_read", twine_read(file, len, mode, at, out), error);
    expect(line, "out[0]", out[0], want[0]);
    expect(line, "out[1]", out[1], want[1]);
    expect(line, "out[2]", out[2], want[2]);
    expect(line, "out[3]", out[3], want[3]);
}

#define READ(file, at, kind, number, first, count) \
    read_at(__LINE__, BYTES(file), at, TWINE_OK, (const uint64_t[4]){kind, number, first, count})
#define READ_ERROR(file, at, error, place) read_at(__LINE__, BYTES(file), at, error, (const uint64_t[4]){place, 0, 0, 0})

/* The call, its answer, and what it leaves in out. */
#define ANSWER(call, error, first, second) \
    do { \
        uint64_t out[2] = {JUNK, JUNK}; \
        EXPECT(call, error); \
        EXPECT(out[0], first); \
        EXPECT(out[1], second); \
    } while (0)

static void queries(void) {
    /* every kind, with a number in the header and with one after it */
    READ("\x02\x00", 0, TWINE_KIND_SCALAR, 2, 1, 0);
    READ("\x13\x00", 0, TWINE_KIND_INTEGER, 3, 1, 0);
    READ("\x1f\x1b\x00", 0, TWINE_KIND_INTEGER, 42, 2, 0);
    READ("\x20\x00", 0, TWINE_KIND_NEGATIVE, (uint64_t)-1, 1, 0);
    READ(LEAST, 0, TWINE_KIND_NEGATIVE, (uint64_t)INT64_MIN, 10, 0);
    READ("\x30\x01\x02\x03\x84\x00", 0, TWINE_KIND_FLOAT, 0x84030201u, 1, 4);
    READ("\x31\x01\x02\x03\x04\x05\x06\x07\x88\x00", 0, TWINE_KIND_FLOAT, 0x8807060504030201u, 1, 8);
    READ("\x42hi\x00", 0, TWINE_KIND_TEXT, 2, 1, 2);
    READ("\x5f\x00" "123456789012345\x00", 0, TWINE_KIND_BYTES, 15, 2, 15);
    READ("\x62\x00\x01\x00", 0, TWINE_KIND_ARRAY, 2, 1, 2);
    READ("\x71\x00\x01\x00", 0, TWINE_KIND_MAP, 1, 1, 2);
    READ("\x8f\x01\x00\x00", 0, TWINE_KIND_TAG, 16, 2, 1);
    READ("\xaf\xf0\xff\xff\xff\x0f\x00", 0, TWINE_KIND_VARIANT, 0xffffffffu, 6, 0);
    READ("\xb4\x00\x00", 0, TWINE_KIND_VARIANT1, 4, 1, 1);
    READ("\xc5\x02\x00\x01\x00", 0, TWINE_KIND_VARIANTN, 5, 2, 2);
    READ("\x00\x01\xe1\x00", 2, TWINE_KIND_REFERENCE, 0, 3, 0);
    READ("\x00\x01\xf0\x00", 2, TWINE_KIND_POINTER, 1, 3, 0);
    READ("\x42\xc3\x28\x02", 0, TWINE_KIND_TEXT, 2, 1, 2);
    READ_ERROR("\x00\x01\xf2\x00", 2, TWINE_BAD_TARGET, 2);
    READ_ERROR("\x90\x00", 0, TWINE_RESERVED, 0);
    READ_ERROR("\x00\x00", 1, TWINE_OUTSIDE, 1);
    READ_ERROR("\x00\x00", SIZE_MAX, TWINE_OUTSIDE, SIZE_MAX);
    READ_ERROR("", 0, TWINE_EMPTY, 0);

    READ(HELLO, 0, TWINE_KIND_TEXT, 5, 1, 5);
    READ(HELLO, 6, TWINE_KIND_ARRAY, 1, 7, 1);
    READ(HELLO, 7, TWINE_KIND_POINTER, 0, 8, 0);
    READ(HELLO, 11, TWINE_KIND_MAP, 2, 12, 4);
    ANSWER(twine_skip(BYTES(HELLO), mode, 11, out), TWINE_OK, 18, 0);
    ANSWER(twine_skip(BYTES("\x61\x61\x00\x02"), mode, 0, out), TWINE_NESTED, 1, 0);
    ANSWER(twine_skip(BYTES(HELLO), mode, 18, out), TWINE_OUTSIDE, 18, 0);

    ANSWER(twine_item(BYTES("\x61\x1f\x1b\x64\xf3\x11\x12\x13\x04"), mode, 3, 3, out), TWINE_OK, 7, 0);
    ANSWER(twine_item(BYTES("\x61\x1f\x1b\x64\xf3\x11\x12\x13\x04"), mode, 3, 4, out), TWINE_NO_ITEM, 3, 0);
    ANSWER(twine_item(BYTES(HELLO), mode, 11, 2, out), TWINE_OK, 15, 0);
    ANSWER(twine_item(BYTES(HELLO), mode, 11, SIZE_MAX, out), TWINE_NO_ITEM, 11, 0);
    ANSWER(twine_item(BYTES(HELLO), mode, 0, 0, out), TWINE_WRONG_KIND, 0, 0);

    ANSWER(twine_follow(BYTES(HELLO), mode, 7, out), TWINE_OK, 0, 1);
    ANSWER(twine_follow(BYTES(HELLO), mode, 14, out), TWINE_OK, 8, 1);
    ANSWER(twine_follow(BYTES("\x00\xf0\xf0\x00"), mode, 2, out), TWINE_OK, 0, 2);
    ANSWER(twine_follow(BYTES("\x61\xf1\x00"), mode, 1, out), TWINE_BAD_TARGET, 1, 0);

    ANSWER(twine_lookup(BYTES(HELLO), mode, 11, BYTES("a"), out), TWINE_OK, 14, 0);
    ANSWER(twine_lookup(BYTES(HELLO), mode, 11, BYTES("x"), out), TWINE_OK, 17, 0);
    ANSWER(twine_lookup(BYTES(HELLO), mode, 11, BYTES("b"), out), TWINE_NO_ITEM, 11, 0);
    ANSWER(twine_lookup(BYTES(HELLO), mode, 11, BYTES(""), out), TWINE_NO_ITEM, 11, 0);
    ANSWER(twine_lookup(BYTES(HELLO), mode, 8, BYTES("a"), out), TWINE_WRONG_KIND, 8, 0);

    ANSWER(twine_body(BYTES(HELLO), mode, 0, out), TWINE_OK, 1, 5);
    ANSWER(twine_body(BYTES(HELLO), mode, 7, out), TWINE_OK, 1, 5);
    ANSWER(twine_body(BYTES(HELLO), mode, 14, out), TWINE_WRONG_KIND, 8, 0);
}

/* A surrogate, and a map with a pointer to it and with the byte ff as keys: no query looks at the bytes of a text. */
#define NOT_UTF8 "\x43\xed\xa0\x80\x72\xf4\x11\x41\xff\x12\x05"

static void queries_of_text(void) {
    REFUSED(NOT_UTF8, TWINE_BAD_TEXT, 0);
    READ(NOT_UTF8, 0, TWINE_KIND_TEXT, 3, 1, 3);
    ANSWER(twine_skip(BYTES(NOT_UTF8), mode, 0, out), TWINE_OK, 4, 0);
    ANSWER(twine_skip(BYTES(NOT_UTF8), mode, 4, out), TWINE_OK, 10, 0);
    ANSWER(twine_item(BYTES(NOT_UTF8), mode, 4, 3, out), TWINE_OK, 9, 0);
    ANSWER(twine_follow(BYTES(NOT_UTF8), mode, 5, out), TWINE_OK, 0, 1);
    ANSWER(twine_lookup(BYTES(NOT_UTF8), mode, 4, BYTES("\xed\xa0\x80"), out), TWINE_OK, 6, 0);
    ANSWER(twine_lookup(BYTES(NOT_UTF8), mode, 4, BYTES("\xff"), out), TWINE_OK, 9, 0);
    ANSWER(twine_lookup(BYTES(NOT_UTF8), mode, 4, BYTES("\xed\xa0"), out), TWINE_NO_ITEM, 4, 0);
    ANSWER(twine_body(BYTES(NOT_UTF8), mode, 5, out), TWINE_OK, 1, 3);
    ANSWER(twine_body(BYTES(NOT_UTF8), mode, 7, out), TWINE_OK, 8, 1);
}

/* Queries on what goes past the region's end, in the value that is asked for, in its items, and in what is followed. */
static void queries_at_ends(void) {
    READ_ERROR("\x45\x61\x00", 0, TWINE_LONG_BODY, 1);
    READ_ERROR("\x61\x45\x61\x00", 1, TWINE_LONG_BODY, 2);
    READ_ERROR("\x63\x10\x00", 0, TWINE_LONG_LIST, 1);
    READ_ERROR("\x72\x10\x10\x10\x00", 0, TWINE_LONG_LIST, 1);
    READ_ERROR("\xcf\x00\x02\x10\x00", 0, TWINE_LONG_LIST, 3);
    READ_ERROR("\x1f\x80\x00", 0, TWINE_TRUNC, 0);
    READ_ERROR("\x30\x01\x02\x03\x00", 0, TWINE_TRUNC, 0);
    /* items are not read, not even looked for */
    READ("\x61\x45\x61\x00", 0, TWINE_KIND_ARRAY, 1, 1, 1);
    READ("\x81\x00", 0, TWINE_KIND_TAG, 1, 1, 1);

    ANSWER(twine_skip(BYTES("\x45\x61\x00"), mode, 0, out), TWINE_LONG_BODY, 1, 0);
    ANSWER(twine_skip(BYTES("\x61\x45\x61\x00"), mode, 0, out), TWINE_LONG_BODY, 2, 0);
    ANSWER(twine_skip(BYTES("\x63\x10\x00"), mode, 0, out), TWINE_LONG_LIST, 1, 0);
    ANSWER(twine_skip(BYTES("\x61\x1f\x00"), mode, 0, out), TWINE_TRUNC, 1, 0);
    ANSWER(twine_skip(BYTES("\x61\x31\x01\x00"), mode, 0, out), TWINE_TRUNC, 1, 0);
    ANSWER(twine_skip(BYTES("\x62\x41\x61\x00"), mode, 0, out), TWINE_TRUNC, 3, 0);
    ANSWER(twine_skip(BYTES("\x81\x00"), mode, 0, out), TWINE_TRUNC, 1, 0);

    /* the items before the one that is asked for are read; that one only starts in the region */
    ANSWER(twine_item(BYTES("\x62\x45\x61\x00"), mode, 0, 0, out), TWINE_OK, 1, 0);
    ANSWER(twine_item(BYTES("\x62\x45\x61\x00"), mode, 0, 1, out), TWINE_LONG_BODY, 2, 0);
    ANSWER(twine_item(BYTES("\x45\x61\x00"), mode, 0, 0, out), TWINE_LONG_BODY, 1, 0);
    ANSWER(twine_item(BYTES("\x63\x10\x00"), mode, 0, 0, out), TWINE_LONG_LIST, 1, 0);
    ANSWER(twine_item(BYTES("\x63\x10\x00"), mode, 0, 3, out), TWINE_LONG_LIST, 1, 0);
    ANSWER(twine_item(BYTES("\x62\x1f\x80\x00"), mode, 0, 1, out), TWINE_TRUNC, 1, 0);
    ANSWER(twine_item(BYTES("\x62\x30\x01\x00"), mode, 0, 1, out), TWINE_TRUNC, 1, 0);
    ANSWER(twine_item(BYTES("\x62\x41\x61\x00"), mode, 0, 1, out), TWINE_TRUNC, 3, 0);
    ANSWER(twine_item(BYTES("\xb0\x00"), mode, 0, 0, out), TWINE_TRUNC, 1, 0);

    ANSWER(twine_follow(BYTES("\x45\xf0\x00"), mode, 1, out), TWINE_LONG_BODY, 1, 0);
    ANSWER(twine_follow(BYTES("\x63\xf0\x00"), mode, 1, out), TWINE_LONG_LIST, 1, 0);
    ANSWER(twine_follow(BYTES("\x31\xf0\x00"), mode, 1, out), TWINE_TRUNC, 0, 0);
    ANSWER(twine_follow(BYTES("\x00\xff\x00"), mode, 1, out), TWINE_TRUNC, 1, 0);

    /* the map; a key, itself and followed; a value that is passed over; the value that is the answer */
    ANSWER(twine_lookup(BYTES("\x72\x10\x10\x10\x00"), mode, 0, BYTES("a"), out), TWINE_LONG_LIST, 1, 0);
    ANSWER(twine_lookup(BYTES("\x45\x61\x00"), mode, 0, BYTES("a"), out), TWINE_LONG_BODY, 1, 0);
    ANSWER(twine_lookup(BYTES("\x71\x45\x61\x00"), mode, 0, BYTES("a"), out), TWINE_LONG_BODY, 2, 0);
    ANSWER(twine_lookup(BYTES("\x45\x71\xf1\x10\x00"), mode, 1, BYTES("a"), out), TWINE_LONG_BODY, 1, 0);
    ANSWER(twine_lookup(BYTES("\x64\x71\xf1\x10\x00"), mode, 1, BYTES("a"), out), TWINE_LONG_LIST, 1, 0);
    ANSWER(twine_lookup(BYTES("\x72\x41\x62\x45\x61\x10\x00"), mode, 0, BYTES("a"), out), TWINE_LONG_BODY, 4, 0);
    ANSWER(twine_lookup(BYTES("\x72\x41\x62\x45\x61\x10\x00"), mode, 0, BYTES("b"), out), TWINE_OK, 3, 0);
    ANSWER(twine_lookup(BYTES("\x71\x30\x01\x00"), mode, 0, BYTES("a"), out), TWINE_TRUNC, 1, 0);
    ANSWER(twine_lookup(BYTES("\x71\x10\x1f\x00"), mode, 0, BYTES("a"), out), TWINE_TRUNC, 2, 0);
    ANSWER(twine_lookup(BYTES("\x71\x41\x61\x00"), mode, 0, BYTES("a"), out), TWINE_TRUNC, 3, 0);

    ANSWER(twine_body(BYTES("\x45\x61\x00"), mode, 0, out), TWINE_LONG_BODY, 1, 0);
    ANSWER(twine_body(BYTES("\x52\xf0\x00"), mode, 1, out), TWINE_LONG_BODY, 1, 0);
    ANSWER(twine_body(BYTES("\x63\xf0\x00"), mode, 1, out), TWINE_LONG_LIST, 1, 0);
    ANSWER(twine_body(BYTES("\x31\xf0\x00"), mode, 1, out), TWINE_TRUNC, 0, 0);
    ANSWER(twine_body(BYTES("\x4f\x80\x00"), mode, 0, out), TWINE_TRUNC, 0, 0);
}

/* ---- padded numbers: read in tolerant mode, and OVERLONG in every other, at the place that is named first */

#define IF_TOLERANT(this, other) (mode == TWINE_TOLERANT ? (this) : (other))

#define PADDED(file, place, count, entry, ...) \
    IF_TOLERANT(ACCEPTED(file, count, entry, __VA_ARGS__), REFUSED(file, TWINE_OVERLONG, place))
#define PADDED_REFUSED(file, place, error, place2) \
    IF_TOLERANT(REFUSED(file, error, place2), REFUSED(file, TWINE_OVERLONG, place))
#define PADDED_READ(file, at, kind, number, first, count) \
    IF_TOLERANT(READ(file, at, kind, number, first, count), READ_ERROR(file, at, TWINE_OVERLONG, at))
#define PADDED_ANSWER(call, place, error, first, second) \
    ANSWER(call, IF_TOLERANT(error, TWINE_OVERLONG), IF_TOLERANT(first, place), IF_TOLERANT(second, 0))

#define NINE "\x80\x80\x80\x80\x80\x80\x80\x80\x80"

static void padded(void) {
    PADDED("\x1f\x80\x00\x02", 0, 1, 0, {0}, {1});
    PADDED_READ("\x1f\x80\x00\x02", 0, TWINE_KIND_INTEGER, 15, 3, 0);
    PADDED_READ("\x2f\x9b\x80\x00\x00", 0, TWINE_KIND_NEGATIVE, (uint64_t)-43, 4, 0);
    PADDED_READ("\xaf\x81\x80\x80\x80\x00\x00", 0, TWINE_KIND_VARIANT, 16, 6, 0);

    /* at most ten bytes, the tenth at most 1 */
    PADDED("\x1f" NINE "\x00\x0a", 0, 1, 0, {0}, {1});
    PADDED_READ("\x1f" NINE "\x00\x0a", 0, TWINE_KIND_INTEGER, 15, 11, 0);
    READ("\x8f" NINE "\x01\x10\x00", 0, TWINE_KIND_TAG, ((uint64_t)1 << 63) + 15, 11, 1);
    REFUSED("\x1f" NINE "\x01\x0a", TWINE_RANGE, 0);
    REFUSED("\x1f" NINE "\x02\x0a", TWINE_RANGE, 0);
    REFUSED("\x1f" NINE "\x80\x00\x0b", TWINE_RANGE, 0);
    REFUSED("\x1f" NINE "\x00", TWINE_TRUNC, 0);

    /* both numbers of a variant of many, and each alone */
    PADDED("\xcf\x80\x00\x85\x80\x00\x10\x11\x12\x13\x14\x0a", 0, 1, 0, {0}, {1});
    PADDED_READ("\xcf\x80\x00\x85\x80\x00\x10\x11\x12\x13\x14\x0a", 0, TWINE_KIND_VARIANTN, 15, 6, 5);
    PADDED_READ("\xcf\x80\x00\x01\x10\x00", 0, TWINE_KIND_VARIANTN, 15, 4, 1);
    PADDED_READ("\xc1\x81\x80\x80\x80\x00\x10\x00", 0, TWINE_KIND_VARIANTN, 1, 6, 1);

    /* what comes before OVERLONG */
    REFUSED("\x61\x6f\x80\x00\x02", TWINE_NESTED, 1);
    REFUSED("\x9f\x80\x00\x02", TWINE_RESERVED, 0);
    REFUSED("\xcf" NINE "\x02\x80\x00\x00", TWINE_RANGE, 0);
    /* what comes after it */
    PADDED_REFUSED("\xcf\x80\x00" NINE "\x02\x00", 0, TWINE_RANGE, 0);
    PADDED_REFUSED("\xaf\x80\x80\x80\x80\x90\x00\x06", 0, TWINE_RANGE, 0);
    PADDED_REFUSED("\x4f\x80\x80\x80\x80\x00\x61\x00", 0, TWINE_LONG_BODY, 6);
    PADDED_REFUSED("\x6f\x80\x00\x10\x00", 0, TWINE_LONG_LIST, 3);
    PADDED_REFUSED("\x4f\x80\x00" "12345678901234\xff\x11", 0, TWINE_BAD_TEXT, 0);
    PADDED_REFUSED("\x00\xff\x80\x00\x03", 1, TWINE_BAD_TARGET, 1);
    PADDED_REFUSED("\x1f\x80\x00\x90\x00", 0, TWINE_RESERVED, 3);
    PADDED_REFUSED("\x1f\x80\x00\x03", 0, TWINE_BAD_ENTRY, 3);
}

/* A label at 0 and, at 22, a map of one pair: a pointer to the label, at 23, and the integer 24, at 29. The numbers of
   label and pointer have five bytes, that of the integer has two. At 32 a pointer to the map, not padded. */
#define LABEL "north hall row 7"
#define OLD "\x4f\x81\x80\x80\x80\x00" LABEL "\x71\xff\x87\x80\x80\x80\x00\x1f\x89\x00\xf9\x00"

static void queries_of_padded(void) {
    uint32_t starts[2] = {JUNK, JUNK};
    PADDED(OLD, 0, 3, 32, {0, 22, 32}, {1, 2, 3});
    PADDED_ANSWER(twine_check(BYTES(OLD), mode, starts, 2, out), 0, TWINE_FULL, 32, 0);
    EXPECT(starts[0] | starts[1], 0);
    PADDED_READ(OLD, 0, TWINE_KIND_TEXT, 16, 6, 16);
    PADDED_READ(OLD, 23, TWINE_KIND_POINTER, 0, 29, 0);
    PADDED_READ(OLD, 29, TWINE_KIND_INTEGER, 24, 32, 0);
    READ(OLD, 22, TWINE_KIND_MAP, 1, 23, 2);
    READ(OLD, 32, TWINE_KIND_POINTER, 22, 33, 0);

    PADDED_ANSWER(twine_skip(BYTES(OLD), mode, 0, out), 0, TWINE_OK, 22, 0);
    PADDED_ANSWER(twine_skip(BYTES(OLD), mode, 22, out), 23, TWINE_OK, 32, 0);
    PADDED_ANSWER(twine_skip(BYTES(OLD), mode, 29, out), 29, TWINE_OK, 32, 0);
    ANSWER(twine_skip(BYTES(OLD), mode, 32, out), TWINE_OK, 33, 0);

    /* the item itself is not read, those before it are */
    ANSWER(twine_item(BYTES(OLD), mode, 22, 0, out), TWINE_OK, 23, 0);
    PADDED_ANSWER(twine_item(BYTES(OLD), mode, 22, 1, out), 23, TWINE_OK, 29, 0);
    ANSWER(twine_item(BYTES(OLD), mode, 22, 2, out), TWINE_NO_ITEM, 22, 0);

    /* a padded pointer, and a pointer to a padded value */
    PADDED_ANSWER(twine_follow(BYTES(OLD), mode, 23, out), 23, TWINE_OK, 0, 1);
    PADDED_ANSWER(twine_follow(BYTES("\x1f\x80\x00\xf2\x00"), mode, 3, out), 0, TWINE_OK, 0, 1);
    ANSWER(twine_follow(BYTES(OLD), mode, 32, out), TWINE_OK, 22, 1);

    PADDED_ANSWER(twine_lookup(BYTES(OLD), mode, 22, BYTES(LABEL), out), 23, TWINE_OK, 29, 0);
    PADDED_ANSWER(twine_lookup(BYTES(OLD), mode, 22, BYTES("slots"), out), 23, TWINE_NO_ITEM, 22, 0);
    ANSWER(twine_lookup(BYTES(OLD), mode, 32, BYTES(LABEL), out), TWINE_WRONG_KIND, 32, 0);
    /* a padded value is read only if it is passed over */
    ANSWER(twine_lookup(BYTES("\x71\x41\x61\x1f\x80\x00\x00"), mode, 0, BYTES("a"), out), TWINE_OK, 3, 0);
    PADDED_ANSWER(twine_lookup(BYTES("\x71\x41\x61\x1f\x80\x00\x00"), mode, 0, BYTES("b"), out),
                  3, TWINE_NO_ITEM, 0, 0);

    PADDED_ANSWER(twine_body(BYTES(OLD), mode, 0, out), 0, TWINE_OK, 6, 16);
    PADDED_ANSWER(twine_body(BYTES(OLD), mode, 23, out), 23, TWINE_OK, 6, 16);
    PADDED_ANSWER(twine_body(BYTES(OLD), mode, 29, out), 29, TWINE_WRONG_KIND, 29, 0);
}

/* ---- writer */

static uint64_t state[TWINE_STATE];
static uint8_t output[ROOM];
static uint32_t table[WORDS];

/* The lengths that a call is given. */
static size_t room = ROOM, words = WORDS;

enum call {
    BOOL, NULL_, INTEGER, FLOAT32, FLOAT64, TEXT, BYTES_, VARIANT, REFERENCE, POINTER,
    ARRAY, MAP, TAG, VARIANT1, VARIANTN, CLOSE, CALLS
};

/* A call with its number, its bytes, or (VARIANTN) its number and a count of items. */
static uint32_t call(enum call c, uint64_t n, const uint8_t *body, size_t len) {
    switch (c) {
    case BOOL: return twine_write_bool(state, n != 0, output, room, table, words);
    case NULL_: return twine_write_null(state, output, room, table, words);
    case INTEGER: return twine_write_integer(state, (int64_t)n, output, room, table, words);
    case FLOAT32: return twine_write_float32(state, (uint32_t)n, output, room, table, words);
    case FLOAT64: return twine_write_float64(state, n, output, room, table, words);
    case TEXT: return twine_write_text(state, body, len, output, room, table, words);
    case BYTES_: return twine_write_bytes(state, body, len, output, room, table, words);
    case VARIANT: return twine_write_variant(state, (uint32_t)n, output, room, table, words);
    case REFERENCE: return twine_write_reference(state, n, output, room, table, words);
    case POINTER: return twine_write_pointer(state, n, output, room, table, words);
    case ARRAY: return twine_open_array(state, n, output, room, table, words);
    case MAP: return twine_open_map(state, n, output, room, table, words);
    case TAG: return twine_open_tag(state, n, output, room, table, words);
    case VARIANT1: return twine_open_variant1(state, (uint32_t)n, output, room, table, words);
    case VARIANTN: return twine_open_variantn(state, (uint32_t)n, len, output, room, table, words);
    case CLOSE: return twine_close(state, n, output, room, table, words);
    default: return UINT32_MAX;
    }
}

/* A call, compared with what the header says of every call: refused, it leaves all as it was; accepted, it changes the
   state, the bytes from the old to the new `written`, and at most the word `count`. */
static uint32_t held(int line, enum call c, uint64_t n, const uint8_t *body, size_t len) {
    uint64_t old_state[TWINE_STATE];
    uint8_t old_output[ROOM], old_body[ROOM];
    uint32_t old_table[WORDS];
    memcpy(old_state, state, sizeof state);
    memcpy(old_output, output, sizeof output);
    memcpy(old_table, table, sizeof table);
    memcpy(old_body, body, len < ROOM ? len : 0);
    uint32_t error = call(c, n, body, len);
    if (c == TEXT || c == BYTES_) {
        expect(line, "an argument that has changed", memcmp(old_body, body, len) != 0, 0);
    }
    if (error != TWINE_OK) {
        expect(line, "a refused call that changes the state", memcmp(old_state, state, sizeof state) != 0, 0);
        expect(line, "a refused call that changes the output", memcmp(old_output, output, sizeof output) != 0, 0);
        expect(line, "a refused call that changes the table", memcmp(old_table, table, sizeof table) != 0, 0);
        expect(line, "an error that the writer does not have", error < TWINE_BAD_TEXT || error > TWINE_BAD_STATE, 0);
        return error;
    }
    uint64_t old = old_state[0], new = state[0], k = old_state[1];
    expect(line, "an accepted call of a closed writer", old_state[4], 0);
    expect(line, "a call that writes nothing", new > old, 1);
    expect(line, "bytes written past the output", new <= room, 1);
    expect(line, "a count that goes on by another number than 0 or 1", state[1] - k > 1, 0);
    expect(line, "a closed word", state[4], c == CLOSE);
    for (size_t i = 0; i < ROOM; i++) {
        if (i < old || i >= new) {
            expect(line, "a byte that is not the call's", output[i], old_output[i]);
        }
    }
    for (size_t i = 0; i < WORDS; i++) {
        if (i != k || state[1] == k) {
            expect(line, "a word that is not the call's", table[i], old_table[i]);
        }
    }
    return error;
}

#define CALL(c, n, error) expect(__LINE__, #c, held(__LINE__, c, n, (const uint8_t *)"", 0), error)
#define CALL_BODY(c, bytes, error) expect(__LINE__, #c, held(__LINE__, c, 0, BYTES(bytes)), error)
#define STATE(a, b, c, d, e) (state[0] = a, state[1] = b, state[2] = c, state[3] = d, state[4] = e)

static void fresh(size_t bytes, size_t entries) {
    memset(state, 0xaa, sizeof state);
    memset(output, 0xaa, sizeof output);
    memset(table, 0xaa, sizeof table);
    room = bytes;
    words = entries;
    EXPECT(twine_writer_new(state), TWINE_OK);
    EXPECT(state[0] | state[1] | state[2] | state[3] | state[4], 0);
}

/* The hello sample, with calls between that are refused. */
static void hello(void) {
    fresh(sizeof HELLO - 1, 4);
    CALL(POINTER, 0, TWINE_BAD_TARGET);
    CALL_BODY(TEXT, "hello", TWINE_OK);
    CALL_BODY(TEXT, "\xc3\x28", TWINE_BAD_TEXT);
    CALL(ARRAY, 1, TWINE_OK);
    CALL(ARRAY, 1, TWINE_OWED);
    CALL(CLOSE, 0, TWINE_OWED);
    CALL(POINTER, 6, TWINE_BAD_TARGET);
    CALL(POINTER, 0, TWINE_OK);
    CALL(ARRAY, 2, TWINE_OK);
    CALL(POINTER, 0, TWINE_OK);
    CALL(POINTER, 6, TWINE_OK);
    CALL(MAP, (uint64_t)1 << 63, TWINE_NO_ROOM);
    CALL(MAP, 2, TWINE_OK);
    CALL_BODY(TEXT, "a", TWINE_OK);
    CALL(POINTER, 8, TWINE_OK);
    CALL_BODY(TEXT, "xy", TWINE_NO_ROOM);
    CALL_BODY(TEXT, "x", TWINE_OK);
    CALL(BOOL, 1, TWINE_OK);
    CALL(NULL_, 0, TWINE_FULL);
    CALL(CLOSE, 12, TWINE_BAD_TARGET);
    CALL(CLOSE, 11, TWINE_OK);
    CALL(BOOL, 1, TWINE_CLOSED);
    EXPECT(state[0], sizeof HELLO - 1);
    EXPECT(memcmp(output, HELLO, sizeof HELLO - 1), 0);
    EXPECT(table[0], 0);
    EXPECT(table[1], 6);
    EXPECT(table[2], 8);
    EXPECT(table[3], 11);
}

/* A text of less than 15 bytes, by check and by the writer: both accept it, or it is BAD_TEXT for both. */
static void text(int line, const uint8_t *bytes, size_t len, uint32_t error) {
    bool good = error == TWINE_OK;
    uint8_t file[16] = {(uint8_t)(0x40 + len)};
    memcpy(file + 1, bytes, len);
    file[1 + len] = (uint8_t)len;
    check(line, file, len + 2, (struct checked){error, {good, 0}, good, {0}, {1}});

    fresh(ROOM, WORDS);
    expect(line, "twine_write_text", held(line, TEXT, 0, bytes, len), error);
    expect(line, "written", state[0], good ? 1 + len : 0);
    expect(line, "what is written", good && memcmp(output, file, 1 + len) != 0, 0);
}

#define IS_TEXT(bytes) text(__LINE__, BYTES(bytes), TWINE_OK)
#define BAD_TEXT(bytes) text(__LINE__, BYTES(bytes), TWINE_BAD_TEXT)

/* Both sides of every border that RFC 3629 draws. */
static void texts(void) {
    /* one byte, and two */
    IS_TEXT("");
    IS_TEXT("\x00");
    IS_TEXT("\x7f");
    BAD_TEXT("\x80");
    BAD_TEXT("\xc1\xbf");
    IS_TEXT("\xc2\x80");
    IS_TEXT("\xdf\xbf");
    BAD_TEXT("\xc2\x7f");
    BAD_TEXT("\xdf\xc0");

    /* A0 to BF after E0: below is longer than need be */
    BAD_TEXT("\xe0\x80\x80");
    BAD_TEXT("\xe0\x9f\xbf");
    IS_TEXT("\xe0\xa0\x80");
    IS_TEXT("\xe0\xbf\xbf");
    BAD_TEXT("\xe0\xc0\x80");
    IS_TEXT("\xe1\x80\x80");
    IS_TEXT("\xec\xbf\xbf");

    /* 80 to 9F after ED: above are the surrogates */
    BAD_TEXT("\xed\x7f\xbf");
    IS_TEXT("\xed\x80\x80");
    IS_TEXT("\xed\x9f\xbf");
    BAD_TEXT("\xed\xa0\x80");
    BAD_TEXT("\xed\xbf\xbf");
    BAD_TEXT("\xed\xa0\xbd\xed\xb7\x84");
    IS_TEXT("\xee\x80\x80");
    IS_TEXT("\xef\xbf\xbf");

    /* 90 to BF after F0: below is longer than need be */
    BAD_TEXT("\xf0\x80\x80\x80");
    BAD_TEXT("\xf0\x8f\xbf\xbf");
    IS_TEXT("\xf0\x90\x80\x80");
    IS_TEXT("\xf0\xbf\xbf\xbf");
    BAD_TEXT("\xf0\xc0\x80\x80");
    IS_TEXT("\xf1\x80\x80\x80");
    IS_TEXT("\xf3\xbf\xbf\xbf");

    /* 80 to 8F after F4: above is over 10FFFF */
    BAD_TEXT("\xf4\x7f\xbf\xbf");
    IS_TEXT("\xf4\x80\x80\x80");
    IS_TEXT("\xf4\x8f\xbf\xbf");
    BAD_TEXT("\xf4\x90\x80\x80");
    BAD_TEXT("\xf4\xbf\xbf\xbf");
    BAD_TEXT("\xf5\x80\x80\x80");

    /* the third and the fourth byte are from 80 to BF after each of them */
    BAD_TEXT("\xe0\xa0\x7f");
    BAD_TEXT("\xed\x9f\xc0");
    BAD_TEXT("\xf0\x90\x7f\x80");
    BAD_TEXT("\xf0\x90\x80\x7f");
    BAD_TEXT("\xf4\x8f\xc0\xbf");
    BAD_TEXT("\xf4\x8f\xbf\xc0");

    /* a character that is cut, even if the next value would complete it */
    BAD_TEXT("\xc2");
    BAD_TEXT("a\xe0\xa0");
    BAD_TEXT("a\xed\x9f");
    BAD_TEXT("a\xf0\x90\x80");
    BAD_TEXT("\xf4\x8f\xbf" "a");
    REFUSED("\x42\xe2\x82\xac\x00", TWINE_BAD_TEXT, 0);

    /* an item: the place is its own header, and it stays pending */
    REFUSED("\x61\x43\xed\xa0\x80\x04", TWINE_BAD_TEXT, 1);
    fresh(ROOM, WORDS);
    CALL(ARRAY, 1, TWINE_OK);
    CALL_BODY(TEXT, "\xed\xa0\x80", TWINE_BAD_TEXT);
    EXPECT(state[2], 1);
    CALL_BODY(TEXT, "\xed\x9f\xbf", TWINE_OK);
    EXPECT(state[2], 0);
}

/* Every call, as `twine_read` reads it back. */
static void back(void) {
    fresh(ROOM, WORDS);
    CALL(BOOL, 0, TWINE_OK);
    CALL(BOOL, 1, TWINE_OK);
    CALL(NULL_, 0, TWINE_OK);
    CALL(INTEGER, 42, TWINE_OK);
    CALL(INTEGER, (uint64_t)INT64_MIN, TWINE_OK);
    CALL(FLOAT32, 0x84030201u, TWINE_OK);
    CALL(FLOAT64, 0x8807060504030201u, TWINE_OK);
    CALL_BODY(TEXT, "text", TWINE_OK);
    CALL_BODY(BYTES_, "\xff\xfe", TWINE_OK);
    CALL(VARIANT, 0xffffffffu, TWINE_OK);
    CALL(REFERENCE, 1, TWINE_OK);
    CALL(POINTER, 2, TWINE_OK);
    CALL(ARRAY, 1, TWINE_OK);
    CALL(NULL_, 0, TWINE_OK);
    CALL(MAP, 0, TWINE_OK);
    CALL(TAG, UINT64_MAX, TWINE_OK);
    CALL(NULL_, 0, TWINE_OK);
    CALL(VARIANT1, 7, TWINE_OK);
    CALL(NULL_, 0, TWINE_OK);
    CALL(VARIANTN, 8, TWINE_OK);
    CALL(CLOSE, 0, TWINE_OK);
    static const uint64_t want[][3] = {
        {TWINE_KIND_SCALAR, 0, 0},
        {TWINE_KIND_SCALAR, 1, 0},
        {TWINE_KIND_SCALAR, 2, 0},
        {TWINE_KIND_INTEGER, 42, 0},
        {TWINE_KIND_NEGATIVE, (uint64_t)INT64_MIN, 0},
        {TWINE_KIND_FLOAT, 0x84030201u, 4},
        {TWINE_KIND_FLOAT, 0x8807060504030201u, 8},
        {TWINE_KIND_TEXT, 4, 4},
        {TWINE_KIND_BYTES, 2, 2},
        {TWINE_KIND_VARIANT, 0xffffffffu, 0},
        {TWINE_KIND_REFERENCE, 1, 0},
        {TWINE_KIND_POINTER, 2, 0},
        {TWINE_KIND_ARRAY, 1, 1},
        {TWINE_KIND_MAP, 0, 0},
        {TWINE_KIND_TAG, UINT64_MAX, 1},
        {TWINE_KIND_VARIANT1, 7, 1},
        {TWINE_KIND_VARIANTN, 8, 0},
    };
    size_t count = sizeof want / sizeof want[0];
    uint32_t starts[WORDS];
    uint64_t out[2];
    EXPECT(twine_check(output, state[0], mode, starts, WORDS, out), TWINE_OK);
    EXPECT(out[0], count);
    EXPECT(out[1], 0);
    for (size_t i = 0; i < count; i++) {
        uint64_t value[4];
        EXPECT(starts[i], table[i]);
        EXPECT(twine_read(output, state[0], mode, starts[i], value), TWINE_OK);
        EXPECT(value[0], want[i][0]);
        EXPECT(value[1], want[i][1]);
        EXPECT(value[3], want[i][2]);
    }
}

/* A close at 0 with 256 bytes written has the delta 255; with 257 a pointer is added. */
static void deltas(void) {
    static uint8_t zeros[ROOM];
    for (size_t size = 256; size <= 257; size++) {
        fresh(ROOM, WORDS);
        EXPECT(held(__LINE__, BYTES_, 0, zeros, size - 3), TWINE_OK);
        EXPECT(state[0], size);
        CALL(CLOSE, 0, TWINE_OK);
        uint64_t out[2];
        uint32_t starts[2];
        EXPECT(twine_check(output, state[0], mode, starts, 2, out), TWINE_OK);
        if (size == 256) {
            EXPECT(state[0], 257);
            EXPECT(output[256], 255);
            EXPECT(out[0], 1);
            EXPECT(out[1], 0);
        } else {
            EXPECT(state[0], 257 + 3 + 1);
            EXPECT(output[260], 2);
            EXPECT(out[0], 2);
            EXPECT(out[1], 257);
            EXPECT(table[1], 257);
            ANSWER(twine_follow(output, state[0], mode, 257, out), TWINE_OK, 0, 1);
        }
    }
}

/* Chosen states, and then any. */
static void states(void) {
    fresh(16, 2);
    STATE(17, 0, 0, 0, 0);
    CALL(NULL_, 0, TWINE_BAD_STATE);
    STATE(0, 3, 0, 0, 0);
    CALL(NULL_, 0, TWINE_BAD_STATE);
    STATE(1, 2, 1, 0, 0);
    CALL(NULL_, 0, TWINE_BAD_STATE);
    STATE(1, 0, 1, 1, 0);
    CALL(NULL_, 0, TWINE_BAD_STATE);
    STATE(UINT64_MAX, UINT64_MAX, UINT64_MAX, UINT64_MAX, UINT64_MAX);
    CALL(CLOSE, 0, TWINE_BAD_STATE);
    STATE(1, 0, 0, 99, 7);
    CALL(NULL_, 0, TWINE_CLOSED);
    EXPECT(state[4], 7);
    STATE(1, 0, 1, 0, (uint64_t)1 << 63);
    CALL(NULL_, 0, TWINE_CLOSED);
    STATE(1, 0, 1, 0, 0);
    CALL(NULL_, 0, TWINE_OK);
    EXPECT(state[0], 2);
    EXPECT(state[1], 1);
    EXPECT(table[0], 0);
    STATE(0, 0, 0, 77, 0);
    CALL(ARRAY, 16, TWINE_NO_ROOM);

    uint64_t seed = 1;
    int accepted = 0;
    for (int turn = 0; turn < 200000; turn++) {
        uint64_t r[12];
        for (int i = 0; i < 12; i++) {
            seed = seed * 6364136223846793005u + 1442695040888963407u;
            r[i] = seed >> 33;
        }
        room = r[0] % 3 ? r[0] % 48 : ROOM;
        words = r[1] % (r[1] % 7 ? 6 : WORDS);
        STATE(r[2] % 40, r[3] % 6, r[4] % 3 ? 0 : r[4] % 5, r[5] % 40, r[6] % 8 ? 0 : r[6]);
        if (r[7] % 16 == 0) {
            state[r[7] / 16 % TWINE_STATE] = seed;
        }
        for (size_t i = 0; i < 6; i++) {
            table[i] = (uint32_t)(r[8] >> i) % 40;
        }
        output[r[8] % ROOM] = (uint8_t)r[9];
        uint8_t body[32];
        size_t len = r[9] % sizeof body;
        memset(body, r[9] % 5 ? 'a' : 0xc3, sizeof body);
        uint64_t n = r[10] % 4 ? r[10] % 40 : seed;
        accepted += held(__LINE__, (enum call)(r[11] % CALLS), n, body, len) == TWINE_OK;
    }
    EXPECT(accepted > 20000, 1);
}

/* ---- prune */

/* Prunes a file, given junk of these lengths, and compares what the header says of every call: on TWINE_OK told, the new
   file, both tables as twine_check leaves them, and nothing else; on an error its place, and zeros in all that is lent. */
static void prune(int line, const uint8_t *file, size_t len, size_t bytes, size_t old_words, size_t new_words,
                  uint32_t error, const uint64_t want[3], const uint8_t *new) {
    uint8_t out[ROOM];
    uint32_t old_starts[WORDS], new_starts[WORDS], old_want[WORDS], new_want[WORDS];
    uint64_t told[3] = {JUNK, JUNK, JUNK}, checked[2];
    memset(out, 0xaa, sizeof out);
    memset(old_starts, 0xaa, sizeof old_starts);
    memset(new_starts, 0xaa, sizeof new_starts);
    memcpy(old_want, old_starts, sizeof old_want);
    memcpy(new_want, new_starts, sizeof new_want);
    expect(line, "twine_prune",
           twine_prune(file, len, out, bytes, old_starts, old_words, new_starts, new_words, told), error);
    for (size_t i = 0; i < 3; i++) {
        expect(line, "told", told[i], want[i]);
    }
    if (error == TWINE_OK) {
        expect(line, "the old file", twine_check(file, len, TWINE_STRICT, old_want, old_words, checked), TWINE_OK);
        expect(line, "the new file", twine_check(new, want[0], TWINE_STRICT, new_want, new_words, checked), TWINE_OK);
        expect(line, "the new count", checked[0], want[1]);
        expect(line, "the new entry", checked[1], want[2]);
    } else {
        memset(old_want, 0, old_words * sizeof *old_want);
        memset(new_want, 0, new_words * sizeof *new_want);
    }
    for (size_t i = 0; i < ROOM; i++) {
        uint8_t left = i < bytes && error != TWINE_OK ? 0 : 0xaa;
        expect(line, "a byte of the output", out[i], error == TWINE_OK && i < want[0] ? new[i] : left);
    }
    for (size_t i = 0; i < WORDS; i++) {
        expect(line, "a start of the old file", old_starts[i], old_want[i]);
        expect(line, "a start of the new file", new_starts[i], new_want[i]);
    }
}

/* A file of that many values, and what prune makes of it: with enough memory, just enough, and too little of each. */
static void pruned(int line, const uint8_t *file, size_t len, size_t old_count,
                   const uint8_t *new, size_t new_len, size_t new_count, uint64_t entry) {
    const uint64_t want[3] = {new_len, new_count, entry}, none[3] = {0};
    prune(line, file, len, new_len, old_count, new_count, TWINE_OK, want, new);
    prune(line, file, len, ROOM, WORDS, WORDS, TWINE_OK, want, new);
    for (size_t bytes = 0; bytes < new_len; bytes++) {
        prune(line, file, len, bytes, old_count, new_count, TWINE_NO_ROOM, none, NULL);
    }
    for (size_t entries = 0; entries < new_count; entries++) {
        prune(line, file, len, new_len, old_count, entries, TWINE_FULL, none, NULL);
    }
    /* check's FULL has a place, the start of the value without a word */
    uint32_t starts[WORDS];
    uint64_t out[2];
    expect(line, "twine_check", twine_check(file, len, TWINE_STRICT, starts, WORDS, out), TWINE_OK);
    expect(line, "the old count", out[0], old_count);
    for (size_t entries = 0; entries < old_count; entries++) {
        prune(line, file, len, ROOM, entries, WORDS, TWINE_FULL, (const uint64_t[3]){starts[entries], 0, 0}, NULL);
    }
}

#define PRUNED(file, old_count, new, new_count, entry) \
    pruned(__LINE__, BYTES(file), old_count, BYTES(new), new_count, entry)
#define PRUNE_ERROR(file, bytes, old_words, new_words, error, place) \
    prune(__LINE__, BYTES(file), bytes, old_words, new_words, error, (const uint64_t[3]){place, 0, 0}, NULL)

/* The plans of examples/rebuilt.twine, which begins with the region of row.twine, and of examples/pruned.twine. */
#define FRAMES "\x45slots\x71\xf6\x1f\x09\x71\xfa\x1f\x19"
#define DRIVE "\x63\x15\x10\x1f\x08"
#define MOVED_DRIVE "\x63\x1f\xb9\x01\x12\x1f\x18"
#define LISTS(frames, drives) "\x72\x46" "frames" frames "\x46" "drives" drives
#define ROW \
    FRAMES "\x71\xfe\x1f\x81\x03" \
    "\x6c\xfd\xfa\xfb\xfc\xfd\xfe\xfb\xff\x01\xff\x03\xff\x05\xff\x07\xff\x0d" \
    DRIVE "\x63\x1f\xb9\x01\x16\x1f\x80\x03\x62\xfd\xf9" LISTS("\xff\x1a", "\xff\x04")
#define REBUILT \
    ROW "\x63\xff\x33\xff\x31\xff\x33" MOVED_DRIVE "\x62\xff\x22\xf9" LISTS("\xff\x0a", "\xff\x05") "\x12"
#define PRUNED_ROW \
    FRAMES DRIVE "\x63\xfd\xfa\xfb" MOVED_DRIVE "\x62\xff\x01\xf9" LISTS("\xff\x07", "\xff\x05") "\x12"

static void prunes(void) {
    /* nothing is dead */
    PRUNED("\x00\x00", 1, "\x00\x00", 1, 0);
    PRUNED(HELLO, 4, HELLO, 4, 11);
    PRUNED(LEAST, 1, LEAST, 1, 0);
    /* dead are values before the entry, between those that it reaches, and after it */
    PRUNED("\x10\x11\x00", 2, "\x11\x00", 1, 0);
    PRUNED("\x10\x11\x01", 2, "\x10\x00", 1, 0);
    PRUNED("\x10\x11\xf1\x00", 3, "\x10\xf0\x00", 2, 1);
    PRUNED("\x10\xf0\x11\x12\x02", 4, "\x10\xf0\x00", 2, 1);
    /* so are those that lead to what is not dead */
    PRUNED("\x10\x61\xf1\x12\xf0\x62\xf4\xf3\x03", 5, "\x12\xf0\x00", 2, 1);
    /* a reference reaches as a pointer does */
    PRUNED("\x10\x11\xe1\x00", 3, "\x10\xe0\x00", 2, 1);
    PRUNED("\x10\x11\x61\xe2\xf1\x00", 4, "\x10\x61\xe1\xf1\x00", 3, 3);
    /* a distance over 14 becomes one below */
    PRUNED("\x10\x4f\x05" "aaaaaaaaaaaaaaaaaaaa\xff\x07\x01", 3, "\x10\xf0\x00", 2, 1);
    PRUNED(ROW "\x12", 9, ROW "\x12", 9, 53);
    PRUNED(REBUILT, 13, PRUNED_ROW, 8, 34);

    /* the first call of the new file that is refused decides: value 0 has no room, or value 1 has no word */
    for (size_t bytes = 0; bytes < 9; bytes++) {
        PRUNE_ERROR("\x42\x61\x61\x61\xf3\x01", bytes, 2, 1, bytes <= 3 ? TWINE_NO_ROOM : TWINE_FULL, 0);
        PRUNE_ERROR("\x42\x61\x61\x61\xf3\x01", bytes, 2, 0, TWINE_FULL, 0);
    }

    /* check's errors come first, in strict mode, whatever memory there is */
    for (size_t bytes = 0; bytes < 3; bytes++) {
        for (size_t entries = 0; entries < 3; entries++) {
            PRUNE_ERROR("", bytes, entries, entries, TWINE_EMPTY, 0);
            PRUNE_ERROR("\x00", bytes, entries, entries, TWINE_BAD_ENTRY, 0);
            PRUNE_ERROR("\x61\xf0\x01", bytes, 1, entries, TWINE_BAD_TARGET, 1);
            PRUNE_ERROR("\x1f\x80\x00\x02", bytes, 1, entries, TWINE_OVERLONG, 0);
            PRUNE_ERROR("\x43\xed\xa0\x80\x03", bytes, 1, entries, TWINE_BAD_TEXT, 0);
            PRUNE_ERROR("\x61\x45\x61\x00", bytes, 1, entries, TWINE_LONG_BODY, 2);
            PRUNE_ERROR("\x63\x90\x90\x00", bytes, 1, entries, TWINE_LONG_LIST, 1);
            PRUNE_ERROR("\x10\x80\x00", bytes, 2, entries, TWINE_TRUNC, 2);
            PRUNE_ERROR("\x41\x61\x41\x61\x05", bytes, 2, entries, TWINE_BAD_ENTRY, 4);
        }
    }
    static uint8_t file[TWINE_LIMIT + 1];
    prune(__LINE__, file, sizeof file, 9, 2, 2, TWINE_TOO_LONG, (const uint64_t[3]){0, 0, 0}, NULL);
}

/* ---- version and names */

static void version(void) {
    EXPECT(TWINE_ABI_NAME(TWINE_ABI)(), TWINE_ABI);
}

/* The header's names are the archive's, which are proved; past the last there is none. */
static void names(void) {
    for (uint32_t n = 0; n < 256; n++) {
        char name[TWINE_NAME];
        memset(name, 'x', sizeof name);
        if (twine_spell_error(n, name) != TWINE_OK || strcmp(name, twine_error_name(n)) != 0) {
            printf("test.c: the name of %u is %s, and not %s\n", (unsigned)n, name, twine_error_name(n));
            failures++;
        }
    }
    EXPECT(strcmp(twine_error_name(TWINE_BAD_TARGET), "BAD_TARGET"), 0);
    EXPECT(strcmp(twine_error_name(19), "LONG_BODY"), 0);
    EXPECT(strcmp(twine_error_name(20), "LONG_LIST"), 0);
    EXPECT(strcmp(twine_error_name(TWINE_LONG_LIST + 1), ""), 0);
    EXPECT(strcmp(twine_error_name(255), ""), 0);
}

/* What the reading calls answer, in one mode. */
static void reading(void) {
    samples();
    ends();
    cuts();
    short_tables();
    queries();
    queries_of_text();
    queries_at_ends();
    padded();
    queries_of_padded();
    texts();
}

int main(void) {
    /* the last two are strict, as every number but 1 */
    static const uint32_t modes[] = {TWINE_TOLERANT, TWINE_STRICT, 2, UINT32_MAX};
    version();
    for (size_t i = 0; i < sizeof modes / sizeof modes[0]; i++) {
        mode = modes[i];
        reading();
    }
    mode = TWINE_STRICT;
    hello();
    back();
    deltas();
    states();
    prunes();
    names();
    if (failures != 0) {
        printf("c: %d failed\n", failures);
        return 1;
    }
    printf("c: ok\n");
    return 0;
}
