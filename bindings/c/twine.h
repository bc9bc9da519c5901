/*
 * twine.h: a reader and a writer of plan files in the Twine wire format.
 *
 * Link with libtwine.a, which bindings/c/archive writes to crates/twine/out/ (x86-64 Linux). Nothing is
 * allocated, printed or kept between calls.
 *
 * A file is values back to back, the region, and one last byte, which names the value at which a reader starts,
 * the entry. Offsets count from the file's first byte. A value is a header with its numbers, and then a body or
 * items; an item is of a kind that has no items itself. The body of a text is UTF-8 as RFC 3629 has it: characters
 * from U+0000 to U+10FFFF without the surrogates, U+D800 to U+DFFF, each in its shortest form. It may hold 00 bytes
 * and other control characters, and has no 00 at its end.
 *
 * Any bytes, offsets, indexes, tables and writer states may be handed in. Each call ends with an answer or an
 * error, and touches no memory but what it is handed; what it answers and leaves there is proved for every input
 * (the contracts in crates/twine/src/lib.rt). The caller's part, which nothing checks:
 *
 *   - a pointer is not NULL, even if its length is 0, and points to as many initialized elements as said;
 *   - memory that a call writes (starts, depths, out, told, state, name) overlaps no other that the call is handed: a
 *     file is not pruned in place;
 *   - nobody else writes any of it during the call;
 *   - there is enough stack: about 17 KB in check, 33 KB in depths and prune, and less than 2 KB in the others.
 *
 * Each function of the archive answers an error's number, TWINE_OK for none; only the one that returns its version
 * does not.
 */
#ifndef TWINE_H
#define TWINE_H

#include <stdbool.h>
#include <stddef.h>
#include <stdint.h>

#ifdef __cplusplus
extern "C" {
#endif

/* The version of this interface: raised by 1 if a parameter, the words of a state or the layout of an answer changes. A
   new function or error number does not raise it: take every answer but TWINE_OK for an error. The archive has a
   function that is named after its version, and whatever includes this header refers to it: compiled against another
   version, it does not link. gcc and clang keep the reference, also with --gc-sections (before gcc 11 and clang 13 only
   without); another compiler may drop it. */
#define TWINE_ABI 2

#define TWINE_ABI_PASTE(version) twine_abi_##version
#define TWINE_ABI_NAME(version) TWINE_ABI_PASTE(version)

/* twine_abi_2: the version of the archive, TWINE_ABI. */
uint32_t TWINE_ABI_NAME(TWINE_ABI)(void);

#ifdef __has_attribute
#if __has_attribute(retain)
#define TWINE_ABI_KEEP __attribute__((used, retain))
#endif
#endif
#ifndef TWINE_ABI_KEEP
#ifdef __GNUC__
#define TWINE_ABI_KEEP __attribute__((used))
#else
#define TWINE_ABI_KEEP
#endif
#endif

TWINE_ABI_KEEP static uint32_t (*const twine_abi_reference)(void) = TWINE_ABI_NAME(TWINE_ABI);

/* The most bytes that a file may have. */
#define TWINE_LIMIT 16777216

/* The words of a writer's state. */
#define TWINE_STATE 5

/* The bytes of an error's name, with the 0 at its end. */
#define TWINE_NAME 11

/* What a call answers. In brackets the place, the offset that is returned with the number; the writer's errors have
   none, of which twine_prune passes FULL and NO_ROOM on. twine_check of a file that was cut gives TRUNC, LONG_BODY or
   LONG_LIST, BAD_ENTRY if the cut is between two values, EMPTY if nothing is left, or OK by chance; damaged files give
   these too. */
enum twine_error {
    TWINE_OK = 0,
    /* the file has no bytes [0] */
    TWINE_EMPTY = 1,
    /* the file has more than TWINE_LIMIT bytes [0] */
    TWINE_TOO_LONG = 2,
    /* the region ends inside a number or a float [the header]; an item is wanted at the region's end [that end] */
    TWINE_TRUNC = 3,
    /* a reserved kind or low nibble [the header] */
    TWINE_RESERVED = 4,
    /* a padded number, in strict mode alone (see enum twine_mode) [the header] */
    TWINE_OVERLONG = 5,
    /* a number over its kind's bound, over 64 bits or of more than ten bytes [the header] */
    TWINE_RANGE = 6,
    /* an item of a kind that may have items [the item's header] */
    TWINE_NESTED = 7,
    /* a text whose bytes are not UTF-8 [the header] */
    TWINE_BAD_TEXT = 8,
    /* check: a reference or pointer to something that is not a value that ended before; queries: one that reaches
       below offset 0 [the header]; writer: an offset that starts does not list, or that is not below the bytes written */
    TWINE_BAD_TARGET = 9,
    /* one value more than the table has words [the value's start]; writer, and the new file of twine_prune: no place */
    TWINE_FULL = 10,
    /* the last byte names no value [its own offset] */
    TWINE_BAD_ENTRY = 11,
    /* the offset is not in the region [the offset] */
    TWINE_OUTSIDE = 12,
    /* an index at or past the count, or a key that is not there [the value's offset] */
    TWINE_NO_ITEM = 13,
    /* the query does not fit the kind [the offset of the value of the wrong kind] */
    TWINE_WRONG_KIND = 14,
    /* writer, and twine_prune: the output has no room */
    TWINE_NO_ROOM = 15,
    /* writer: items are still pending */
    TWINE_OWED = 16,
    /* writer: already closed */
    TWINE_CLOSED = 17,
    /* writer: a state that output or table do not fit, or whose open value is not among the bytes written */
    TWINE_BAD_STATE = 18,
    /* the length of a text or byte string exceeds the bytes left in the region [the offset at which its body starts] */
    TWINE_LONG_BODY = 19,
    /* a count of items exceeds the bytes left in the region, or a count of pairs half of them [the offset at which the
       first item would start] */
    TWINE_LONG_LIST = 20
};

/* What a value is. Arrays, maps, tags, VARIANT1 and VARIANTN may have items, and are never items. */
enum twine_kind {
    TWINE_KIND_SCALAR = 0,
    TWINE_KIND_INTEGER = 1,
    TWINE_KIND_NEGATIVE = 2,
    TWINE_KIND_FLOAT = 3,
    TWINE_KIND_TEXT = 4,
    TWINE_KIND_BYTES = 5,
    TWINE_KIND_ARRAY = 6,
    TWINE_KIND_MAP = 7,
    TWINE_KIND_TAG = 8,
    TWINE_KIND_VARIANT = 10,
    TWINE_KIND_VARIANT1 = 11,
    TWINE_KIND_VARIANTN = 12,
    TWINE_KIND_REFERENCE = 14,
    TWINE_KIND_POINTER = 15
};

/* The name of an error, such as "BAD_TARGET"; the empty string for a number that no error has. */
static inline const char *twine_error_name(uint32_t number) {
    static const char *const names[] = {
        "",           "EMPTY",     "TOO_LONG",  "TRUNC",   "RESERVED", "OVERLONG",   "RANGE",   "NESTED", "BAD_TEXT",
        "BAD_TARGET", "FULL",      "BAD_ENTRY", "OUTSIDE", "NO_ITEM",  "WRONG_KIND", "NO_ROOM", "OWED",   "CLOSED",
        "BAD_STATE",  "LONG_BODY", "LONG_LIST",
    };
    return number < sizeof names / sizeof names[0] ? names[number] : "";
}

/* The same from the archive, where it is proved: the name, and 0 in every byte after it. TWINE_OK. */
uint32_t twine_spell_error(uint32_t number, char name[TWINE_NAME]);

/* The mode of a reading call (check, depths and the queries): whether it reads padded numbers. A number that does not fit
   into its header byte follows it, seven bits a byte (LEB128). It is padded if it has more bytes than it needs: its last
   byte is 00, and is not its only one. 1f 00 is 15; 1f 80 00 is 15, padded. The exporter of the firm that we bought padded
   lengths to five bytes. TWINE_TOLERANT is for its files alone, and then for every call on such a file. It reads any
   padded number, not lengths alone.

   The mode changes nothing else. In both, a number has at most ten bytes and is within its bounds (TWINE_RANGE), and
   offsets count every byte of the file. What is not TWINE_OVERLONG in strict mode has the same answer in tolerant mode,
   and leaves the same in memory. The writer has no mode: it never pads. So a padded file that is read and written again has
   other bytes and offsets. twine_prune has none either: it is strict. */
enum twine_mode {
    /* a padded number is TWINE_OVERLONG; any mode but TWINE_TOLERANT is this one */
    TWINE_STRICT = 0,
    /* a padded number is read */
    TWINE_TOLERANT = 1
};

/* ---- check and depths */

/* Checks a file. out = {count of values, offset of the entry}; starts gets the offset at which each value starts, in
   rising order, and 0 in every other word. On an error out = {place, 0}, and starts gets 0 in every word. A value
   has at least one byte, so that len - 1 words, one for each byte of the region, are always enough, and none for an empty file.
   In a file that is accepted every text is UTF-8. */
uint32_t twine_check(const uint8_t *file, size_t len, uint32_t mode,
                     uint32_t *starts, size_t words, uint64_t out[2]);

/* Checks a file, and reports how deep each value is: how many values the longest path from it has along pointers and
   references, itself counted. out and starts as twine_check; depths gets the depth of each value, and 0 in every
   other word. Check's errors come first, then TWINE_FULL if words2 is less than the count. On an error
   out = {place, 0}, and both tables get 0 in every word. */
uint32_t twine_depths(const uint8_t *file, size_t len, uint32_t mode,
                      uint32_t *starts, size_t words, uint32_t *depths, size_t words2, uint64_t out[2]);

/* ---- queries

   They take any offset of any file, checked or not. TWINE_EMPTY, TWINE_TOO_LONG and TWINE_OUTSIDE come first, then
   the errors of the values that are read. On an error out = {place, 0}, for twine_read {place, 0, 0, 0}. A query
   does not test the bytes of a text, so that TWINE_BAD_TEXT never comes and a text of a file that was not checked may
   be any bytes; of a target it tests only that it is not below offset 0: it may be any lower offset. */

/* Reads the value at an offset, but neither its items nor the bytes of a text. out = {kind, number, first, count};
   first is the offset just after the header's numbers, at which the body or the first item starts. TWINE_LONG_BODY if a
   text or byte string goes past the region's end, TWINE_LONG_LIST if an array, map or VARIANTN has more items than
   bytes are left, TWINE_TRUNC if the region ends inside a number or a float.

     kind                  number                              count
     SCALAR                0 false, 1 true, 2 null             0
     INTEGER, NEGATIVE     the integer, in two's complement    0
     FLOAT                 the bits                            4 or 8, the bytes
     TEXT, BYTES           how many bytes                      how many bytes
     ARRAY                 how many items                      how many items
     MAP                   how many pairs                      how many items, two for each pair
     TAG                   the tag                             1
     VARIANT               the index                           0
     VARIANT1              the index                           1
     VARIANTN              the index                           how many items
     REFERENCE, POINTER    the offset of the target            0                                            */
uint32_t twine_read(const uint8_t *file, size_t len, uint32_t mode, size_t at, uint64_t out[4]);

/* Where the value at an offset ends, its items included, which are read. out = {offset just after it, 0}. */
uint32_t twine_skip(const uint8_t *file, size_t len, uint32_t mode, size_t at, uint64_t out[2]);

/* An item of the value at an offset; neither is followed. For a map keys and values alternate.
   out = {offset of the item, 0}. TWINE_WRONG_KIND for a kind without items, TWINE_NO_ITEM for an index at or past the
   count; the errors of the items before it; TWINE_TRUNC if it would start at the region's end. Its time grows with the
   items before it: for a value that twine_skip accepts, as in a checked file, a loop over items takes item 0, and then
   what twine_skip returns for each. */
uint32_t twine_item(const uint8_t *file, size_t len, uint32_t mode, size_t at, size_t index, uint64_t out[2]);

/* Follows pointers, but not references, from the value at an offset to one that is not a pointer.
   out = {its offset, pointers met}. */
uint32_t twine_follow(const uint8_t *file, size_t len, uint32_t mode, size_t at, uint64_t out[2]);

/* The value that the map at an offset has for a key: that of the first pair whose key, followed, is a text of these
   bytes, which may be any, UTF-8 or not; a key that is, or points at, a reference is no such key. Neither the map nor
   the value is followed.
   out = {offset of the value, 0}. TWINE_WRONG_KIND for another kind; the errors of the pairs before it and of its key;
   TWINE_TRUNC if the value would start at the region's end; TWINE_NO_ITEM if there is no such key. */
uint32_t twine_lookup(const uint8_t *file, size_t len, uint32_t mode, size_t at,
                      const uint8_t *key, size_t key_len, uint64_t out[2]);

/* The bytes of the text or byte string that the value at an offset is or that pointers lead to; they are not tested.
   out = {offset of the first byte, count of bytes}. TWINE_WRONG_KIND for another kind. */
uint32_t twine_body(const uint8_t *file, size_t len, uint32_t mode, size_t at, uint64_t out[2]);

/* ---- writer

   A writer's state is five words of the caller's, {written, count, pending, start, closed}: the bytes written, the
   values finished, the items that the open value still has to get, its start (without meaning if none are
   pending), and whether the file is closed (any word but 0). Any five words are a state. TWINE_BAD_STATE is one with
   more bytes written than out has, or than TWINE_LIMIT; with more values finished than starts has words; or with items
   pending and no free word, or with items pending and a start that is not below `written`.

   out and starts go into each call as the call before left them; they may be longer than before, which can change the
   answers BAD_STATE, FULL and NO_ROOM, and no others. A call writes after the first `written` bytes of out, and the
   start of a value that it finishes into the word `count` of starts. TWINE_OK: the state is the next one, and in out
   and starts nothing else has changed. On an error, state, out and starts are as they were, in every word and byte.

   One byte of out is held back for the close, and one for each item pending, so that a value that an accepted call has
   opened can always be finished. From a new writer on, as many words as out has bytes less one are always enough: with
   those, FULL comes only if out has no room either. After the close the file is the first `written` bytes.

   The finished values are those that starts lists: its first `count` words are their offsets. A reference, a pointer and
   the close name one of them, which is below `written`, by its offset: the word `written`, state[0], before the call that
   began the value.

   The first of these that applies is the error: BAD_STATE, CLOSED, OWED, BAD_TEXT, BAD_TARGET, FULL, NO_ROOM. */

/* The state of a writer that has written nothing: five zeros. TWINE_OK. */
uint32_t twine_writer_new(uint64_t state[TWINE_STATE]);

/* Immediates: the next item if items are pending, and else a value of its own. */

uint32_t twine_write_bool(uint64_t state[TWINE_STATE], bool value,
                          uint8_t *out, size_t out_len, uint32_t *starts, size_t words);

uint32_t twine_write_null(uint64_t state[TWINE_STATE],
                          uint8_t *out, size_t out_len, uint32_t *starts, size_t words);

uint32_t twine_write_integer(uint64_t state[TWINE_STATE], int64_t value,
                             uint8_t *out, size_t out_len, uint32_t *starts, size_t words);

/* A float of four bytes, and one of eight, by its bits. */
uint32_t twine_write_float32(uint64_t state[TWINE_STATE], uint32_t bits,
                             uint8_t *out, size_t out_len, uint32_t *starts, size_t words);

uint32_t twine_write_float64(uint64_t state[TWINE_STATE], uint64_t bits,
                             uint8_t *out, size_t out_len, uint32_t *starts, size_t words);

/* A text; TWINE_BAD_TEXT for bytes that are not UTF-8. */
uint32_t twine_write_text(uint64_t state[TWINE_STATE], const uint8_t *text, size_t len,
                          uint8_t *out, size_t out_len, uint32_t *starts, size_t words);

/* A byte string. */
uint32_t twine_write_bytes(uint64_t state[TWINE_STATE], const uint8_t *bytes, size_t len,
                           uint8_t *out, size_t out_len, uint32_t *starts, size_t words);

/* A variant without arguments. */
uint32_t twine_write_variant(uint64_t state[TWINE_STATE], uint32_t index,
                             uint8_t *out, size_t out_len, uint32_t *starts, size_t words);

/* A reference, and a pointer, to the finished value that starts at an offset; TWINE_BAD_TARGET if starts lists none. */
uint32_t twine_write_reference(uint64_t state[TWINE_STATE], size_t at,
                               uint8_t *out, size_t out_len, uint32_t *starts, size_t words);

uint32_t twine_write_pointer(uint64_t state[TWINE_STATE], size_t at,
                             uint8_t *out, size_t out_len, uint32_t *starts, size_t words);

/* Openings: a value whose items are the next immediates. TWINE_OWED while items are pending. */

uint32_t twine_open_array(uint64_t state[TWINE_STATE], uint64_t items,
                          uint8_t *out, size_t out_len, uint32_t *starts, size_t words);

/* A map, whose items are the key and the value of each pair, alternating. */
uint32_t twine_open_map(uint64_t state[TWINE_STATE], uint64_t pairs,
                        uint8_t *out, size_t out_len, uint32_t *starts, size_t words);

/* A tag, with one item. */
uint32_t twine_open_tag(uint64_t state[TWINE_STATE], uint64_t tag,
                        uint8_t *out, size_t out_len, uint32_t *starts, size_t words);

/* A variant with one argument, and one with as many as said. */
uint32_t twine_open_variant1(uint64_t state[TWINE_STATE], uint32_t index,
                             uint8_t *out, size_t out_len, uint32_t *starts, size_t words);

uint32_t twine_open_variantn(uint64_t state[TWINE_STATE], uint32_t index, uint64_t items,
                             uint8_t *out, size_t out_len, uint32_t *starts, size_t words);

/* Ends the file. Its entry is the finished value that starts at an offset, or a pointer to it, which is added as
   one more value if the last byte does not reach back to it. TWINE_OWED while items are pending,
   TWINE_BAD_TARGET if no finished value starts there. */
uint32_t twine_close(uint64_t state[TWINE_STATE], size_t at,
                     uint8_t *out, size_t out_len, uint32_t *starts, size_t words);

/* ---- prune

   A value is dead if no path along pointers and references leads to it from the entry. A file whose plan was rebuilt may
   have many: the new entry is written after what was there, and does not reach all of it. */

/* Writes a file without its dead values: exactly those that the entry reaches, itself among them, each once and in
   their old order. They hold the same things, with distances to where their targets are now; the entry is the same
   value. Strict mode: a padded file is TWINE_OVERLONG.

   TWINE_OK: told = {bytes of the new file, count of its values, offset of its entry}. The new file is the first told[0]
   bytes of out, and what comes after them is as it was. old_starts is as twine_check leaves it for the file, new_starts
   as twine_check leaves it for the new file, which it accepts: the starts, and 0 in every other word.

   On an error told = {place, 0, 0}, and out and both tables get 0 in every byte and word. First come the errors of
   twine_check, given the file and old_starts. Then those of the writer's calls that write the new file, in order, value
   by value and item by item, and at last its close, given out and new_starts: the first that is refused decides. It is
   TWINE_FULL for the first value without a word, or TWINE_NO_ROOM, and has no place: told[0] is 0. TWINE_FULL with
   told[0] = 0 is about new_starts, unless old_words is 0.

   The new file is never longer than the file, and has no more values: out_len = len and len - 1 words in each table are
   always enough, and none of either for an empty file. */
uint32_t twine_prune(const uint8_t *file, size_t len, uint8_t *out, size_t out_len,
                     uint32_t *old_starts, size_t old_words, uint32_t *new_starts, size_t new_words,
                     uint64_t told[3]);

#ifdef __cplusplus
}
#endif

#endif
