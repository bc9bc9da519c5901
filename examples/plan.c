/*
 * plan.c: shows a plan file, then writes a small plan and shows that too, with the C interface of the Twine library.
 *
 * usage: plan [--tolerant | --prune] FILE; examples/plan builds and runs it. With --tolerant it reads padded numbers, as the old exporter wrote them.
 * With --prune it shows, instead of the small plan, the plan in FILE without the values that its entry does not reach.
 *
 * An error is a line "plan: WHAT: NAME PLACE" on standard error. The status is 0, 1 for an error, 2 if the file can't be read.
 */
#include <errno.h>
#include <inttypes.h>
#include <stdbool.h>
#include <stdio.h>
#include <stdlib.h>
#include <string.h>

#include "twine.h"

/* A file in memory, and the mode in which it is read. */
struct file {
    const char *name;
    const uint8_t *bytes;
    size_t len;
    uint32_t mode;
};

/* Returns whether there is no error; if there is one, prints it, with the place that the call left in out[0]. */
static bool ok(const char *what, uint32_t error, const uint64_t *out) {
    if (error == TWINE_OK) {
        return true;
    }
    fprintf(stderr, "plan: %s: %s %" PRIu64 "\n", what, twine_error_name(error), out[0]);
    return false;
}

/* ---- reading: each function answers false after it has printed an error */

/* The value that the one at `at` is, or that pointers lead to: its offset and out of twine_read. WRONG_KIND if it is not of the kind. */
static bool read_as(const struct file *f, uint64_t at, uint64_t kind, uint64_t *end, uint64_t out[4]) {
    uint64_t followed[2] = {0};
    if (!ok(f->name, twine_follow(f->bytes, f->len, f->mode, at, followed), followed)) {
        return false;
    }
    *end = followed[0];
    uint32_t error = twine_read(f->bytes, f->len, f->mode, *end, out);
    if (error == TWINE_OK && out[0] != kind) {
        return ok(f->name, TWINE_WRONG_KIND, end);
    }
    return ok(f->name, error, out);
}

/* An integer from 0. */
static bool read_integer(const struct file *f, uint64_t at, uint64_t *value) {
    uint64_t end, out[4] = {0};
    if (!read_as(f, at, TWINE_KIND_INTEGER, &end, out)) {
        return false;
    }
    *value = out[1];
    return true;
}

/* The offset of a label's value in a map. */
static bool find(const struct file *f, uint64_t at, const char *label, uint64_t *value) {
    uint64_t map, out[4] = {0}, found[2] = {0};
    if (!read_as(f, at, TWINE_KIND_MAP, &map, out)) {
        return false;
    }
    if (!ok(f->name, twine_lookup(f->bytes, f->len, f->mode, map, (const uint8_t *)label, strlen(label), found), found)) {
        return false;
    }
    *value = found[0];
    return true;
}

/* A frame is a map with the label "slots". */
static bool show_frame(const struct file *f, uint64_t at, uint64_t number) {
    uint64_t value, slots;
    if (!find(f, at, "slots", &value) || !read_integer(f, value, &slots)) {
        return false;
    }
    printf("  frame %" PRIu64 ": %" PRIu64 " slots\n", number, slots);
    return true;
}

/* A drive is an array of its address, frame and slot. */
static bool show_drive(const struct file *f, uint64_t at, uint64_t number) {
    uint64_t array, out[4] = {0}, item[2] = {0}, is[3];
    if (!read_as(f, at, TWINE_KIND_ARRAY, &array, out)) {
        return false;
    }
    for (size_t i = 0; i < 3; i++) {
        if (!ok(f->name, twine_item(f->bytes, f->len, f->mode, array, i, item), item) || !read_integer(f, item[0], &is[i])) {
            return false;
        }
    }
    printf("  drive %" PRIu64 ": address %" PRIu64 ", frame %" PRIu64 ", slot %" PRIu64 "\n", number, is[0], is[1], is[2]);
    return true;
}

/* Shows each item of the array that a label names. */
static bool show_all(const struct file *f, uint64_t map, const char *label, bool (*show)(const struct file *, uint64_t, uint64_t)) {
    uint64_t value, array, out[4] = {0}, next[2] = {0};
    if (!find(f, map, label, &value) || !read_as(f, value, TWINE_KIND_ARRAY, &array, out)) {
        return false;
    }
    printf("%s, at %" PRIu64 ": %" PRIu64 "\n", label, array, out[3]);
    /* from item to item by twine_skip: twine_item would start at the first again each time */
    uint64_t at = out[2];
    for (uint64_t i = 0; i < out[3]; i++) {
        if (!show(f, at, i) || !ok(f->name, twine_skip(f->bytes, f->len, f->mode, at, next), next)) {
            return false;
        }
        at = next[0];
    }
    return true;
}

/* Checks a plan and shows it. */
static bool show_plan(const struct file *f) {
    /* a value has a byte at least and the last byte is none's, so that a table of len words is enough; a file over the limit needs none */
    size_t words = f->len > 0 && f->len <= TWINE_LIMIT ? f->len : 1;
    uint64_t out[2] = {0};
    uint32_t *starts = calloc(words, sizeof *starts);
    if (starts == NULL) {
        fprintf(stderr, "plan: no memory\n");
        return false;
    }
    uint32_t error = twine_check(f->bytes, f->len, f->mode, starts, words, out);
    free(starts);
    if (!ok(f->name, error, out)) {
        return false;
    }
    printf("%s: %" PRIu64 " values, entry at %" PRIu64 "\n", f->name, out[0], out[1]);
    return show_all(f, out[1], "frames", show_frame) && show_all(f, out[1], "drives", show_drive);
}

/* Prints the bytes of a file in hex, and shows it. */
static bool show_bytes(const struct file *f) {
    printf("\n");
    for (size_t i = 0; i < f->len; i++) {
        printf("%02x%c", f->bytes[i], i % 16 == 15 || i + 1 == f->len ? '\n' : ' ');
    }
    return show_plan(f);
}

/* ---- pruning */

/* Prunes a plan that check has accepted, and shows what is left. */
static bool pruned_plan(const struct file *f) {
    /* the new file has no more bytes and no more values than the old one */
    uint64_t told[3] = {0};
    uint8_t *out = calloc(f->len, sizeof *out);
    uint32_t *old_starts = calloc(f->len, sizeof *old_starts);
    uint32_t *new_starts = calloc(f->len, sizeof *new_starts);
    bool good = out != NULL && old_starts != NULL && new_starts != NULL;
    if (!good) {
        fprintf(stderr, "plan: no memory\n");
    } else {
        uint32_t error = twine_prune(f->bytes, f->len, out, f->len, old_starts, f->len, new_starts, f->len, told);
        good = ok(f->name, error, told);
    }
    if (good) {
        struct file new = {"pruned", out, told[0], TWINE_STRICT};
        good = show_bytes(&new);
    }
    free(out);
    free(old_starts);
    free(new_starts);
    return good;
}

/* ---- writing */

#define ROOM 128

/* A writer with its memory, and the first error of its calls. */
struct writer {
    uint64_t state[TWINE_STATE];
    uint8_t out[ROOM];
    uint32_t starts[ROOM];
    uint32_t error;
};

/* What every call of the writer ends with. */
#define MEMORY(w) (w)->out, ROOM, (w)->starts, ROOM

/* The offset where the next call writes. */
static uint64_t here(const struct writer *w) {
    return w->state[0];
}

/* Keeps the first error. A refused call changes nothing, so that the next ones may be made all the same. */
static void keep(struct writer *w, uint32_t error) {
    if (w->error == TWINE_OK) {
        w->error = error;
    }
}

static void text(struct writer *w, const char *s) {
    keep(w, twine_write_text(w->state, (const uint8_t *)s, strlen(s), MEMORY(w)));
}

static void integer(struct writer *w, int64_t value) {
    keep(w, twine_write_integer(w->state, value, MEMORY(w)));
}

static void pointer(struct writer *w, uint64_t at) {
    keep(w, twine_write_pointer(w->state, at, MEMORY(w)));
}

static void open_array(struct writer *w, uint64_t items) {
    keep(w, twine_open_array(w->state, items, MEMORY(w)));
}

static void open_map(struct writer *w, uint64_t pairs) {
    keep(w, twine_open_map(w->state, pairs, MEMORY(w)));
}

/* Writes a row of two equal frames, which share one map, and a drive in the last slot of the second. */
static void write_plan(struct writer *w) {
    keep(w, twine_writer_new(w->state));
    uint64_t frame = here(w);
    open_map(w, 1);
    text(w, "slots");
    integer(w, 24);
    uint64_t frames = here(w);
    open_array(w, 2);
    pointer(w, frame);
    pointer(w, frame);
    uint64_t drive = here(w);
    open_array(w, 3);
    integer(w, 5);
    integer(w, 1);
    integer(w, 23);
    uint64_t drives = here(w);
    open_array(w, 1);
    pointer(w, drive);
    uint64_t row = here(w);
    open_map(w, 2);
    text(w, "frames");
    pointer(w, frames);
    text(w, "drives");
    pointer(w, drives);
    keep(w, twine_close(w->state, row, MEMORY(w)));
}

/* Writes a plan and shows it. */
static bool written_plan(void) {
    struct writer w = {0};
    write_plan(&w);
    if (w.error != TWINE_OK) {
        /* an error of the writer has no place */
        fprintf(stderr, "plan: writer: %s\n", twine_error_name(w.error));
        return false;
    }
    struct file f = {"written", w.out, here(&w), TWINE_STRICT};
    return show_bytes(&f);
}

/* ---- the program */

/* Reads a file into memory of its own, at most a byte more than the limit, which is enough for TOO_LONG. NULL if it can't be read. */
static uint8_t *load(const char *name, size_t *len) {
    uint8_t *bytes = malloc(TWINE_LIMIT + 1);
    FILE *stream = fopen(name, "rb");
    if (bytes != NULL && stream != NULL) {
        *len = fread(bytes, 1, TWINE_LIMIT + 1, stream);
    }
    if (bytes == NULL || stream == NULL || ferror(stream)) {
        fprintf(stderr, "plan: %s: %s\n", name, strerror(errno));
        free(bytes);
        bytes = NULL;
    }
    if (stream != NULL) {
        fclose(stream);
    }
    return bytes;
}

int main(int argc, char **argv) {
    bool tolerant = argc > 1 && strcmp(argv[1], "--tolerant") == 0;
    bool prune = argc > 1 && strcmp(argv[1], "--prune") == 0;
    if (argc != 2 + (tolerant || prune)) {
        fprintf(stderr, "usage: plan [--tolerant | --prune] FILE\n");
        return 2;
    }
    struct file f = {.name = argv[argc - 1], .mode = tolerant ? TWINE_TOLERANT : TWINE_STRICT};
    uint8_t *bytes = load(f.name, &f.len);
    if (bytes == NULL) {
        return 2;
    }
    f.bytes = bytes;
    bool good = show_plan(&f) && (prune ? pruned_plan(&f) : written_plan());
    free(bytes);
    return good ? EXIT_SUCCESS : EXIT_FAILURE;
}
