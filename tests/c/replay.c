/* Replays stored answers through the library: makes its calls for every image of the files named, and compares results
 * and buffers with the answers stored there. Where records are stored, the calls are made again with buffers that they
 * fill exactly, with each buffer somewhat shorter or longer, and the check call with an empty diagnostics buffer, with
 * one for as many diagnostics as there can be and with one for one less.
 *     (cd crates/luad51 && rt lib --cpu=x86-64)
 *     cc -std=c99 -O2 -Iinclude -o replay tests/c/replay.c tests/c/answers.c crates/luad51/out/libluad51.a
 *     ./replay tests/answers/small.txt tests/answers/large.txt
 * Exit status: 0 no difference, 1 differences, 2 a file is unreadable or malformed. */
#include <stdio.h>
#include <stdlib.h>
#include <string.h>

#include "answers.h"
#include "luad51.h"

/* Bytes before and after a buffer that must stay as they are. */
#define GUARD 64

/* Differences that are printed; all are counted. */
#define MOST_SHOWN 20

/* Elements of an array. */
#define COUNT(array) (sizeof(array) / sizeof *(array))

/* Each call is made once with each of these. The two fills differ in every byte, so a byte that a call did not write
 * cannot look written in both. */
struct manner {
    const char *name;
    size_t offset; /* of slices and buffers from an aligned address */
    uint8_t flip;  /* of the bits of the fill */
};

static const struct manner MANNERS[] = {{"aligned", 0, 0x00}, {"odd addresses", 1, 0xff}};

/* A copy of bytes that a call reads. It ends where its block ends, so that valgrind sees reads past it. */
struct slice {
    uint8_t *block;
    uint8_t *at;
    size_t len;
};

/* A buffer that a call writes, between two guards. */
struct buffer {
    uint8_t *block;
    uint8_t *at;
    size_t len;
    struct bytes written; /* what must stand in front of it after the call; all else must be as before */
};

/* All that a call is lent. */
struct lent {
    struct slice table;
    struct slice words;
    uint32_t warnings;
    uint32_t errors;
    struct buffer roles;
    struct buffer own; /* not handed over to the roles call, which has none */
};

/* How a call is made, its last refusal, and the bytes of its own records. */
struct maker {
    const char *name;
    uint64_t (*make)(const struct lent *lent);
    uint32_t last_refusal;
    long record_len;
};

/* How much longer the buffers are than their records. */
struct fit {
    const char *name;
    long role_bytes;
    long own_records;
    long own_bytes;
};

static const struct fit FITS[] = {{"exact buffers", 0, 0, 0},
                                  {"role buffer a byte short", -1, 0, 0},
                                  {"own buffer a byte short", 0, 0, -1},
                                  {"own buffer a record short", 0, -1, 0},
                                  {"room to spare", 5, 2, 7}};

/* Diagnostics buffers by the number of records that they have room for. */
struct room {
    const char *name;
    size_t records;
};

static const struct room ROOMS[] = {{"room for no diagnostics", 0},
                                    {"room for one diagnostic less than there can be", LUAD51_MAX_DIAGNOSTICS - 1},
                                    {"room for all diagnostics that there can be", LUAD51_MAX_DIAGNOSTICS}};

struct tally {
    unsigned long images;
    unsigned long calls;
    unsigned long stored[CALLS][LUAD51_BUFFER_TOO_SHORT + 1]; /* stored answers by refusal; 0: accepted */
    unsigned long verdicts[LUAD51_INVALID + 1];               /* stored ones */
    unsigned long differences;
};

/* A call: its image, the buffers that it is lent, and what it must answer. */
struct replay {
    const struct image *image;
    enum call call;
    const char *buffers; /* which ones */
    size_t roles_len;
    size_t own_len;
    struct outcome outcome;
    const struct manner *manner;
    struct tally *tally;
};

static uint64_t make_roles(const struct lent *lent)
{
    return luad51_roles(lent->table.at, lent->table.len, lent->words.at, lent->words.len, lent->roles.at,
                        lent->roles.len);
}

static uint64_t make_bindings(const struct lent *lent)
{
    return luad51_bindings(lent->table.at, lent->table.len, lent->words.at, lent->words.len, lent->roles.at,
                           lent->roles.len, lent->own.at, lent->own.len);
}

static uint64_t make_check(const struct lent *lent)
{
    return luad51_check(lent->table.at, lent->table.len, lent->words.at, lent->words.len, lent->warnings, lent->errors,
                        lent->roles.at, lent->roles.len, lent->own.at, lent->own.len);
}

static const struct maker MAKERS[CALLS] = {
    {"roles call", make_roles, LUAD51_ROLE_BUFFER_TOO_SHORT, LUAD51_ROLE_BYTES},
    {"bindings call", make_bindings, LUAD51_BUFFER_TOO_SHORT, LUAD51_BINDING_BYTES},
    {"check call", make_check, LUAD51_BUFFER_TOO_SHORT, LUAD51_DIAGNOSTIC_BYTES}};

/* Counts a difference. If it is to be shown, prints where it is and returns true; the caller prints the rest. */
static bool differs(const struct replay *replay, const char *what)
{
    if (replay->tally->differences++ >= MOST_SHOWN)
        return false;
    printf("%.*s (%s, %s, %s): %s", replay->image->label_len, replay->image->label, MAKERS[replay->call].name,
           replay->buffers, replay->manner->name, what);
    return true;
}

static void compare_number(const struct replay *replay, const char *what, uint64_t expected, uint64_t found)
{
    if (expected != found && differs(replay, what))
        printf(": expected %llu, found %llu\n", (unsigned long long)expected, (unsigned long long)found);
}

/* Compares `count` bytes; the index of the first one is `first`, negative in a guard. */
static void compare_bytes(const struct replay *replay, const char *what, const uint8_t *expected, const uint8_t *found,
                          size_t count, long first)
{
    if (memcmp(expected, found, count) == 0)
        return;
    size_t i = 0;
    while (expected[i] == found[i])
        i++;
    if (differs(replay, what))
        printf(", byte %ld: expected 0x%02x, found 0x%02x\n", first + (long)i, expected[i], found[i]);
}

static struct slice lend_slice(const struct replay *replay, const struct bytes *bytes)
{
    size_t room = replay->manner->offset + bytes->len;
    if (room == 0)
        room = 1;
    struct slice slice = {.block = allocate(room), .len = bytes->len};
    slice.at = slice.block + room - bytes->len;
    memcpy(slice.at, bytes->at, bytes->len);
    return slice;
}

static void take_back_slice(const struct replay *replay, const char *what, struct slice *slice,
                            const struct bytes *expected)
{
    compare_bytes(replay, what, expected->at, slice->at, slice->len, 0);
    free(slice->block);
}

/* At least `len` bytes of a manner's fill, which depends on the index. The fill is kept: making it takes longer than a
 * call. */
static const uint8_t *fill_of(const struct manner *manner, size_t len)
{
    static struct bytes fills[COUNT(MANNERS)];
    struct bytes *fill = &fills[manner - MANNERS];
    if (fill->len < len) {
        free(fill->at);
        fill->at = allocate(len);
        fill->len = len;
        for (size_t i = 0; i < len; i++)
            fill->at[i] = (uint8_t)((uint32_t)i * 2654435761u >> 24) ^ manner->flip;
    }
    return fill->at;
}

/* A filled buffer. Records are expected in front of it if they are to be written. */
static struct buffer lend_buffer(const struct replay *replay, size_t len, const struct bytes *records, bool written)
{
    size_t count = GUARD + len + GUARD;
    struct buffer buffer = {.block = allocate(replay->manner->offset + count), .len = len};
    buffer.at = buffer.block + replay->manner->offset + GUARD;
    memcpy(buffer.at - GUARD, fill_of(replay->manner, count), count);
    if (written)
        buffer.written = *records;
    return buffer;
}

static void take_back_buffer(const struct replay *replay, const char *what, struct buffer *buffer)
{
    const uint8_t *fill = fill_of(replay->manner, GUARD + buffer->len + GUARD);
    size_t written = buffer->written.len;
    compare_bytes(replay, what, fill, buffer->at - GUARD, GUARD, -GUARD);
    if (written > 0)
        compare_bytes(replay, what, buffer->written.at, buffer->at, written, 0);
    compare_bytes(replay, what, fill + GUARD + written, buffer->at + written, buffer->len - written + GUARD,
                  (long)written);
    free(buffer->block);
}

static struct lent lend(const struct replay *replay)
{
    const struct image *image = replay->image;
    bool accepted = replay->outcome.refusal == LUAD51_ACCEPTED;
    bool roles_written = accepted || replay->outcome.refusal == LUAD51_BUFFER_TOO_SHORT;
    bool own_written = accepted && replay->call != ROLES;
    struct lent lent = {.warnings = image->warnings, .errors = image->errors};
    lent.table = lend_slice(replay, &image->table);
    lent.words = lend_slice(replay, &image->words);
    lent.roles = lend_buffer(replay, replay->roles_len, &image->answers[ROLES].records, roles_written);
    lent.own = lend_buffer(replay, replay->own_len, &image->answers[replay->call].records, own_written);
    return lent;
}

static void take_back(const struct replay *replay, struct lent *lent)
{
    take_back_buffer(replay, "own buffer", &lent->own);
    take_back_buffer(replay, "role buffer", &lent->roles);
    take_back_slice(replay, "words", &lent->words, &replay->image->words);
    take_back_slice(replay, "table", &lent->table, &replay->image->table);
}

/* A pass is exactly an accepted check with ValidForParser. */
static void compare_result(const struct replay *replay, uint64_t result)
{
    bool checked = replay->call == CHECK && replay->outcome.refusal == LUAD51_ACCEPTED;
    compare_number(replay, "refusal", replay->outcome.refusal, luad51_refusal(result));
    compare_number(replay, "figure", replay->outcome.figure, luad51_figure(result));
    compare_number(replay, "verdict", replay->outcome.verdict, luad51_verdict(result));
    compare_number(replay, "checked", checked, (uint64_t)luad51_checked(result));
    compare_number(replay, "passed", checked && replay->outcome.verdict == LUAD51_VALID_FOR_PARSER,
                   (uint64_t)luad51_passed(result));
    compare_number(replay, "bits 48 to 63", 0, result >> 48);
}

/* Makes a call in each manner. */
static void replay_call(struct replay *replay)
{
    for (size_t i = 0; i < COUNT(MANNERS); i++) {
        replay->manner = &MANNERS[i];
        struct lent lent = lend(replay);
        compare_result(replay, MAKERS[replay->call].make(&lent));
        take_back(replay, &lent);
        replay->tally->calls++;
    }
}

static void replay_stored(const struct image *image, enum call call, struct tally *tally)
{
    const struct answer *answer = &image->answers[call];
    struct replay replay = {.image = image, .call = call, .buffers = "stored buffers", .tally = tally};
    replay.roles_len = image->answers[ROLES].buffer_len;
    replay.own_len = call == ROLES ? 0 : answer->buffer_len;
    replay.outcome = answer->outcome;
    replay_call(&replay);
    tally->stored[call][answer->outcome.refusal]++;
    if (call == CHECK && answer->outcome.refusal == LUAD51_ACCEPTED)
        tally->verdicts[answer->outcome.verdict]++;
}

/* The bytes of the records that a call writes to its own buffer. */
static size_t own_records_len(const struct image *image, enum call call)
{
    return call == ROLES ? 0 : image->answers[call].records.len;
}

/* What a call answers that is lent buffers of these lengths. */
static struct outcome outcome_for(const struct image *image, enum call call, size_t roles_len, size_t own_len)
{
    struct outcome outcome = {0};
    if (roles_len < image->answers[ROLES].records.len) {
        outcome.refusal = LUAD51_ROLE_BUFFER_TOO_SHORT;
        return outcome;
    }
    outcome.figure = (uint32_t)image->answers[call].count;
    if (own_len < own_records_len(image, call))
        outcome.refusal = LUAD51_BUFFER_TOO_SHORT;
    else if (call == CHECK)
        outcome.verdict = image->verdict;
    return outcome;
}

/* A call with other buffers than the stored ones. */
static void replay_with(const struct image *image, enum call call, const char *buffers, size_t roles_len,
                        size_t own_len, struct tally *tally)
{
    struct replay replay = {.image = image, .call = call, .buffers = buffers, .tally = tally};
    replay.roles_len = roles_len;
    replay.own_len = own_len;
    replay.outcome = outcome_for(image, call, roles_len, own_len);
    replay_call(&replay);
}

/* Makes a call with buffers of this fit, unless one of them would be shorter than 0. */
static void replay_fit(const struct image *image, enum call call, const struct fit *fit, struct tally *tally)
{
    long roles_len = (long)image->answers[ROLES].records.len + fit->role_bytes;
    long own_len = (long)own_records_len(image, call) + fit->own_records * MAKERS[call].record_len + fit->own_bytes;
    if (roles_len >= 0 && own_len >= 0)
        replay_with(image, call, fit->name, (size_t)roles_len, (size_t)own_len, tally);
}

/* Makes a check call with a role buffer that fits exactly and this room for diagnostics. */
static void replay_room(const struct image *image, const struct room *room, struct tally *tally)
{
    replay_with(image, CHECK, room->name, image->answers[ROLES].records.len, room->records * LUAD51_DIAGNOSTIC_BYTES,
                tally);
}

static void replay_image(const struct image *image, struct tally *tally)
{
    for (int call = ROLES; call < CALLS; call++) {
        replay_stored(image, call, tally);
        for (size_t i = 0; image->has_records && i < COUNT(FITS); i++)
            replay_fit(image, call, &FITS[i], tally);
    }
    for (size_t i = 0; image->has_records && i < COUNT(ROOMS); i++)
        replay_room(image, &ROOMS[i], tally);
    tally->images++;
}

static void replay_file(const char *path, struct tally *tally)
{
    struct answers answers;
    struct image image;
    answers_open(&answers, path);
    while (answers_next(&answers, &image)) {
        replay_image(&image, tally);
        image_release(&image);
    }
    answers_close(&answers);
}

static void print_tally(const struct tally *tally)
{
    printf("%lu images, %lu calls; stored answers: ", tally->images, tally->calls);
    for (int call = ROLES; call < CALLS; call++) {
        uint32_t last = MAKERS[call].last_refusal;
        printf("%s %lu accepted, refused ", MAKERS[call].name, tally->stored[call][LUAD51_ACCEPTED]);
        for (uint32_t i = LUAD51_NO_PROTOS; i <= last; i++)
            printf("%u: %lu%s", (unsigned)i, tally->stored[call][i], i < last ? ", " : "; ");
    }
    for (uint32_t i = LUAD51_VALID_FOR_PARSER; i <= LUAD51_INVALID; i++)
        printf("%s %lu%s", VERDICTS[i], tally->verdicts[i], i < LUAD51_INVALID ? ", " : "; ");
    printf("%lu differences\n", tally->differences);
}

int main(int argc, char **argv)
{
    struct tally tally = {0};
    if (argc < 2) {
        fputs("usage: replay FILE..\n", stderr);
        return 2;
    }
    for (int i = 1; i < argc; i++)
        replay_file(argv[i], &tally);
    print_tally(&tally);
    return tally.differences == 0 ? 0 : 1;
}
