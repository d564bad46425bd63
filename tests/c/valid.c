/* Checks images of compiled scripts with the library: each must be a pass, without diagnostics.
 *     valid FILE..            every image of the files, in the format of tests/answers; answers are not looked at
 *     valid all FILE..        also: together they have every opcode, a SETLIST with C = 0, and both binding words
 *     valid same FILE STORED  the two files have the same images, in the same order
 * Exit status: 0 so it is, 1 it is not, 2 a file is unreadable or malformed. */
#include <stdio.h>
#include <stdlib.h>
#include <string.h>

#include "answers.h"
#include "luad51.h"

/* The number of opcodes, all of which luac emits. */
#define OPCODES 38

/* Opcodes that are named here. */
enum { MOVE = 0, GETUPVAL = 4, SETLIST = 34 };

struct tally {
    unsigned long images;
    unsigned long rows;
    unsigned long words;
    unsigned long deepest;
    unsigned long faulty; /* images that are not as they must be */
    unsigned long opcodes[OPCODES];
    unsigned long long_setlists;    /* SETLISTs with C = 0 */
    unsigned long binding_words[2]; /* MOVE, GETUPVAL */
};

static uint32_t get(const uint8_t *from)
{
    return from[0] | (uint32_t)from[1] << 8 | (uint32_t)from[2] << 16 | (uint32_t)from[3] << 24;
}

static uint32_t opcode_of(uint32_t word)
{
    return word & 0x3f;
}

static uint32_t c_of(uint32_t word)
{
    return word >> 14 & 0x1ff;
}

/* Counts a word whose record of two numbers is the role; the image is valid, so its opcode is known. */
static void count_word(uint32_t word, const uint8_t *role, struct tally *tally)
{
    uint32_t opcode = opcode_of(word);
    bool is_instruction = get(role) == UINT32_MAX, is_binding = get(role + 4) != UINT32_MAX;
    if (is_instruction) {
        tally->opcodes[opcode]++;
        tally->long_setlists += opcode == SETLIST && c_of(word) == 0;
    } else if (is_binding) {
        tally->binding_words[opcode == GETUPVAL]++;
    }
}

static void count_image(const struct image *image, const uint8_t *roles, struct tally *tally)
{
    size_t words = image->words.len / LUAD51_WORD_BYTES;
    for (size_t at = 0; at < image->table.len; at += LUAD51_ROW_BYTES)
        if (get(image->table.at + at) > tally->deepest)
            tally->deepest = get(image->table.at + at);
    for (size_t i = 0; i < words; i++)
        count_word(get(image->words.at + i * LUAD51_WORD_BYTES), roles + i * LUAD51_ROLE_BYTES, tally);
    tally->rows += image->table.len / LUAD51_ROW_BYTES;
    tally->words += words;
}

static void print_fault(const struct image *image, uint64_t result, const uint8_t *diagnostics)
{
    printf("%.*s: refusal %u, figure %u, verdict %s", image->label_len, image->label, (unsigned)luad51_refusal(result),
           (unsigned)luad51_figure(result),
           luad51_checked(result) ? VERDICTS[luad51_verdict(result)] : "none");
    if (luad51_checked(result) && luad51_figure(result) > 0)
        printf("; first: row %u, pc %d, code %u, value %d", (unsigned)get(diagnostics), (int)get(diagnostics + 4),
               (unsigned)get(diagnostics + 8), (int)get(diagnostics + 12));
    putchar('\n');
}

/* Whether the image is a pass, without diagnostics. Writes the roles. */
static bool is_valid(const struct image *image, struct bytes roles)
{
    static uint8_t diagnostics[LUAD51_MAX_DIAGNOSTICS * LUAD51_DIAGNOSTIC_BYTES];
    uint64_t result =
        luad51_check(image->table.at, image->table.len, image->words.at, image->words.len, image->warnings,
                     image->errors, roles.at, roles.len, diagnostics, sizeof diagnostics);
    bool valid = luad51_passed(result) && luad51_figure(result) == 0;
    if (!valid)
        print_fault(image, result, diagnostics);
    return valid;
}

static void check_image(const struct image *image, struct tally *tally)
{
    struct bytes roles = {.len = image->words.len / LUAD51_WORD_BYTES * LUAD51_ROLE_BYTES};
    roles.at = allocate(roles.len);
    tally->images++;
    if (is_valid(image, roles))
        count_image(image, roles.at, tally);
    else
        tally->faulty++;
    free(roles.at);
}

static void check_file(const char *path, struct tally *tally)
{
    struct answers answers;
    struct image image;
    answers_open(&answers, path);
    while (answers_next_image(&answers, &image)) {
        check_image(&image, tally);
        image_release(&image);
    }
    answers_close(&answers);
}

/* Prints what did not occur; returns whether there is any. */
static bool lacks(const char *what, unsigned long count)
{
    if (count == 0)
        printf("none: %s\n", what);
    return count == 0;
}

/* Whether something that luac emits did not occur. */
static bool lacks_any(const struct tally *tally)
{
    bool lacking = lacks("SETLIST with C = 0", tally->long_setlists);
    lacking |= lacks("binding word MOVE", tally->binding_words[0]);
    lacking |= lacks("binding word GETUPVAL", tally->binding_words[1]);
    for (unsigned i = 0; i < OPCODES; i++) {
        char name[16];
        sprintf(name, "opcode %u", i);
        lacking |= lacks(name, tally->opcodes[i]);
    }
    return lacking;
}

static void print_tally(const struct tally *tally)
{
    printf("opcodes");
    for (unsigned i = 0; i < OPCODES; i++)
        printf(" %u:%lu", i, tally->opcodes[i]);
    printf("\nSETLIST with C = 0: %lu; binding words: MOVE %lu, GETUPVAL %lu; greatest depth %lu\n",
           tally->long_setlists, tally->binding_words[0], tally->binding_words[1], tally->deepest);
    printf("%lu images, of which %lu are not valid; the others: %lu prototypes, %lu words\n", tally->images,
           tally->faulty, tally->rows, tally->words);
}

static bool check_files(char **paths, bool all)
{
    struct tally tally = {0};
    for (; *paths != NULL; paths++)
        check_file(*paths, &tally);
    bool lacking = all && lacks_any(&tally);
    print_tally(&tally);
    return tally.images > 0 && tally.faulty == 0 && !lacking;
}

static bool same_bytes(const struct bytes *a, const struct bytes *b)
{
    return a->len == b->len && memcmp(a->at, b->at, a->len) == 0;
}

static bool same_image(const struct image *a, const struct image *b)
{
    return a->label_len == b->label_len && memcmp(a->label, b->label, (size_t)a->label_len) == 0 &&
           a->warnings == b->warnings && a->errors == b->errors && same_bytes(&a->table, &b->table) &&
           same_bytes(&a->words, &b->words);
}

/* Whether the next images of two files are the same, or there is none in either; sets whether there was one. */
static bool same_next(struct answers *a, struct answers *b, bool *was)
{
    struct image of_a = {0}, of_b = {0};
    bool in_a = answers_next_image(a, &of_a), in_b = answers_next_image(b, &of_b);
    bool same = in_a == in_b && (!in_a || same_image(&of_a, &of_b));
    if (!same)
        printf("differ: image %.*s, stored %.*s\n", of_a.label_len, in_a ? of_a.label : "", of_b.label_len,
               in_b ? of_b.label : "");
    *was = in_a && in_b;
    image_release(&of_a);
    image_release(&of_b);
    return same;
}

static bool same_files(const char *path, const char *stored)
{
    struct answers a, b;
    unsigned long images = 0;
    bool same, more;
    answers_open(&a, path);
    answers_open(&b, stored);
    do {
        same = same_next(&a, &b, &more);
        images += more;
    } while (same && more);
    answers_close(&a);
    answers_close(&b);
    if (same)
        printf("%lu images, the same as in %s\n", images, stored);
    return same;
}

int main(int argc, char **argv)
{
    bool all = argc > 2 && strcmp(argv[1], "all") == 0, same = argc == 4 && strcmp(argv[1], "same") == 0;
    if (argc < 2) {
        fputs("usage: valid [all] FILE.., or valid same FILE STORED\n", stderr);
        return 2;
    }
    return (same ? same_files(argv[2], argv[3]) : check_files(argv + 1 + all, all)) ? 0 : 1;
}
