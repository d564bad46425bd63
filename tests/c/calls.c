/* Tests the three calls as a C program sees them: refusals and which of them comes first, exact fits and buffers that
 * are too short, limits, empty slices, addresses, the worked examples P1 to P13 of document 01, threads. header.c tests
 * the header's numbers and functions. What is expected is written by hand from document 01.
 *     cd tests/c
 *     cc -std=c99 -O2 -I../../include -o calls calls.c header.c lend.c ../../crates/luad51/out/libluad51.a -pthread
 * Prints a line for each failed expectation. Exit status: 0 none failed, 1 some did or a call touched what it must not,
 * 2 the test itself could not run. */
#define _POSIX_C_SOURCE 200809L
#include <pthread.h>
#include <stdbool.h>
#include <stdio.h>
#include <stdlib.h>
#include <string.h>

#include "lend.h"
#include "luad51.h"

/* Elements of an array. */
#define COUNT(array) (sizeof(array) / sizeof *(array))

/* RETURN of no values: register 0 is the only one that it names. */
#define RETURN 0x0080001eu

/* A word of opcode 63, which is unknown: one diagnostic. */
#define UNKNOWN 0x0000003fu

/* CLOSURE into register 0 of child 0. */
#define CLOSURE 0x00000024u

/* Times that each thread makes its calls. */
#define ROUNDS 300

static struct image image, second;

/* What an accepted call has as its figure. */
static uint32_t record_count(const struct image *of, enum call call)
{
    const size_t counts[CALLS] = {of->roles_len / LUAD51_ROLE_BYTES, of->bindings_len / LUAD51_BINDING_BYTES,
                                  of->diagnostics_len / LUAD51_DIAGNOSTIC_BYTES};
    return (uint32_t)counts[call];
}

static void try_call(enum call call, const char *buffers, size_t roles_len, size_t own_len, uint32_t refusal,
                     uint32_t figure)
{
    struct attempt one = {call, buffers, roles_len, own_len, refusal, figure};
    try_attempt(&image, &one);
}

/* Makes a call with buffers that fit, are too long and too short. */
static void try_fits(enum call call)
{
    size_t roles = image.roles_len, own = own_records_len(&image, call);
    uint32_t count = record_count(&image, call);
    try_call(call, "exact fit", roles, own, LUAD51_ACCEPTED, count);
    try_call(call, "room to spare", roles + 13, own + 37, LUAD51_ACCEPTED, count);
    if (roles > 0) {
        try_call(call, "roles a byte short", roles - 1, own, LUAD51_ROLE_BUFFER_TOO_SHORT, 0);
        try_call(call, "no roles", 0, own, LUAD51_ROLE_BUFFER_TOO_SHORT, 0);
        try_call(call, "both empty", 0, 0, LUAD51_ROLE_BUFFER_TOO_SHORT, 0);
    }
    if (own > 0) {
        try_call(call, "own a byte short", roles, own - 1, LUAD51_BUFFER_TOO_SHORT, count);
        try_call(call, "own empty", roles, 0, LUAD51_BUFFER_TOO_SHORT, count);
    }
    if (roles > 0 && own > 0)
        try_call(call, "both a byte short", roles - 1, own - 1, LUAD51_ROLE_BUFFER_TOO_SHORT, 0);
}

/* Tries the image by all calls, which accept it where there is room. */
static void try_accepted(void)
{
    for (int call = ROLES_CALL; call < CALLS; call++)
        try_fits((enum call)call);
    try_call(CHECK_CALL, "room for all diagnostics that there can be", image.roles_len, DIAGNOSTICS_ROOM,
             LUAD51_ACCEPTED, record_count(&image, CHECK_CALL));
}

/* Tries the image by all calls, which refuse it before they look at their buffers. */
static void try_refused(uint32_t refusal, uint32_t figure)
{
    for (int call = ROLES_CALL; call < CALLS; call++) {
        try_call((enum call)call, "room to spare", 2 * image.words_len + 8, 400, refusal, figure);
        try_call((enum call)call, "both empty", 0, 0, refusal, figure);
    }
}

static void start(const char *name)
{
    image_start(&image, name);
}

/* An image of one row with at most one word, which is an instruction. */
static void start_one(const char *name, uint32_t words, uint32_t word, uint32_t stack)
{
    start(name);
    add_row(&image, 0, words, 0, 0, stack);
    if (words > 0) {
        add_word(&image, word);
        expect_role(&image, -1, -1);
    }
}

/* An image of one row and one word, with at most one diagnostic. */
static void try_one(const char *name, uint32_t word, uint32_t stack, int32_t code, int32_t value)
{
    start_one(name, 1, word, stack);
    if (code > 0)
        expect_diagnostic(&image, 0, 0, code, value);
    try_accepted();
}

static void worked_words(void)
{
    try_one("P1", 0x7fff8016, 2, 0, 0);
    try_one("P2", 0x7fff4016, 2, 5, -1);
    try_one("P3", 0x7fffc016, 2, 5, 1);
    try_one("P4", 0x0000003f, 2, 4, 63);
    try_one("P5", 0x00000097, 1, 9, 2);
    try_one("P6", 0x00800022, 2, 2, 0);
    start_one("P7", 1, 0x00800022, 1);
    expect_diagnostic(&image, 0, 0, 2, 0);
    expect_diagnostic(&image, 0, 0, 11, 1);
    try_accepted();
    try_one("P8 with stack 0", 0x0080001e, 0, 10, 0);
    try_one("P8 with stack 1", 0x0080001e, 1, 0, 0);
    start_one("P9", 1, 0x0100c01c, 1);
    expect_diagnostic(&image, 0, 0, 11, 1);
    expect_diagnostic(&image, 0, 0, 11, 1);
    try_accepted();
}

static void worked_closures(void)
{
    start("P10");
    add_row(&image, 0, 2, 0, 0, 2);
    add_row(&image, 1, 1, 0, 1, 2);
    add_word(&image, 0x00000024);
    add_word(&image, 0x96000000);
    add_word(&image, 0x0080001e);
    expect_role(&image, -1, -1);
    expect_role(&image, 0, 0);
    expect_role(&image, -1, -1);
    expect_binding(&image, 1, 44, 1);
    expect_diagnostic(&image, 0, 1, 12, 300);
    try_accepted();
    start("P11");
    add_row(&image, 0, 1, 0, 0, 2);
    add_row(&image, 1, 1, 0, 1, 2);
    add_word(&image, 0x00000024);
    add_word(&image, 0x0080001e);
    expect_role(&image, -1, -1);
    expect_role(&image, -1, -1);
    expect_binding(&image, 0, 0, -1);
    expect_diagnostic(&image, 0, 0, 1, 1);
    try_accepted();
}

/* One row, of which nothing is found: the incoming numbers decide. */
static void try_incoming(const char *name, uint32_t words, uint32_t word, uint32_t warnings, uint32_t errors,
                         uint32_t verdict)
{
    start_one(name, words, word, 2);
    image.warnings = warnings;
    image.errors = errors;
    image.verdict = verdict;
    try_accepted();
}

static void worked_incoming(void)
{
    start_one("P12 with stack 251", 0, 0, 251);
    expect_diagnostic(&image, 0, -1, 3, 251);
    try_accepted();
    start_one("P12 with stack 250", 0, 0, 250);
    try_accepted();
    try_incoming("P13", 0, 0, 10000, 0, LUAD51_INCOMPLETE);
    try_incoming("P13 with an error", 0, 0, 10000, 1, LUAD51_INVALID);
}

/* The incoming numbers are added up without wrapping: nothing of a bad word is found where they meet the limit. */
static void incoming_extremes(void)
{
    try_incoming("an error came in", 1, RETURN, 0, 1, LUAD51_INVALID);
    try_incoming("9,999 warnings came in", 1, RETURN, 9999, 0, LUAD51_VALID_FOR_PARSER);
    try_incoming("9,998 warnings and an error came in", 1, RETURN, 9998, 1, LUAD51_INVALID);
    try_incoming("most warnings came in", 1, UNKNOWN, 4294967295u, 0, LUAD51_INCOMPLETE);
    try_incoming("most errors came in", 1, UNKNOWN, 0, 4294967295u, LUAD51_INVALID);
    try_incoming("most of both came in", 1, UNKNOWN, 4294967295u, 4294967295u, LUAD51_INVALID);
    try_incoming("2^32 warnings and errors came in", 1, UNKNOWN, 4294967295u, 1, LUAD51_INVALID);
    try_incoming("2^32 errors and warnings came in", 1, UNKNOWN, 1, 4294967295u, LUAD51_INVALID);
}

/* The limit is met by a diagnostic: what comes after it is not looked at. */
static void limit_met(void)
{
    start_one("9,999 warnings, and the stack's", 0, 0, 251);
    image.warnings = 9999;
    expect_diagnostic(&image, 0, -1, 3, 251);
    try_accepted();
    start_one("9,999 warnings, the stack's, and a word", 1, RETURN, 251);
    image.warnings = 9999;
    expect_diagnostic(&image, 0, -1, 3, 251);
    image.verdict = LUAD51_INCOMPLETE;
    try_accepted();
    start("9,999 warnings, and two bad words");
    add_row(&image, 0, 2, 0, 0, 2);
    image.warnings = 9999;
    for (int i = 0; i < 2; i++) {
        add_word(&image, UNKNOWN);
        expect_role(&image, -1, -1);
    }
    expect_diagnostic(&image, 0, 0, 4, 63);
    try_accepted();
}

/* The codes that P1 to P13 do not have. */
static void other_codes(void)
{
    static const uint32_t words[] = {0x00014001, 0x01800004, 0x00024015, 0x8380000c, 0x0041800c,
                                     0x00010024, 0x00000024, 0x0000000c, 0x0000003f, 0x7fff0016};
    start("the other codes");
    add_row(&image, 0, 10, 5, 3, 9);
    add_row(&image, 1, 0, 0, 2, 0);
    for (int i = 0; i < 10; i++) {
        bool bound = i == 7 || i == 8; /* follow the CLOSURE at pc 6 */
        add_word(&image, words[i]);
        expect_role(&image, bound ? 6 : -1, bound ? i - 7 : -1);
    }
    for (int i = 0; i < 5; i++)
        expect_binding(&image, 0, 0, -1);
    expect_diagnostic(&image, 0, 0, 7, 5);
    expect_diagnostic(&image, 0, 1, 8, 3);
    expect_diagnostic(&image, 0, 2, 13, 9);
    expect_diagnostic(&image, 0, 3, 14, 7);
    expect_diagnostic(&image, 0, 4, 15, 6);
    expect_diagnostic(&image, 0, 5, 16, 4);
    expect_diagnostic(&image, 0, 7, 17, 12);
    expect_diagnostic(&image, 0, 8, 17, -1);
    expect_diagnostic(&image, 0, 9, 6, 7);
    try_accepted();
}

/* A child that is bound twice, an index above 255, and a binding word that looks like a CLOSURE, of a truncated one. */
static void bound_twice(void)
{
    static const uint32_t words[] = {0x00000024, 0x00800000, 0x00000064, 0x96000004,
                                     0x00004024, 0x00000024, 0x0080001e};
    static const int32_t owners[] = {-1, 0, -1, 2, -1, 4, -1};
    start("bound twice");
    add_row(&image, 0, 6, 0, 0, 2);
    add_row(&image, 1, 0, 0, 1, 0);
    add_row(&image, 1, 1, 0, 2, 1);
    for (int i = 0; i < 7; i++) {
        add_word(&image, words[i]);
        expect_role(&image, owners[i], owners[i] < 0 ? -1 : 0);
    }
    expect_binding(&image, 0, 44, 3);
    expect_binding(&image, 0, 0, -1);
    expect_binding(&image, 0, 0, -1);
    expect_diagnostic(&image, 0, 4, 1, 2);
    expect_diagnostic(&image, 0, 3, 8, 300);
    expect_diagnostic(&image, 0, 5, 17, 36);
    try_accepted();
}

/* The extra word of a SETLIST, and a row without words between rows with some. */
static void extra_word(void)
{
    start("an extra word");
    add_row(&image, 0, 2, 0, 0, 2);
    add_row(&image, 1, 0, 0, 0, 0);
    add_row(&image, 2, 1, 0, 0, 1);
    add_word(&image, 0x00800022);
    add_word(&image, 0xffffffff);
    add_word(&image, RETURN);
    expect_role(&image, -1, -1);
    expect_role(&image, 0, -1);
    expect_role(&image, -1, -1);
    try_accepted();
}

static void refusals_1_and_2(void)
{
    static const size_t PARTIAL[] = {1, 4, 19, 21, 30, 39};
    start("no rows");
    try_refused(1, 0);
    start("no rows, and a word: 1 before 6");
    add_word(&image, RETURN);
    try_refused(1, 0);
    start("no rows, and too many words: 1 before 3");
    add_words_bytes(&image, 4194305);
    try_refused(1, 0);
    for (size_t i = 0; i < COUNT(PARTIAL); i++) {
        start("partial row");
        add_table_bytes(&image, PARTIAL[i]);
        try_refused(2, 0);
    }
    start("partial row above the limit: 2 before 3");
    for (int i = 0; i < 16385; i++)
        add_row(&image, i > 0, 0, 0, 0, 0);
    add_table_bytes(&image, 1);
    try_refused(2, 0);
    start("a bad row and a partial row: 2 before 4, 5 and 6");
    add_row(&image, 1, 1, 0, 256, 0);
    add_table_bytes(&image, 19);
    try_refused(2, 0);
}

static void refusal_3(void)
{
    start("16,385 rows");
    for (int i = 0; i < 16385; i++)
        add_row(&image, i > 0, 0, 0, 0, 0);
    try_refused(3, 0);
    start("16,385 bad rows: 3 before 4, 5 and 6");
    for (int i = 0; i < 16385; i++)
        add_row(&image, 7, 1, 0, 0, 256);
    try_refused(3, 0);
    start("1,048,577 words, as the row states");
    add_row(&image, 0, 1048577, 0, 0, 0);
    add_words_bytes(&image, 4194308);
    try_refused(3, 0);
    start("a byte above 1,048,576 words, and a bad row: 3 before 4, 5 and 6");
    add_row(&image, 1, 0, 0, 256, 0);
    add_words_bytes(&image, 4194305);
    try_refused(3, 0);
}

/* Rows of these depths, of which `row` is the first bad one. */
static void try_depths(const char *name, const uint32_t *depths, size_t count, uint32_t row)
{
    start(name);
    for (size_t i = 0; i < count; i++)
        add_row(&image, depths[i], 0, 0, 0, 0);
    try_refused(4, row);
}

static void refusal_4(void)
{
    static const uint32_t first[] = {1}, zero[] = {0, 0}, skip[] = {0, 2}, later[] = {0, 1, 2, 1, 3};
    static const uint32_t most[] = {0, 4294967295u};
    try_depths("row 0 of depth 1", first, COUNT(first), 0);
    try_depths("row 1 of depth 0", zero, COUNT(zero), 1);
    try_depths("row 1 of depth 2", skip, COUNT(skip), 1);
    try_depths("row 4 two deeper", later, COUNT(later), 4);
    try_depths("row 1 of most depth", most, COUNT(most), 1);
    start("depth 200");
    for (uint32_t depth = 0; depth <= 200; depth++)
        add_row(&image, depth, 0, 0, 0, 0);
    try_refused(4, 200);
    start("an earlier row over its limits: 4 before 5 and 6");
    add_row(&image, 0, 9, 2147483648u, 256, 256);
    add_row(&image, 1, 0, 0, 0, 0);
    add_row(&image, 0, 0, 0, 0, 0);
    try_refused(4, 2);
}

/* A row over a limit, and a later one: the first is named. The words do not fit either: 5 before 6. */
static void try_over_limit(const char *name, uint32_t constants, uint32_t upvalues, uint32_t stack)
{
    start(name);
    add_row(&image, 0, 0, 2147483647, 255, 255);
    add_row(&image, 1, 3, constants, upvalues, stack);
    add_row(&image, 1, 0, 4294967295u, 4294967295u, 4294967295u);
    try_refused(5, 1);
    start(name);
    add_row(&image, 0, 0, constants, upvalues, stack);
    try_refused(5, 0);
}

static void refusal_5(void)
{
    try_over_limit("2,147,483,648 constants", 2147483648u, 0, 0);
    try_over_limit("256 upvalues", 0, 256, 0);
    try_over_limit("stack 256", 0, 0, 256);
    try_over_limit("most constants", 4294967295u, 0, 0);
    try_over_limit("most upvalues", 0, 4294967295u, 0);
    try_over_limit("most stack", 0, 0, 4294967295u);
}

/* Two rows that state these numbers of words, and `bytes` bytes of words: too few or too many. */
static void try_count(const char *name, uint32_t stated, uint32_t stated_too, size_t bytes)
{
    start(name);
    add_row(&image, 0, stated, 0, 0, 0);
    add_row(&image, 1, stated_too, 0, 0, 0);
    add_words_bytes(&image, bytes);
    try_refused(6, 0);
}

static void refusal_6(void)
{
    try_count("a word stated and none there", 1, 0, 0);
    try_count("a word there and none stated", 0, 0, 4);
    try_count("a word too few", 2, 1, 8);
    try_count("a word too many", 2, 1, 16);
    try_count("a byte too few", 2, 1, 11);
    try_count("a byte too many", 2, 1, 13);
    try_count("a byte there and no word stated", 0, 0, 1);
    try_count("2^32 words stated", 4294967295u, 1, 0);
    try_count("2^30 words stated", 1073741824u, 0, 0);
    try_count("2^33 - 2 words stated", 4294967295u, 4294967295u, 4194304);
    try_count("1,048,577 words stated", 1048576, 1, 4194304);
}

/* As many rows as there can be, and a CLOSURE of the last of them. */
static void most_rows(void)
{
    start("16,384 rows");
    add_row(&image, 0, 2, 0, 0, 1);
    for (int i = 0; i < 16382; i++)
        add_row(&image, 1, 0, 0, 0, 0);
    add_row(&image, 1, 0, 0, 1, 0);
    add_word(&image, 0x0fff8024);
    add_word(&image, 0x00000000);
    expect_role(&image, -1, -1);
    expect_role(&image, 0, 0);
    expect_binding(&image, 1, 0, 1);
    try_accepted();
}

static void deepest(void)
{
    start("depth 199");
    for (uint32_t depth = 0; depth <= 199; depth++) {
        add_row(&image, depth, 1, 0, 0, 1);
        add_word(&image, RETURN);
        expect_role(&image, -1, -1);
    }
    try_accepted();
}

static void most_words(void)
{
    start("1,048,576 words");
    add_row(&image, 0, 1048575, 0, 0, 1);
    add_row(&image, 1, 1, 0, 0, 0);
    for (int i = 0; i < 1048576; i++) {
        add_word(&image, RETURN);
        expect_role(&image, -1, -1);
    }
    expect_diagnostic(&image, 1, 0, 10, 0);
    try_call(ROLES_CALL, "exact fit", 8388608, 0, LUAD51_ACCEPTED, 1048576);
    try_call(ROLES_CALL, "roles a byte short", 8388607, 0, LUAD51_ROLE_BUFFER_TOO_SHORT, 0);
    try_call(BINDINGS_CALL, "exact fit", 8388608, 0, LUAD51_ACCEPTED, 0);
    try_call(BINDINGS_CALL, "roles a byte short", 8388607, 0, LUAD51_ROLE_BUFFER_TOO_SHORT, 0);
    try_call(CHECK_CALL, "exact fit", 8388608, 16, LUAD51_ACCEPTED, 1);
    try_call(CHECK_CALL, "roles a byte short", 8388607, 16, LUAD51_ROLE_BUFFER_TOO_SHORT, 0);
    try_call(CHECK_CALL, "own a byte short", 8388608, 15, LUAD51_BUFFER_TOO_SHORT, 1);
}

static void largest_fields(void)
{
    start("2,147,483,647 constants, 255 upvalues, stack 255");
    add_row(&image, 0, 1, 2147483647, 255, 255);
    add_word(&image, RETURN);
    expect_role(&image, -1, -1);
    for (int i = 0; i < 255; i++)
        expect_binding(&image, 0, 0, -1);
    expect_diagnostic(&image, 0, -1, 3, 255);
    try_accepted();
}

static void most_bindings(void)
{
    start("4,177,920 upvalues");
    for (int i = 0; i < 16384; i++)
        add_row(&image, i > 0, 0, 0, 255, 0);
    for (int i = 0; i < 4177920; i++)
        expect_binding(&image, 0, 0, -1);
    try_call(BINDINGS_CALL, "exact fit", 0, 50135040, LUAD51_ACCEPTED, 4177920);
    try_call(BINDINGS_CALL, "own a byte short", 0, 50135039, LUAD51_BUFFER_TOO_SHORT, 4177920);
}

/* 9,999 words with one diagnostic each, and one with 256. The word after it is not looked at. */
static void most_diagnostics(void)
{
    start("10,255 diagnostics");
    add_row(&image, 0, 10256, 0, 0, 0);
    add_row(&image, 1, 0, 0, 255, 0);
    for (int pc = 0; pc < 10256; pc++) {
        bool bound = pc > 9999 && pc < 10255; /* follow the CLOSURE at pc 9999 */
        add_word(&image, pc == 9999 ? CLOSURE : UNKNOWN);
        expect_role(&image, bound ? 9999 : -1, bound ? pc - 10000 : -1);
        if (pc < 9999)
            expect_diagnostic(&image, 0, pc, 4, 63);
        else if (pc == 9999)
            expect_diagnostic(&image, 0, pc, 10, 0);
        else if (bound)
            expect_diagnostic(&image, 0, pc, 17, -1);
    }
    for (int i = 0; i < 255; i++)
        expect_binding(&image, 0, 0, -1);
    try_accepted();
}

/* Empty words and buffers that point into the table and to its end, or to one place outside it. */
static void empty_beside_table(void)
{
    uint8_t kept[LUAD51_ROW_BYTES], elsewhere[1] = {0};
    start_one("empty words and buffers", 0, 0, 250);
    in_case(image.name);
    memcpy(kept, image.table, sizeof kept);
    for (size_t i = 0; i <= LUAD51_ROW_BYTES; i++) {
        uint8_t *at = kept + i, *past = elsewhere + 1;
        expect("roles call", 0, luad51_roles(kept, sizeof kept, at, 0, at, 0));
        expect("bindings call", 0, luad51_bindings(kept, sizeof kept, at, 0, at, 0, at, 0));
        expect("check call", CHECKED, luad51_check(kept, sizeof kept, at, 0, 0, 0, at, 0, at, 0));
        expect("check call with others", CHECKED, luad51_check(kept, sizeof kept, past, 0, 0, 0, at, 0, elsewhere, 0));
        expect_bytes("table", image.table, kept, sizeof kept);
    }
}

/* An empty table that points into the words and buffers, and all of them empty at one place: refused. */
static void empty_table(void)
{
    static const uint8_t zeros[16];
    uint8_t block[16] = {0};
    in_case("empty table");
    for (size_t i = 0; i <= sizeof block; i++) {
        uint8_t *at = block + i;
        expect("roles call", 0x100000000, luad51_roles(at, 0, at, 0, at, 0));
        expect("bindings call", 0x100000000, luad51_bindings(at, 0, block, 4, block + 4, 8, at, 0));
        expect("check call", 0x100000000, luad51_check(at, 0, at, 0, 0, 0, at, 0, block, 16));
        expect_bytes("block", zeros, block, sizeof block);
    }
}

/* An empty buffer that points into the other one, which is written. */
static void empty_in_written(void)
{
    uint8_t roles[LUAD51_ROLE_BYTES], diagnostics[LUAD51_DIAGNOSTIC_BYTES];
    for (size_t i = 0; i <= LUAD51_ROLE_BYTES; i++) {
        start_one("own buffer empty in the role buffer", 1, RETURN, 1);
        in_case(image.name);
        memset(roles, 0x55, sizeof roles);
        expect("bindings call", 0, luad51_bindings(image.table, 20, image.words, 4, roles, 8, roles + i, 0));
        expect_bytes("roles", image.roles, roles, sizeof roles);
        memset(roles, 0x55, sizeof roles);
        expect("check call", CHECKED, luad51_check(image.table, 20, image.words, 4, 0, 0, roles, 8, roles + i, 0));
        expect_bytes("roles", image.roles, roles, sizeof roles);
        start_one("role buffer empty in the diagnostics buffer", 0, 0, 251);
        in_case(image.name);
        expect_diagnostic(&image, 0, -1, 3, 251);
        memset(diagnostics, 0x55, sizeof diagnostics);
        expect("check call", CHECKED + 1,
               luad51_check(image.table, 20, image.words, 0, 0, 0, diagnostics + 2 * i, 0, diagnostics, 16));
        expect_bytes("diagnostics", image.diagnostics, diagnostics, sizeof diagnostics);
    }
}

/* A thread: its image, buffers of its own, and how many of its calls gave something else than expected. */
struct worker {
    const struct image *image;
    uint8_t roles[10256 * LUAD51_ROLE_BYTES];
    uint8_t own[DIAGNOSTICS_ROOM];
    pthread_barrier_t *barrier;
    uint64_t differing;
};

static uint64_t work_once(struct worker *worker, enum call call)
{
    const struct image *of = worker->image;
    size_t own_len = own_records_len(of, call);
    uint64_t result, wanted = record_count(of, call);
    memset(worker->roles, 0x55, of->roles_len);
    memset(worker->own, 0x55, own_len);
    if (call == ROLES_CALL)
        result = luad51_roles(of->table, of->table_len, of->words, of->words_len, worker->roles, of->roles_len);
    else if (call == BINDINGS_CALL)
        result = luad51_bindings(of->table, of->table_len, of->words, of->words_len, worker->roles, of->roles_len,
                                 worker->own, own_len);
    else
        result = luad51_check(of->table, of->table_len, of->words, of->words_len, of->warnings, of->errors,
                              worker->roles, of->roles_len, worker->own, own_len);
    if (call == CHECK_CALL)
        wanted += ((uint64_t)of->verdict << 40) + CHECKED;
    return result != wanted || memcmp(worker->roles, of->roles, of->roles_len) != 0 ||
           memcmp(worker->own, own_records(of, call), own_len) != 0;
}

/* The threads begin together, and their calls overlap in all sorts of ways. */
static void *work(void *argument)
{
    struct worker *worker = argument;
    pthread_barrier_wait(worker->barrier);
    for (int round = 0; round < ROUNDS; round++)
        for (int call = ROLES_CALL; call < CALLS; call++)
            worker->differing += work_once(worker, (enum call)call);
    return NULL;
}

/* Two threads at the same time, with these images. */
static void try_threads(const char *name, const struct image *first, const struct image *other)
{
    static struct worker workers[2];
    pthread_t threads[2];
    pthread_barrier_t barrier;
    bool ran = pthread_barrier_init(&barrier, NULL, 2) == 0;
    for (int i = 0; i < 2 && ran; i++) {
        workers[i].image = i == 0 ? first : other;
        workers[i].barrier = &barrier;
        workers[i].differing = 0;
        ran = pthread_create(&threads[i], NULL, work, &workers[i]) == 0;
    }
    for (int i = 0; i < 2 && ran; i++)
        ran = pthread_join(threads[i], NULL) == 0;
    if (!ran) {
        fprintf(stderr, "%s: no threads\n", name);
        exit(2);
    }
    pthread_barrier_destroy(&barrier);
    in_case(name);
    for (int i = 0; i < 2; i++)
        expect("calls that differ", 0, workers[i].differing);
}

/* An image about as long as that of most_diagnostics, whose records are others: every second word is an extra word. */
static void many_extra_words(void)
{
    start("5,000 extra words");
    add_row(&image, 0, 10000, 0, 1, 1);
    for (int pc = 0; pc < 10000; pc += 2) {
        add_word(&image, 0x00800022);
        add_word(&image, UNKNOWN);
        expect_role(&image, -1, -1);
        expect_role(&image, pc, -1);
        expect_diagnostic(&image, 0, pc, 11, 1);
    }
    expect_binding(&image, 0, 0, -1);
    try_accepted();
}

/* Each image was tried by one thread alone before. */
static void threads(void)
{
    many_extra_words();
    second = image;
    most_diagnostics();
    try_threads("two threads, an image each", &second, &image);
    try_threads("two threads, one image", &image, &image);
}

int main(void)
{
    static void (*const CASES[])(void) = {
        test_header,      worked_words,       worked_closures, worked_incoming, incoming_extremes,
        limit_met,        other_codes,        bound_twice,     extra_word,      refusals_1_and_2,
        refusal_3,        refusal_4,          refusal_5,       refusal_6,       most_rows,
        deepest,          most_words,         largest_fields,  most_bindings,   empty_table,
        empty_in_written, empty_beside_table, threads,
    };
    prepare_memory();
    for (size_t i = 0; i < COUNT(CASES); i++)
        CASES[i]();
    return report();
}
