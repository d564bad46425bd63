/* How a controller's start-up code uses libluad51.a: it checks the script image in its flash, and starts the script
 * only on a pass. All memory is static. With a number as its argument it first flips this bit of the image's words.
 *     cc -std=c99 -O2 -Iinclude -o startup host/startup.c crates/luad51/out/libluad51.a
 *     ./startup; echo "exit status $?"; ./startup 1155; echo "exit status $?"
 * Exit status: 0 the script was started, 1 it was not, 2 no such bit. These commands print host/startup.out.
 * A pass says that the operands which the script's words name are in range, and that control stays on its instructions
 * or leaves. It says nothing of the types of values, and nothing of content: a flipped bit can leave a script that does
 * something else and passes too, so a checksum is still wanted. Of the 1,216 bits, 735 are noticed here. */
#include <inttypes.h>
#include <stdbool.h>
#include <stdio.h>
#include <stdlib.h>
#include <string.h>

#include "luad51.h"

/* A u32 of an image, least byte first, and a row of five. */
#define U32(value) (value) & 0xff, (value) >> 8 & 0xff, (value) >> 16 & 0xff, (value) >> 24 & 0xff
#define ROW(depth, words, constants, upvalues, stack) U32(depth), U32(words), U32(constants), U32(upvalues), U32(stack)

/* What the flash has room for. */
#define MOST_WORDS 256
#define MOST_UPVALUES 16
#define MOST_DIAGNOSTICS 64

/* The image, as luac 5.1 compiles this script; the rows are its functions in the order of the file that luac writes,
 * with the fields that it has there.
 *     local margin = 10 -- mV
 *
 *     local function lowest(cells)
 *       local least = cells[1]
 *       for i = 2, #cells do
 *         if cells[i] < least then least = cells[i] end
 *       end
 *       return least
 *     end
 *
 *     function balance(cells)
 *       local limit = lowest(cells) + margin
 *       for i = 1, #cells do bleed(i, cells[i] > limit) end
 *     end
 */
static const uint8_t table[] = {
    ROW(0, 7, 2, 0, 3),  /* the script */
    ROW(1, 12, 2, 0, 7), /* lowest */
    ROW(1, 19, 2, 2, 9), /* balance, with lowest and margin as upvalues */
};

static const uint8_t flash_words[] = {
    /* the script */
    U32(0x00000001), U32(0x00000064), U32(0x000040a4), U32(0x00800000), U32(0x00000000), U32(0x00004087),
    U32(0x0080001e),
    /* lowest */
    U32(0x00400046), U32(0x00004081), U32(0x000000d4), U32(0x00000101), U32(0x8000c0a0), U32(0x00014186),
    U32(0x03004018), U32(0x80000016), U32(0x00014046), U32(0x7ffe809f), U32(0x0100005e), U32(0x0080001e),
    /* balance */
    U32(0x00000044), U32(0x00000080), U32(0x0100805c), U32(0x00800084), U32(0x0080804c), U32(0x00000081),
    U32(0x000000d4), U32(0x00000101), U32(0x8001c0a0), U32(0x00004185), U32(0x028001c0), U32(0x00014206),
    U32(0x00820058), U32(0x80000016), U32(0x00004202), U32(0x00800202), U32(0x0180419c), U32(0x7ffd809f),
    U32(0x0080001e)};

/* The names of the codes and of the verdicts, by their numbers. */
static const char *const CODES[] = {
    "",        "CLOSURE-001", "SETLIST-001", "STACK-001", "OP-001",    "JMP-001",
    "JMP-002", "CONST-003",   "UPVAL-001",   "BOOL-001",  "REG-001",   "REG-SPAN-001",
    "REG-002", "REG-003",     "CONST-004",   "CONST-005", "PROTO-002", "CLOSURE-002",
};
static const char *const VERDICTS[] = {"ValidForParser", "Incomplete", "Invalid"};

/* The words as read from flash, where a bit may be wrong. */
static uint8_t words[sizeof flash_words];

static uint8_t roles[MOST_WORDS * LUAD51_ROLE_BYTES];
static uint8_t bindings[MOST_UPVALUES * LUAD51_BINDING_BYTES];
static uint8_t diagnostics[MOST_DIAGNOSTICS * LUAD51_DIAGNOSTIC_BYTES];

static void print_refusal(const char *call, uint64_t result)
{
    printf("%s refused: %" PRIu32 ", figure %" PRIu32 "\n", call, luad51_refusal(result), luad51_figure(result));
}

static void print_diagnostics(uint32_t count)
{
    for (size_t i = 0; i < count; i++) {
        struct luad51_diagnostic found = luad51_diagnostic_at(diagnostics, i);
        printf("row %" PRId32 ", pc %" PRId32 ": L51-%s, value %" PRId32 "\n", found.row, found.pc, CODES[found.code],
               found.value);
    }
}

/* Whether the image may run. Diagnostics that do not fit are no pass. */
static bool check(void)
{
    uint64_t result = luad51_check(table, sizeof table, words, sizeof words, 0, 0, roles, sizeof roles, diagnostics,
                                   sizeof diagnostics);
    if (luad51_refusal(result) != LUAD51_ACCEPTED) {
        print_refusal("check", result);
        return false;
    }
    print_diagnostics(luad51_figure(result));
    printf("%s, %" PRIu32 " diagnostics\n", VERDICTS[luad51_verdict(result)], luad51_figure(result));
    return luad51_passed(result);
}

static void print_binding(int32_t row, int32_t upvalue, const struct luad51_binding *bound)
{
    printf("row %" PRId32 ", upvalue %" PRId32 ": ", row, upvalue);
    if (bound->pc < 0)
        printf("bound by nothing\n");
    else
        printf("%s %" PRId32 " of the parent, bound at pc %" PRId32 "\n", bound->instack ? "register" : "upvalue",
               bound->index, bound->pc);
}

/* Goes over the upvalues of all rows: their binding records stand in this order. */
static void print_bindings(void)
{
    size_t record = 0;
    for (size_t row = 0; row < sizeof table / LUAD51_ROW_BYTES; row++) {
        int32_t upvalues = luad51_i32(table + row * LUAD51_ROW_BYTES + 12);
        for (int32_t i = 0; i < upvalues; i++) {
            struct luad51_binding bound = luad51_binding_at(bindings, record++);
            print_binding((int32_t)row, i, &bound);
        }
    }
}

/* Finds where the upvalues come from, which the script's closures are made with. */
static bool bind_upvalues(void)
{
    uint64_t result =
        luad51_bindings(table, sizeof table, words, sizeof words, roles, sizeof roles, bindings, sizeof bindings);
    if (luad51_refusal(result) != LUAD51_ACCEPTED) {
        print_refusal("bindings", result);
        return false;
    }
    print_bindings();
    return true;
}

/* Reads the words from flash, with a bit flipped where an argument names it; false if there is no such bit. */
static bool read_flash(int argc, char **argv)
{
    memcpy(words, flash_words, sizeof words);
    if (argc == 1)
        return true;
    char *end;
    unsigned long bit = strtoul(argv[1], &end, 10);
    if (argc > 2 || end == argv[1] || *end != '\0' || bit / 8 >= sizeof words)
        return false;
    words[bit / 8] ^= (uint8_t)(1u << bit % 8);
    return true;
}

int main(int argc, char **argv)
{
    if (!read_flash(argc, argv)) {
        fprintf(stderr, "usage: startup [BIT], below %zu\n", 8 * sizeof words);
        return 2;
    }
    bool started = check() && bind_upvalues();
    puts(started ? "script started" : "script not started");
    return started ? 0 : 1;
}
