/* Tests the header's numbers and inline functions, for calls.c. */
#include <string.h>

#include "lend.h"
#include "luad51.h"

/* Elements of an array. */
#define COUNT(array) (sizeof(array) / sizeof *(array))

static void limits(void)
{
    expect("most rows", 16384, LUAD51_MAX_ROWS);
    expect("most words", 1048576, LUAD51_MAX_WORDS);
    expect("most depth", 199, LUAD51_MAX_DEPTH);
    expect("most constants", 2147483647, LUAD51_MAX_CONSTANTS);
    expect("most upvalues", 255, LUAD51_MAX_UPVALUES);
    expect("most stack", 255, LUAD51_MAX_STACK);
    expect("most bindings", 4177920, LUAD51_MAX_BINDINGS);
    expect("most diagnostics", 10255, LUAD51_MAX_DIAGNOSTICS);
    expect("diagnostic limit", 10000, LUAD51_DIAGNOSTIC_LIMIT);
    expect("bit of an accepted check", 47, LUAD51_CHECKED_BIT);
    expect("bytes of a row", 20, LUAD51_ROW_BYTES);
    expect("bytes of a word", 4, LUAD51_WORD_BYTES);
    expect("bytes of a role", 8, LUAD51_ROLE_BYTES);
    expect("bytes of a binding", 12, LUAD51_BINDING_BYTES);
    expect("bytes of a diagnostic", 16, LUAD51_DIAGNOSTIC_BYTES);
}

/* The numbers of refusals and verdicts, from 0, and of codes, from 1. */
static void numbers(void)
{
    static const uint32_t REFUSALS[] = {
        LUAD51_ACCEPTED,        LUAD51_NO_PROTOS,        LUAD51_PARTIAL_ROW,         LUAD51_TOO_LARGE,
        LUAD51_BAD_DEPTH,       LUAD51_FIELD_OVER_LIMIT, LUAD51_WORD_COUNT_MISMATCH, LUAD51_ROLE_BUFFER_TOO_SHORT,
        LUAD51_BUFFER_TOO_SHORT};
    static const uint32_t VERDICTS[] = {LUAD51_VALID_FOR_PARSER, LUAD51_INCOMPLETE, LUAD51_INVALID};
    static const uint32_t CODES[] = {L51_CLOSURE_001,  L51_SETLIST_001, L51_STACK_001, L51_OP_001,    L51_JMP_001,
                                     L51_JMP_002,      L51_CONST_003,   L51_UPVAL_001, L51_BOOL_001,  L51_REG_001,
                                     L51_REG_SPAN_001, L51_REG_002,     L51_REG_003,   L51_CONST_004, L51_CONST_005,
                                     L51_PROTO_002,    L51_CLOSURE_002};
    for (size_t i = 0; i < COUNT(REFUSALS); i++)
        expect("refusal", i, REFUSALS[i]);
    for (size_t i = 0; i < COUNT(VERDICTS); i++)
        expect("verdict", i, VERDICTS[i]);
    for (size_t i = 0; i < COUNT(CODES); i++)
        expect("code", i + 1, CODES[i]);
}

/* A result and what is to be read from it: the table of crates/luad51_spec/specs/Examples.antt. */
struct packed {
    uint64_t result;
    uint32_t refusal;
    uint32_t figure;
    uint32_t verdict;
    int checked;
    int passed;
};

static void read_results(void)
{
    static const struct packed PACKED[] = {
        /* of an accepted check */
        {0x800000000000, 0, 0, 0, 1, 1},
        {0x80000000280f, 0, 10255, 0, 1, 1},
        {0x8000ffffffff, 0, 4294967295u, 0, 1, 1},
        {0x810000000000, 0, 0, 1, 1, 0},
        {0x810000000001, 0, 1, 1, 1, 0},
        {0x820000000000, 0, 0, 2, 1, 0},
        {0x82000000280f, 0, 10255, 2, 1, 0},
        /* a result that nobody set, and those of another accepted call */
        {0x0, 0, 0, 0, 0, 0},
        {0x1, 0, 1, 0, 0, 0},
        {0x3fc000, 0, 4177920, 0, 0, 0},
        /* of a refused call */
        {0x100000000, 1, 0, 0, 0, 0},
        {0x200000000, 2, 0, 0, 0, 0},
        {0x300000000, 3, 0, 0, 0, 0},
        {0x400003fff, 4, 16383, 0, 0, 0},
        {0x500003fff, 5, 16383, 0, 0, 0},
        {0x600000000, 6, 0, 0, 0, 0},
        {0x700000000, 7, 0, 0, 0, 0},
        {0x8003fc000, 8, 4177920, 0, 0, 0},
        /* of no call: each accessor reads its own bits */
        {0x00007f0000000000, 0, 0, 127, 0, 0},
        {0x000000ff00000000, 255, 0, 0, 0, 0},
        {0x000080ff00000000, 255, 0, 0, 1, 0},
        {0x0000ff0000000000, 0, 0, 127, 1, 0},
        /* of no call, with some of bits 48 to 63 */
        {0x0001800000000000, 0, 0, 0, 1, 0},
        {0x8000800000000001, 0, 1, 0, 1, 0},
        {0xffff800000000000, 0, 0, 0, 1, 0},
        {0xffff7fffffffffff, 255, 4294967295u, 127, 0, 0},
        {0xffffffffffffffff, 255, 4294967295u, 127, 1, 0},
    };
    in_case("reading results");
    for (size_t i = 0; i < COUNT(PACKED); i++) {
        expect("refusal", PACKED[i].refusal, luad51_refusal(PACKED[i].result));
        expect("figure", PACKED[i].figure, luad51_figure(PACKED[i].result));
        expect("verdict", PACKED[i].verdict, luad51_verdict(PACKED[i].result));
        expect("checked", (uint64_t)PACKED[i].checked, (uint64_t)luad51_checked(PACKED[i].result));
        expect("passed", (uint64_t)PACKED[i].passed, (uint64_t)luad51_passed(PACKED[i].result));
    }
}

/* Numbers and their bytes, read and written at every offset. */
static void read_numbers(void)
{
    static const struct {
        int64_t value;
        uint8_t bytes[4];
    } NUMBERS[] = {{0, {0, 0, 0, 0}},
                   {1, {1, 0, 0, 0}},
                   {-1, {0xff, 0xff, 0xff, 0xff}},
                   {-2, {0xfe, 0xff, 0xff, 0xff}},
                   {0x04030201, {1, 2, 3, 4}},
                   {-2139062144, {0x80, 0x80, 0x80, 0x80}},
                   {2147483647, {0xff, 0xff, 0xff, 0x7f}},
                   {-2147483647 - 1, {0, 0, 0, 0x80}}};
    in_case("reading and writing numbers");
    for (size_t i = 0; i < COUNT(NUMBERS); i++)
        for (size_t offset = 0; offset < 8; offset++) {
            uint8_t block[16], wanted[16];
            memset(block, 0x55, sizeof block);
            memset(wanted, 0x55, sizeof wanted);
            memcpy(wanted + offset, NUMBERS[i].bytes, 4);
            luad51_put_u32(block + offset, (uint32_t)NUMBERS[i].value);
            expect_bytes("u32 written", wanted, block, sizeof block);
            expect("i32 read", (uint64_t)NUMBERS[i].value, (uint64_t)(int64_t)luad51_i32(wanted + offset));
        }
}

/* Records 0 and 1 of bytes that are all different. */
static void read_records(void)
{
    uint8_t bytes[2 * LUAD51_DIAGNOSTIC_BYTES + 1];
    for (size_t i = 0; i < sizeof bytes; i++)
        bytes[i] = (uint8_t)i;
    struct luad51_role role = luad51_role_at(bytes + 1, 1);
    struct luad51_binding binding = luad51_binding_at(bytes + 1, 1);
    struct luad51_diagnostic diagnostic = luad51_diagnostic_at(bytes + 1, 1);
    in_case("reading records");
    expect("owner", 0x0c0b0a09, (uint64_t)role.owner);
    expect("index", 0x100f0e0d, (uint64_t)role.index);
    expect("instack", 0x100f0e0d, (uint64_t)binding.instack);
    expect("index", 0x14131211, (uint64_t)binding.index);
    expect("pc", 0x18171615, (uint64_t)binding.pc);
    expect("row", 0x14131211, (uint64_t)diagnostic.row);
    expect("pc", 0x18171615, (uint64_t)diagnostic.pc);
    expect("code", 0x1c1b1a19, (uint64_t)diagnostic.code);
    expect("value", 0x201f1e1d, (uint64_t)diagnostic.value);
    expect("record 0", 0x04030201, (uint64_t)luad51_role_at(bytes + 1, 0).owner);
    expect("record 0", 0x04030201, (uint64_t)luad51_binding_at(bytes + 1, 0).instack);
    expect("record 0", 0x04030201, (uint64_t)luad51_diagnostic_at(bytes + 1, 0).row);
}

void test_header(void)
{
    in_case("the header's numbers");
    limits();
    numbers();
    read_results();
    read_numbers();
    read_records();
}
