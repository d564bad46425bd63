/* Each slice and buffer lies in memory of its own between two pages that cannot be touched, at its very start or end or
 * a few bytes off. A byte that a call writes where it must not is seen by comparison with the fill, and a byte that it
 * reads or writes outside of the memory ends the program with a message.
 * AddressSanitizer would see neither: it checks only code that was compiled with it, and the archive was not. (Tried: a
 * store and a load past a static array by such code go unnoticed.) Built with it, this program checks its own code. */
#define _DEFAULT_SOURCE
#include "lend.h"

#include <signal.h>
#include <stdbool.h>
#include <stdio.h>
#include <stdlib.h>
#include <string.h>
#include <sys/mman.h>
#include <unistd.h>

/* Bytes beside a buffer or slice that must stay as they are. */
#define GUARD 64

/* The fill begins again after this many bytes: a prime, so that no record looks like it twice. */
#define PERIOD 4093

/* Lent bytes above which a call is made at two places only. */
#define LARGE 65536

/* Failed expectations that are printed; all are counted. */
#define MOST_SHOWN 100

/* What is lent to a call. */
enum lent { TABLE, WORDS, ROLES, OWN, LENT };

static const char *const LENT_NAMES[LENT] = {"table", "words", "role buffer", "own buffer"};
static const char *const CALL_NAMES[CALLS] = {"roles call", "bindings call", "check call"};

/* Room beyond the largest records, for guards and for buffers that are longer than they need to be. */
#define SPARE 4096

static const size_t ROOM[LENT] = {TABLE_ROOM + SPARE, WORDS_ROOM + SPARE, ROLES_ROOM + SPARE, BINDINGS_ROOM + SPARE};

/* Memory with a page on either side that cannot be touched. */
struct memory {
    uint8_t *first;
    uint8_t *end;
};

static struct memory memories[LENT];

/* Two fills that differ in every byte, so that a byte which a call did not write cannot look written in both. */
static uint8_t fills[2][PERIOD];

/* Where slices and buffers lie: how far from the start or the end of their memory. */
struct place {
    bool from_end;
    size_t offsets[LENT];
    const uint8_t *fill;
};

/* A slice or buffer as lent, with its guards. */
struct loan {
    uint8_t *at;
    size_t len;
    size_t before;
    size_t after;
};

static unsigned long expectations, failures;
static char context[256];

void in_case(const char *name)
{
    snprintf(context, sizeof context, "%s", name);
}

/* Counts a failed expectation; says whether it is to be shown. */
static bool failed(void)
{
    if (++failures == MOST_SHOWN + 1)
        printf("further failures are counted and not shown\n");
    return failures <= MOST_SHOWN;
}

void expect(const char *what, uint64_t expected, uint64_t got)
{
    expectations++;
    if (expected != got && failed())
        printf("%s: %s: expected %llu (0x%llx), got %llu (0x%llx)\n", context, what, (unsigned long long)expected,
               (unsigned long long)expected, (unsigned long long)got, (unsigned long long)got);
}

/* Compares bytes and prints the first that differs, with its index counted from `first`; true if there is none. */
static bool same_bytes(const char *what, const uint8_t *expected, const uint8_t *got, size_t len, long first)
{
    size_t i = 0;
    if (len == 0 || memcmp(expected, got, len) == 0)
        return true;
    while (expected[i] == got[i])
        i++;
    if (failed())
        printf("%s: %s, byte %ld: expected 0x%02x, got 0x%02x\n", context, what, first + (long)i, expected[i], got[i]);
    return false;
}

void expect_bytes(const char *what, const uint8_t *expected, const uint8_t *got, size_t len)
{
    expectations++;
    same_bytes(what, expected, got, len, 0);
}

int report(void)
{
    printf("%lu expectations, %lu failed\n", expectations, failures);
    return failures == 0 ? 0 : 1;
}

/* Four bytes, least first. It is not the header's, which is under test. */
static uint8_t *put(uint8_t *at, uint32_t value)
{
    for (int i = 0; i < 4; i++)
        *at++ = (uint8_t)(value >> 8 * i);
    return at;
}

void image_start(struct image *image, const char *name)
{
    image->name = name;
    image->warnings = image->errors = 0;
    image->table_len = image->words_len = 0;
    image->roles_len = image->bindings_len = image->diagnostics_len = 0;
    image->verdict = LUAD51_VALID_FOR_PARSER;
}

void add_row(struct image *image, uint32_t depth, uint32_t words, uint32_t constants, uint32_t upvalues,
             uint32_t stack)
{
    const uint32_t fields[] = {depth, words, constants, upvalues, stack};
    uint8_t *at = image->table + image->table_len;
    for (int i = 0; i < 5; i++)
        at = put(at, fields[i]);
    image->table_len += LUAD51_ROW_BYTES;
}

void add_word(struct image *image, uint32_t word)
{
    put(image->words + image->words_len, word);
    image->words_len += LUAD51_WORD_BYTES;
}

void add_table_bytes(struct image *image, size_t count)
{
    memset(image->table + image->table_len, 0, count);
    image->table_len += count;
}

void add_words_bytes(struct image *image, size_t count)
{
    memset(image->words + image->words_len, 0, count);
    image->words_len += count;
}

void expect_role(struct image *image, int32_t owner, int32_t index)
{
    put(put(image->roles + image->roles_len, (uint32_t)owner), (uint32_t)index);
    image->roles_len += LUAD51_ROLE_BYTES;
}

void expect_binding(struct image *image, int32_t instack, int32_t index, int32_t pc)
{
    put(put(put(image->bindings + image->bindings_len, (uint32_t)instack), (uint32_t)index), (uint32_t)pc);
    image->bindings_len += LUAD51_BINDING_BYTES;
}

void expect_diagnostic(struct image *image, int32_t row, int32_t pc, int32_t code, int32_t value)
{
    uint8_t *at = put(put(image->diagnostics + image->diagnostics_len, (uint32_t)row), (uint32_t)pc);
    put(put(at, (uint32_t)code), (uint32_t)value);
    image->diagnostics_len += LUAD51_DIAGNOSTIC_BYTES;
    if (code != L51_STACK_001)
        image->verdict = LUAD51_INVALID;
}

const uint8_t *own_records(const struct image *image, enum call call)
{
    return call == BINDINGS_CALL ? image->bindings : image->diagnostics;
}

size_t own_records_len(const struct image *image, enum call call)
{
    const size_t lens[CALLS] = {0, image->bindings_len, image->diagnostics_len};
    return lens[call];
}

/* A call touched a page that it must not touch. */
static void touched(int signal_number)
{
    static const char message[] = ": a byte outside of what was lent was read or written\n";
    (void)signal_number;
    if (write(1, context, strlen(context)) < 0 || write(1, message, sizeof message - 1) < 0)
        _exit(2);
    _exit(1);
}

static void make_memory(struct memory *memory, size_t room)
{
    size_t page = (size_t)sysconf(_SC_PAGESIZE), len = (room + page - 1) / page * page;
    uint8_t *block = mmap(NULL, len + 2 * page, PROT_NONE, MAP_PRIVATE | MAP_ANONYMOUS, -1, 0);
    if (block == MAP_FAILED || mprotect(block + page, len, PROT_READ | PROT_WRITE) != 0) {
        perror("memory for the slices and buffers");
        exit(2);
    }
    memory->first = block + page;
    memory->end = memory->first + len;
}

void prepare_memory(void)
{
    for (size_t i = 0; i < PERIOD; i++) {
        fills[0][i] = (uint8_t)((uint32_t)i * 2654435761u >> 24);
        fills[1][i] = (uint8_t)~fills[0][i];
    }
    for (int i = 0; i < LENT; i++)
        make_memory(&memories[i], ROOM[i]);
    setvbuf(stdout, NULL, _IOLBF, BUFSIZ); /* so that what was printed is not lost when a call touches such a page */
    signal(SIGSEGV, touched);
    signal(SIGBUS, touched);
}

/* How many bytes of the fill, from index `from` on, come before it begins again; at most `len`. */
static size_t stretch(size_t from, size_t len)
{
    size_t left = PERIOD - from % PERIOD;
    return left < len ? left : len;
}

static void fill(const struct place *place, uint8_t *at, size_t len)
{
    for (size_t i = 0, count; i < len; i += count) {
        count = stretch(i, len - i);
        memcpy(at + i, place->fill, count);
    }
}

/* Whether a loan's bytes from `from` on are still the fill; byte 0 is its first, negative ones are before it. */
static bool still_filled(const struct place *place, const char *what, const struct loan *loan, long from, size_t len)
{
    size_t index = (size_t)((long)loan->before + from);
    for (size_t i = 0, count; i < len; i += count) {
        count = stretch(index + i, len - i);
        if (!same_bytes(what, place->fill + (index + i) % PERIOD, loan->at + from + (long)i, count, from + (long)i))
            return false;
    }
    return true;
}

static size_t at_most(size_t most, size_t value)
{
    return value < most ? value : most;
}

static struct loan lend(enum lent which, const struct place *place, size_t len)
{
    const struct memory *memory = &memories[which];
    size_t offset = place->offsets[which];
    struct loan loan = {.len = len};
    loan.at = place->from_end ? memory->end - offset - len : memory->first + offset;
    loan.before = at_most(GUARD, (size_t)(loan.at - memory->first));
    loan.after = at_most(GUARD, (size_t)(memory->end - loan.at) - len);
    fill(place, loan.at - loan.before, loan.before + len + loan.after);
    return loan;
}

static struct loan lend_copy(enum lent which, const struct place *place, const uint8_t *bytes, size_t len)
{
    struct loan loan = lend(which, place, len);
    memcpy(loan.at, bytes, len);
    return loan;
}

/* A loan must begin with these bytes and otherwise be as it was. */
static void take_back(enum lent which, const struct place *place, const struct loan *loan, const uint8_t *bytes,
                      size_t len)
{
    const char *what = LENT_NAMES[which];
    expectations++;
    if (still_filled(place, what, loan, -(long)loan->before, loan->before) &&
        same_bytes(what, bytes, loan->at, len, 0))
        still_filled(place, what, loan, (long)len, loan->len - len + loan->after);
}

static uint64_t make_call(const struct image *image, enum call call, const struct loan *loans)
{
    const struct loan *table = &loans[TABLE], *words = &loans[WORDS], *roles = &loans[ROLES], *own = &loans[OWN];
    if (call == ROLES_CALL)
        return luad51_roles(table->at, table->len, words->at, words->len, roles->at, roles->len);
    if (call == BINDINGS_CALL)
        return luad51_bindings(table->at, table->len, words->at, words->len, roles->at, roles->len, own->at, own->len);
    return luad51_check(table->at, table->len, words->at, words->len, image->warnings, image->errors, roles->at,
                        roles->len, own->at, own->len);
}

/* The number as the header packs it, and what its accessors read from it. */
static void expect_result(const struct image *image, const struct attempt *attempt, uint64_t result)
{
    bool judged = attempt->call == CHECK_CALL && attempt->refusal == LUAD51_ACCEPTED;
    uint64_t verdict = judged ? image->verdict : 0;
    uint64_t checked = judged ? CHECKED : 0;
    expect("result",
           attempt->figure + 0x100000000u * (uint64_t)attempt->refusal + 0x10000000000u * verdict + checked, result);
    expect("refusal", attempt->refusal, luad51_refusal(result));
    expect("figure", attempt->figure, luad51_figure(result));
    expect("verdict", verdict, luad51_verdict(result));
    expect("passed", judged && verdict == LUAD51_VALID_FOR_PARSER, (uint64_t)luad51_passed(result));
}

static void attempt_at(const struct image *image, const struct attempt *attempt, const struct place *place)
{
    bool accepted = attempt->refusal == LUAD51_ACCEPTED;
    bool roles_written = accepted || attempt->refusal == LUAD51_BUFFER_TOO_SHORT;
    struct loan loans[LENT];
    snprintf(context, sizeof context, "%s, %s, %s, offsets %zu %zu %zu %zu from the %s", image->name,
             CALL_NAMES[attempt->call], attempt->buffers, place->offsets[TABLE], place->offsets[WORDS],
             place->offsets[ROLES], place->offsets[OWN], place->from_end ? "end" : "start");
    loans[TABLE] = lend_copy(TABLE, place, image->table, image->table_len);
    loans[WORDS] = lend_copy(WORDS, place, image->words, image->words_len);
    loans[ROLES] = lend(ROLES, place, attempt->roles_len);
    loans[OWN] = lend(OWN, place, attempt->own_len);
    expect_result(image, attempt, make_call(image, attempt->call, loans));
    take_back(TABLE, place, &loans[TABLE], image->table, image->table_len);
    take_back(WORDS, place, &loans[WORDS], image->words, image->words_len);
    take_back(ROLES, place, &loans[ROLES], image->roles, roles_written ? image->roles_len : 0);
    take_back(OWN, place, &loans[OWN], own_records(image, attempt->call),
              accepted ? own_records_len(image, attempt->call) : 0);
}

/* Every slice and buffer at this offset, and then only one of them. */
static void attempt_at_offset(const struct image *image, const struct attempt *attempt, size_t offset, bool from_end)
{
    struct place place = {.from_end = from_end, .fill = fills[(offset + from_end) % 2]};
    for (int i = 0; i < LENT; i++)
        place.offsets[i] = offset;
    attempt_at(image, attempt, &place);
    for (int one = 0; one < LENT && offset > 0; one++) {
        for (int i = 0; i < LENT; i++)
            place.offsets[i] = i == one ? offset : 0;
        attempt_at(image, attempt, &place);
    }
}

void try_attempt(const struct image *image, const struct attempt *attempt)
{
    size_t lent = image->table_len + image->words_len + attempt->roles_len + attempt->own_len;
    size_t offsets = lent > LARGE ? 1 : 8;
    for (size_t offset = 0; offset < offsets; offset++)
        for (int from_end = 0; from_end < 2; from_end++)
            attempt_at_offset(image, attempt, offset, from_end);
}
