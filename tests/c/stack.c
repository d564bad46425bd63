/* How much stack each call takes on images that are to take most of it: as many children as there can be, so that the
 * search for the last goes deepest, as much nesting as there can be, so that the check's walk does, and both; also with
 * children that are missing, whose search passes all rows. The calls run in threads whose stack is filled beforehand.
 *     cc -std=c99 -O2 -Iinclude -o stack tests/c/stack.c crates/luad51/out/libluad51.a -pthread
 * Exit status: 0 within LUAD51_STACK_BYTES, 1 above, 2 the test itself failed. */
#define _POSIX_C_SOURCE 200809L
#include <pthread.h>
#include <stdio.h>
#include <stdlib.h>
#include <string.h>

#include "luad51.h"

/* The thread's stack: far more than a call may take, so that a fault is a number and not a crash. */
#define STACK_BYTES (4u << 20)
#define FILL 0xa5

/* Elements of an array. */
#define COUNT(array) (sizeof(array) / sizeof *(array))

/* CLOSURE into register 0 of child Bx. Register 0 is not there, so that each has a diagnostic. */
#define CLOSURE(bx) ((uint32_t)(bx) << 14 | 36)

/* The fields of a row. */
enum field { DEPTH, WORDS, CONSTANTS, UPVALUES, STACK };

static uint8_t table[LUAD51_MAX_ROWS * LUAD51_ROW_BYTES];
static uint8_t words[LUAD51_MAX_ROWS * LUAD51_WORD_BYTES];
static uint8_t roles[LUAD51_MAX_ROWS * LUAD51_ROLE_BYTES];
static uint8_t bindings[LUAD51_MAX_ROWS * LUAD51_BINDING_BYTES];
static uint8_t diagnostics[LUAD51_MAX_DIAGNOSTICS * LUAD51_DIAGNOSTIC_BYTES];
static size_t rows_len, words_len;
static uint64_t result;

static void put_u32(uint8_t *at, uint32_t value)
{
    for (int i = 0; i < 4; i++)
        at[i] = (uint8_t)(value >> 8 * i);
}

/* One more row, with no words and one upvalue. */
static void add_row(uint32_t depth)
{
    memset(table + rows_len, 0, LUAD51_ROW_BYTES);
    put_u32(table + rows_len + 4 * DEPTH, depth);
    put_u32(table + rows_len + 4 * UPVALUES, 1);
    rows_len += LUAD51_ROW_BYTES;
}

/* Rows of one depth up to as many as there can be. */
static void add_rows(uint32_t depth)
{
    while (rows_len < sizeof table)
        add_row(depth);
}

/* The one word of the row added last. */
static void add_word(uint32_t word)
{
    put_u32(table + rows_len - LUAD51_ROW_BYTES + 4 * WORDS, 1);
    put_u32(words + words_len, word);
    words_len += LUAD51_WORD_BYTES;
}

/* A chain of rows down to a depth, each with the same word. */
static void add_chain(uint32_t deepest, uint32_t word)
{
    for (uint32_t depth = 0; depth <= deepest; depth++) {
        add_row(depth);
        add_word(word);
    }
}

/* A CLOSURE whose child is missing, which only the end of the rows shows: the one child has all other rows below it. */
static void make_missing(void)
{
    add_chain(0, CLOSURE(1));
    add_row(1);
    add_rows(2);
}

/* A CLOSURE of the last of as many children as there can be. */
static void make_wide(void)
{
    add_chain(0, CLOSURE(LUAD51_MAX_ROWS - 2));
    add_rows(1);
}

/* As much nesting as there can be, where each row names its only child. */
static void make_deep(void)
{
    add_chain(LUAD51_MAX_DEPTH, CLOSURE(0));
}

/* Under as much nesting as leaves room for children, a CLOSURE of the last of all other rows. In each row above it one
 * whose child is missing. */
static void make_deep_and_wide(void)
{
    add_chain(LUAD51_MAX_DEPTH - 1, CLOSURE(1));
    put_u32(words + words_len - LUAD51_WORD_BYTES, CLOSURE(LUAD51_MAX_ROWS - LUAD51_MAX_DEPTH - 1));
    add_rows(LUAD51_MAX_DEPTH);
}

/* One row less deep: so the deepest CLOSURE's child is missing too, with all other rows below the one child. Each of
 * these has a word. */
static void make_deep_and_full(void)
{
    add_chain(LUAD51_MAX_DEPTH - 2, CLOSURE(1));
    add_row(LUAD51_MAX_DEPTH - 1);
    while (rows_len < sizeof table) {
        add_row(LUAD51_MAX_DEPTH);
        add_word(CLOSURE(0));
    }
}

static void (*const SHAPES[])(void) = {make_missing, make_wide, make_deep, make_deep_and_wide, make_deep_and_full};

static void *nothing(void *unused)
{
    return unused;
}

static void *call_roles(void *unused)
{
    result = luad51_roles(table, rows_len, words, words_len, roles, sizeof roles);
    return unused;
}

static void *call_bindings(void *unused)
{
    result = luad51_bindings(table, rows_len, words, words_len, roles, sizeof roles, bindings, sizeof bindings);
    return unused;
}

/* Walked once, because there is room for all diagnostics that there can be. */
static void *call_check(void *unused)
{
    result = luad51_check(table, rows_len, words, words_len, 0, 0, roles, sizeof roles, diagnostics,
                          sizeof diagnostics);
    return unused;
}

/* Walked twice, because there is room for one less. */
static void *call_check_twice(void *unused)
{
    result = luad51_check(table, rows_len, words, words_len, 0, 0, roles, sizeof roles, diagnostics,
                          sizeof diagnostics - LUAD51_DIAGNOSTIC_BYTES);
    return unused;
}

/* A call and the stack that it took most. */
struct call {
    const char *name;
    void *(*make)(void *);
    size_t taken;
};

static struct call CALLS[] = {{"roles call", call_roles, 0},
                              {"bindings call", call_bindings, 0},
                              {"check call", call_check, 0},
                              {"check call that walks twice", call_check_twice, 0}};

/* The bytes of its stack that a thread has changed, or 0. */
static size_t used_by(void *(*body)(void *), uint8_t *stack)
{
    pthread_t thread;
    pthread_attr_t attributes;
    size_t kept = 0;

    memset(stack, FILL, STACK_BYTES);
    if (pthread_attr_init(&attributes) != 0 || pthread_attr_setstack(&attributes, stack, STACK_BYTES) != 0 ||
        pthread_create(&thread, &attributes, body, NULL) != 0 || pthread_join(thread, NULL) != 0)
        return 0;
    while (kept < STACK_BYTES && stack[kept] == FILL)
        kept++;
    return STACK_BYTES - kept;
}

/* Notes the stack that a call takes beyond that of an idle thread; ends the program where it is not known. */
static void measure(struct call *call, uint8_t *stack)
{
    size_t idle = used_by(nothing, stack), used;

    result = UINT64_MAX;
    used = used_by(call->make, stack);
    if (idle == 0 || used <= idle || luad51_refusal(result) != LUAD51_ACCEPTED || luad51_figure(result) == 0) {
        printf("the %s could not be measured: %zu and %zu bytes, result %llx\n", call->name, idle, used,
               (unsigned long long)result);
        exit(2);
    }
    if (used - idle > call->taken)
        call->taken = used - idle;
}

int main(void)
{
    void *stack = NULL;
    int above = 0;

    if (posix_memalign(&stack, 4096, STACK_BYTES) != 0)
        return 2;
    for (size_t shape = 0; shape < COUNT(SHAPES); shape++) {
        rows_len = words_len = 0;
        SHAPES[shape]();
        for (size_t call = 0; call < COUNT(CALLS); call++)
            measure(&CALLS[call], stack);
    }
    free(stack);
    printf("bytes of stack, of %d that the header states:", LUAD51_STACK_BYTES);
    for (size_t call = 0; call < COUNT(CALLS); call++) {
        printf("%s %s %zu", call == 0 ? "" : ",", CALLS[call].name, CALLS[call].taken);
        above |= CALLS[call].taken > LUAD51_STACK_BYTES;
    }
    printf("\n");
    return above;
}
