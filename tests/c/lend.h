/* Makes calls of libluad51.a for calls.c: lends them slices and buffers in guarded memory, and compares the result
 * and every byte that a call may or may not change with what was expected. */
#ifndef LEND_H
#define LEND_H

#include <stddef.h>
#include <stdint.h>

#include "luad51.h"

/* Room for one row and one word above the limits, with a byte to spare. */
#define TABLE_ROOM ((LUAD51_MAX_ROWS + 1) * LUAD51_ROW_BYTES + 1)
#define WORDS_ROOM ((LUAD51_MAX_WORDS + 1) * LUAD51_WORD_BYTES + 1)

/* Room for as many records as there can be. */
#define ROLES_ROOM (LUAD51_MAX_WORDS * LUAD51_ROLE_BYTES)
#define BINDINGS_ROOM (LUAD51_MAX_BINDINGS * LUAD51_BINDING_BYTES)
#define DIAGNOSTICS_ROOM (LUAD51_MAX_DIAGNOSTICS * LUAD51_DIAGNOSTIC_BYTES)

/* What an accepted check adds to its result. */
#define CHECKED ((uint64_t)1 << 47)

/* An image, and what document 01 says of it, written down by hand. */
struct image {
    const char *name;
    uint32_t warnings;
    uint32_t errors;
    size_t table_len;
    size_t words_len;
    size_t roles_len;
    size_t bindings_len;
    size_t diagnostics_len;
    uint32_t verdict;
    uint8_t table[TABLE_ROOM];
    uint8_t words[WORDS_ROOM];
    uint8_t roles[ROLES_ROOM];
    uint8_t bindings[BINDINGS_ROOM];
    uint8_t diagnostics[DIAGNOSTICS_ROOM];
};

enum call { ROLES_CALL, BINDINGS_CALL, CHECK_CALL, CALLS };

/* A call with buffers of these lengths, and the refusal and figure that it must give. */
struct attempt {
    enum call call;
    const char *buffers;
    size_t roles_len;
    size_t own_len; /* of the bindings or diagnostics; the roles call has none */
    uint32_t refusal;
    uint32_t figure;
};

/* Starts an image without rows, words and diagnostics. */
void image_start(struct image *image, const char *name);

/* Adds to an image: a row, a word, single bytes; and to what is expected of it: records. */
void add_row(struct image *image, uint32_t depth, uint32_t words, uint32_t constants, uint32_t upvalues,
             uint32_t stack);
void add_word(struct image *image, uint32_t word);
void add_table_bytes(struct image *image, size_t count);
void add_words_bytes(struct image *image, size_t count);
void expect_role(struct image *image, int32_t owner, int32_t index);
void expect_binding(struct image *image, int32_t instack, int32_t index, int32_t pc);
void expect_diagnostic(struct image *image, int32_t row, int32_t pc, int32_t code, int32_t value);

/* What a call writes to its own buffer when it is accepted: none of the roles call. */
const uint8_t *own_records(const struct image *image, enum call call);
size_t own_records_len(const struct image *image, enum call call);

/* Makes the guarded memory; ends the program with status 2 where there is none. */
void prepare_memory(void);

/* Makes the call at several places of the guarded memory: small ones at every offset from 0 to 7 of each slice and
 * buffer, large ones right after and right before a page that cannot be touched. */
void try_attempt(const struct image *image, const struct attempt *attempt);

/* Says which case the next expectations belong to. */
void in_case(const char *name);

/* Counts an expectation. Prints a line if the numbers differ. */
void expect(const char *what, uint64_t expected, uint64_t got);

/* Counts an expectation. Prints a line if the bytes differ. */
void expect_bytes(const char *what, const uint8_t *expected, const uint8_t *got, size_t len);

/* Prints how many expectations there were; returns the exit status. */
int report(void);

/* The expectations of header.c. */
void test_header(void);

#endif
