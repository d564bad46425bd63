/* Roles of Lua 5.1 instruction words, bindings of upvalues, and the check of an image: the C interface of libluad51.a.
 *
 * An image is two byte slices. All numbers in slices and buffers have their least byte first; no alignment is needed.
 *   prototype table  one row for each prototype, in preorder, of LUAD51_ROW_BYTES: five u32
 *                      depth      0 in row 0; later from 1 to the depth of the row before plus 1
 *                      words      number of the prototype's instruction words
 *                      constants  at most LUAD51_MAX_CONSTANTS
 *                      upvalues   at most LUAD51_MAX_UPVALUES
 *                      stack      at most LUAD51_MAX_STACK
 *   words            the words of all prototypes end to end, in row order, LUAD51_WORD_BYTES each: one u32
 * The children of a row are the rows one deeper that follow it, up to the next row that is not deeper than it; they are
 * numbered from 0. A word's pc is its index in its prototype, from 0.
 *
 * Slices and buffers may have any content and any length, and begin at any address. What the caller owes:
 *   lengths   all bytes of a slice can be read, and all bytes of a buffer also written
 *   overlap   no two of a call's slices and buffers have a byte in common
 *   pointers  none is null, not even with length 0. With length 0 any other valid pointer will do, into an object or
 *             one past its end: nothing is read or written through it. Empty ones overlap nothing: they may have the
 *             same pointer, or point into another slice or buffer of the call, or to its end.
 *   others    during a call nothing else writes its slices and buffers, or reads its buffers
 * A call writes to its buffers and to nothing else. Nothing is allocated, nothing is kept after a call, there is no
 * global state, and no function of the C library is called but memset: any number of threads and signal handlers may
 * call at the same time, each with buffers and stack of its own; they may share an image, which is only read.
 * The archive is for x86-64 with the System V calling convention, as on Linux.
 *
 * A call takes at most LUAD51_STACK_BYTES of stack, and a caller that does not know its image must have as much. As
 * compiled for x86-64 luad51_roles and luad51_bindings take about 132,000 of them, also where they are refused, most of
 * it for an index of children. luad51_check takes as much and gives it back; then it goes one call deeper for each level
 * of nesting, and for a prototype that ends in a CLOSURE or its binding words one for each child before the named one.
 * The time is linear in words and records, and in rows times the depth of nesting, in whatever order CLOSUREs name
 * children.
 *
 * The result of a call is figure + 2^32 * refusal + 2^40 * verdict, and of an accepted luad51_check 2^47 more: it sets
 * bit LUAD51_CHECKED_BIT, and nothing else does. Bits 48 to 63 are 0. A pass (luad51_passed) has that bit alone above
 * its figure. These are no passes: a result that nobody set (0), one of another call, a refused one, and a number with
 * any of bits 48 to 63.
 *   accepted  refusal LUAD51_ACCEPTED; the figure is the number of role records, one for each word, or, of
 *             luad51_bindings, the number of binding records, one for each upvalue of each row, or, of luad51_check,
 *             the number of diagnostics; the verdict is that of luad51_check, and 0 of the other calls
 *   refused   refusal 1 to 7, of luad51_bindings and luad51_check 1 to 8; the figure is the first row that breaks its
 *             rule for LUAD51_BAD_DEPTH and LUAD51_FIELD_OVER_LIMIT, the number of records needed for
 *             LUAD51_BUFFER_TOO_SHORT, otherwise 0; the verdict is 0 and says nothing
 * An accepted call writes its records to the front of its buffers and leaves what lies past them unchanged. A refused
 * call leaves its buffers untouched, except that with LUAD51_BUFFER_TOO_SHORT the role records are written, as by an
 * accepted call. So a call with a role buffer that fits and an empty buffer for the call's own records tells how many
 * of those there are: the figure, whether it is accepted (then 0) or refused with LUAD51_BUFFER_TOO_SHORT.
 *
 * A pass of luad51_check says of every prototype that an execution, whichever way tests and loops go, meets only words
 * that are instructions, with every operand that they name in range, and leaves only at RETURN, TAILCALL or past the
 * last word. It says nothing of
 *   types    FORLOOP without its FORPREP takes any register for a number, and Lua's VM gives an address as one
 *   Lua's VM what it does past the last word, or where the word after a test is no JMP
 *   content  about half of all single flipped bits leave an image that passes too: a checksum is still wanted
 * docs/DIFFERENCES.md has these cases and the others in which luad, Lua's own check and Lua's VM differ.
 */
#ifndef LUAD51_H
#define LUAD51_H

#include <stddef.h>
#include <stdint.h>

#ifdef __cplusplus
extern "C" {
#endif

/* Limits of an image. */
#define LUAD51_MAX_ROWS 16384
#define LUAD51_MAX_WORDS 1048576
#define LUAD51_MAX_DEPTH 199
#define LUAD51_MAX_CONSTANTS 2147483647
#define LUAD51_MAX_UPVALUES 255
#define LUAD51_MAX_STACK 255

/* The most binding and diagnostic records of a call. It has at most LUAD51_MAX_WORDS role records. */
#define LUAD51_MAX_BINDINGS 4177920  /* LUAD51_MAX_ROWS rows of LUAD51_MAX_UPVALUES */
#define LUAD51_MAX_DIAGNOSTICS 10255 /* LUAD51_DIAGNOSTIC_LIMIT - 1, and a word that has 256 */

/* The bit of a result that only an accepted luad51_check sets. */
#define LUAD51_CHECKED_BIT 47

/* luad51_check ends where incoming and new diagnostics together are this many. */
#define LUAD51_DIAGNOSTIC_LIMIT 10000

/* Sizes in bytes. */
#define LUAD51_ROW_BYTES 20
#define LUAD51_WORD_BYTES 4
#define LUAD51_ROLE_BYTES 8
#define LUAD51_BINDING_BYTES 12
#define LUAD51_DIAGNOSTIC_BYTES 16

/* Stack that a call takes at most, as compiled for x86-64: measured, not proved. */
#define LUAD51_STACK_BYTES 1250000

/* Why a call was refused: the least number whose condition holds. */
enum luad51_refusal_number {
    LUAD51_ACCEPTED = 0,              /* none of the conditions below holds */
    LUAD51_NO_PROTOS = 1,             /* the prototype table is empty */
    LUAD51_PARTIAL_ROW = 2,           /* the table's length is not a multiple of LUAD51_ROW_BYTES */
    LUAD51_TOO_LARGE = 3,             /* above LUAD51_MAX_ROWS rows, or above 4 * LUAD51_MAX_WORDS bytes of words */
    LUAD51_BAD_DEPTH = 4,             /* a row's depth breaks the rule above or is above LUAD51_MAX_DEPTH */
    LUAD51_FIELD_OVER_LIMIT = 5,      /* a row's constants, upvalues or stack are over their limit */
    LUAD51_WORD_COUNT_MISMATCH = 6,   /* the words are not 4 bytes for each word that the rows state */
    LUAD51_ROLE_BUFFER_TOO_SHORT = 7, /* the role buffer has less than LUAD51_ROLE_BYTES for each word */
    LUAD51_BUFFER_TOO_SHORT = 8       /* the bindings buffer has less than LUAD51_BINDING_BYTES for each upvalue, or
                                         the diagnostics buffer less than LUAD51_DIAGNOSTIC_BYTES for each diagnostic */
};

/* What an accepted luad51_check says of an image. */
enum luad51_verdict_number {
    LUAD51_VALID_FOR_PARSER = 0, /* no error, and all was looked at */
    LUAD51_INCOMPLETE = 1,       /* no error, but the diagnostic limit ended the check before its end */
    LUAD51_INVALID = 2           /* an error, incoming or found */
};

/* What a diagnostic says, by luad's names, and its value. All but L51_STACK_001, a warning, are errors. A row has the
 * registers below its stack, and the constants and upvalues below its numbers of them. */
enum luad51_code {
    L51_CLOSURE_001 = 1,   /* CLOSURE that lacks binding words; value: the child's upvalues */
    L51_SETLIST_001 = 2,   /* SETLIST with C = 0 that lacks its extra word; value: 0 */
    L51_STACK_001 = 3,     /* stack above 250, a warning; pc -1; value: stack */
    L51_OP_001 = 4,        /* opcode above 37; value: opcode */
    L51_JMP_001 = 5,       /* jump to a pc that the prototype does not have; value: that pc */
    L51_JMP_002 = 6,       /* jump, or skip of the next word, to a binding word or extra word; value: its pc */
    L51_CONST_003 = 7,     /* no such constant Bx; value: Bx */
    L51_UPVAL_001 = 8,     /* no such upvalue B; value: B */
    L51_BOOL_001 = 9,      /* EQ, LT, LE with A above 1; value: A */
    L51_REG_001 = 10,      /* no such register A; value: A */
    L51_REG_SPAN_001 = 11, /* no such register at the end of a span; value: that register */
    L51_REG_002 = 12,      /* no such register B; value: B */
    L51_REG_003 = 13,      /* no such register C; value: C */
    L51_CONST_004 = 14,    /* B names a missing constant; value: its index */
    L51_CONST_005 = 15,    /* C names a missing constant; value: its index */
    L51_PROTO_002 = 16,    /* CLOSURE without a child Bx; value: Bx */
    L51_CLOSURE_002 = 17   /* binding word that is neither MOVE nor GETUPVAL; value: its opcode, or -1 above 37 */
};

/* Lets gcc and clang warn of a null pointer and of a result that is not looked at. */
#ifdef __GNUC__
#define LUAD51_CALL __attribute__((nonnull, warn_unused_result))
#else
#define LUAD51_CALL
#endif

/* Writes the role of every word, in the order of the words. A record is two i32, LUAD51_ROLE_BYTES together:
 *   -1     -1     an instruction
 *   owner  index  the binding word of upvalue `index` that follows the CLOSURE at pc `owner` of the same prototype
 *   owner  -1     the extra word that follows the SETLIST at pc `owner` of the same prototype
 * A CLOSURE whose child Bx exists has a binding word for each upvalue of that child, a SETLIST with C = 0 one extra
 * word, as far as the prototype has words; other words have none. Binding words and extra words are never read as
 * CLOSURE or SETLIST.
 */
LUAD51_CALL
uint64_t luad51_roles(const uint8_t *table, size_t table_len, const uint8_t *words, size_t words_len,
                      uint8_t *roles, size_t roles_len);

/* Writes the roles as luad51_roles does, and the binding of every upvalue: in row order, a row's upvalues in order. A
 * record is three i32, LUAD51_BINDING_BYTES together: instack, index, pc.
 *   1  index  pc  register `index` of the parent, bound by the MOVE at `pc` of the parent
 *   0  index  pc  upvalue `index` of the parent, bound by the GETUPVAL at `pc` of the parent
 *   0  0      -1  bound by nothing
 * The index is the word's B modulo 256; whether the parent has it is not checked. Only CLOSUREs that are instructions
 * count, in the order of their pcs: each sets record j of its child by its binding word of upvalue j, as far as the
 * parent has words. A binding word of another opcode leaves the record as it is; a later CLOSURE of the same child
 * overwrites it. Row 0 is nobody's child: nothing binds its upvalues.
 */
LUAD51_CALL
uint64_t luad51_bindings(const uint8_t *table, size_t table_len, const uint8_t *words, size_t words_len,
                         uint8_t *roles, size_t roles_len, uint8_t *bindings, size_t bindings_len);

/* Writes the roles as luad51_roles does, and what is wrong with the image. `warnings` and `errors` are the numbers of
 * diagnostics that the caller already has of it. A record is four i32, LUAD51_DIAGNOSTIC_BYTES together: row, pc, code
 * (enum luad51_code), value. The pc is that of the word, of a binding word where this is wrong, or -1.
 * They stand in row order: of a row first L51_CLOSURE_001 or L51_SETLIST_001, then L51_STACK_001, then those of its
 * words by pc, a word's own by code and then, of a CLOSURE, those of its binding words by pc.
 * The check ends before its end, with the limit reached, where incoming and new diagnostics together are
 * LUAD51_DIAGNOSTIC_LIMIT or more before a row or a word; a word's own are never cut. So there are at most
 * LUAD51_MAX_DIAGNOSTICS new ones, and a buffer for as many is never too short.
 * With a buffer for LUAD51_MAX_DIAGNOSTICS records or more, and where there are no diagnostics or they do not fit, the
 * image is walked once; otherwise twice, to count the diagnostics and to write them.
 */
LUAD51_CALL
uint64_t luad51_check(const uint8_t *table, size_t table_len, const uint8_t *words, size_t words_len,
                      uint32_t warnings, uint32_t errors, uint8_t *roles, size_t roles_len, uint8_t *diagnostics,
                      size_t diagnostics_len);

/* A result's refusal, as in enum luad51_refusal_number. */
static inline uint32_t luad51_refusal(uint64_t result)
{
    return result >> 32 & 0xff;
}

/* A result's figure. */
static inline uint32_t luad51_figure(uint64_t result)
{
    return result & 0xffffffff;
}

/* A result's verdict, as in enum luad51_verdict_number; it says something only where luad51_check accepted. */
static inline uint32_t luad51_verdict(uint64_t result)
{
    return result >> 40 & 0x7f;
}

/* Whether a result is that of an accepted luad51_check. */
static inline int luad51_checked(uint64_t result)
{
    return result >> LUAD51_CHECKED_BIT & 1;
}

/* Whether a result is a pass: of an accepted luad51_check, and LUAD51_VALID_FOR_PARSER. Nothing else is one: above the
 * figure stands bit LUAD51_CHECKED_BIT alone, so refusal and verdict are 0, and so is every bit that no call sets. */
static inline int luad51_passed(uint64_t result)
{
    return (result >> 32) == (UINT64_C(1) << (LUAD51_CHECKED_BIT - 32));
}

/* The i32 whose four bytes begin here, at any address. */
static inline int32_t luad51_i32(const uint8_t *at)
{
    int32_t highest = at[3] < 128 ? at[3] : at[3] - 256;
    return highest * 16777216 + at[2] * 65536 + at[1] * 256 + at[0];
}

/* Writes the four bytes of a u32, as slices have them, at any address. */
static inline void luad51_put_u32(uint8_t *at, uint32_t value)
{
    for (int i = 0; i < 4; i++, value >>= 8)
        at[i] = value & 0xff;
}

/* Records as numbers. They are not laid over a buffer: record i, from 0, is read from it by the functions below. */
struct luad51_role {
    int32_t owner;
    int32_t index;
};

struct luad51_binding {
    int32_t instack;
    int32_t index;
    int32_t pc;
};

struct luad51_diagnostic {
    int32_t row;
    int32_t pc;
    int32_t code;
    int32_t value;
};

static inline struct luad51_role luad51_role_at(const uint8_t *roles, size_t i)
{
    const uint8_t *at = roles + LUAD51_ROLE_BYTES * i;
    struct luad51_role role = {luad51_i32(at), luad51_i32(at + 4)};
    return role;
}

static inline struct luad51_binding luad51_binding_at(const uint8_t *bindings, size_t i)
{
    const uint8_t *at = bindings + LUAD51_BINDING_BYTES * i;
    struct luad51_binding binding = {luad51_i32(at), luad51_i32(at + 4), luad51_i32(at + 8)};
    return binding;
}

static inline struct luad51_diagnostic luad51_diagnostic_at(const uint8_t *diagnostics, size_t i)
{
    const uint8_t *at = diagnostics + LUAD51_DIAGNOSTIC_BYTES * i;
    struct luad51_diagnostic diagnostic = {luad51_i32(at), luad51_i32(at + 4), luad51_i32(at + 8),
                                           luad51_i32(at + 12)};
    return diagnostic;
}

#ifdef __cplusplus
}
#endif

#endif
