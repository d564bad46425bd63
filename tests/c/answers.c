#include "answers.h"

#include <errno.h>
#include <stdio.h>
#include <stdlib.h>
#include <string.h>

#include "luad51.h"

/* Values in one group of a repetition at most. */
#define LONGEST_GROUP 64

/* Where a row has its words and its upvalues. */
#define WORDS_AT 4
#define UPVALUES_AT 12

/* Where a diagnostic has its code. */
#define CODE_AT 8

/* Incoming and new diagnostics with which the limit is met. */
#define DIAGNOSTIC_LIMIT 10000

const char *const VERDICTS[] = {"ValidForParser", "Incomplete", "Invalid"};

/* How a call's lines begin, its last refusal, and the bytes of its own records. */
struct lines {
    const char *outcome;
    const char *records;
    uint32_t last_refusal;
    size_t record_len;
};

static const struct lines LINES[CALLS] = {
    {"roles ", "R ", LUAD51_ROLE_BUFFER_TOO_SHORT, LUAD51_ROLE_BYTES},
    {"bindings ", "B ", LUAD51_BUFFER_TOO_SHORT, LUAD51_BINDING_BYTES},
    {"check ", "D ", LUAD51_BUFFER_TOO_SHORT, LUAD51_DIAGNOSTIC_BYTES},
};

/* How the values of a line are written: in decimal within limits, or as eight hexadecimal digits. */
struct form {
    bool hexadecimal;
    int64_t least;
    int64_t most;
};

static const struct form FIELD = {false, 0, UINT32_MAX};
static const struct form WORD = {true, 0, UINT32_MAX};
static const struct form RECORD_VALUE = {false, INT32_MIN, INT32_MAX};
static const struct form DELTA = {false, -(int64_t)UINT32_MAX, UINT32_MAX};

struct group {
    size_t count;
    int64_t values[LONGEST_GROUP];
};

/* A group that is repeated, the deltas added each time. A single value is a group of one. */
struct item {
    struct group group;
    struct group deltas;
    uint32_t times;
};

/* Ends the program. */
static void malformed(const struct answers *answers, const char *what)
{
    fprintf(stderr, "%s:%lu: %s\n", answers->path, answers->line, what);
    exit(2);
}

void *allocate(size_t len)
{
    void *block = malloc(len > 0 ? len : 1);
    if (block == NULL) {
        fprintf(stderr, "no memory for %lu bytes\n", (unsigned long)len);
        exit(2);
    }
    return block;
}

/* Passes over a text if it stands here. */
static bool take(struct answers *answers, const char *text)
{
    size_t len = strlen(text);
    if (strncmp(answers->at, text, len) != 0)
        return false;
    answers->at += len;
    return true;
}

/* Passes over a text that must stand here. */
static void need(struct answers *answers, const char *text)
{
    if (!take(answers, text)) {
        fprintf(stderr, "%s:%lu: expected '%s'\n", answers->path, answers->line, text);
        exit(2);
    }
}

static void end_line(struct answers *answers)
{
    if (!take(answers, "\n"))
        malformed(answers, "the line does not end where it must");
    answers->line++;
}

/* A decimal number without leading zeros. */
static int64_t decimal(struct answers *answers, int64_t least, int64_t most)
{
    bool negative = take(answers, "-");
    const char *first = answers->at;
    int64_t value = 0;
    while (*answers->at >= '0' && *answers->at <= '9' && value <= UINT32_MAX)
        value = 10 * value + (*answers->at++ - '0');
    if (answers->at == first || (*first == '0' && (negative || answers->at > first + 1)))
        malformed(answers, "not a decimal number");
    if (negative)
        value = -value;
    if (value < least || value > most)
        malformed(answers, "a number out of range");
    return value;
}

static uint32_t u32(struct answers *answers)
{
    return (uint32_t)decimal(answers, 0, UINT32_MAX);
}

/* A number of `digits` lower-case hexadecimal digits. */
static uint32_t hexadecimal(struct answers *answers, int digits)
{
    static const char known[] = "0123456789abcdef";
    uint32_t value = 0;
    for (int i = 0; i < digits; i++) {
        const char *digit = memchr(known, *answers->at, 16);
        if (digit == NULL)
            malformed(answers, "not a hexadecimal digit");
        value = value << 4 | (uint32_t)(digit - known);
        answers->at++;
    }
    return value;
}

static int64_t read_value(struct answers *answers, const struct form *form)
{
    return form->hexadecimal ? hexadecimal(answers, 8) : decimal(answers, form->least, form->most);
}

/* The rest of a group whose parenthesis is open. */
static void read_group(struct answers *answers, const struct form *form, struct group *group)
{
    group->count = 0;
    do {
        if (group->count == LONGEST_GROUP)
            malformed(answers, "a group that is too long");
        group->values[group->count++] = read_value(answers, form);
    } while (take(answers, " "));
    need(answers, ")");
}

static uint32_t read_times(struct answers *answers)
{
    need(answers, "*");
    return (uint32_t)decimal(answers, 1, UINT32_MAX);
}

/* v, v*k, (a b c)*k or, in decimal, (a b c)+(x y z)*k. */
static void read_item(struct answers *answers, const struct form *form, struct item *item)
{
    memset(&item->deltas, 0, sizeof item->deltas);
    item->times = 1;
    if (!take(answers, "(")) {
        item->group.count = 1;
        item->group.values[0] = read_value(answers, form);
        if (*answers->at == '*')
            item->times = read_times(answers);
        return;
    }
    read_group(answers, form, &item->group);
    if (!form->hexadecimal && take(answers, "+(")) {
        read_group(answers, &DELTA, &item->deltas);
        if (item->deltas.count != item->group.count)
            malformed(answers, "not as many deltas as values");
    }
    item->times = read_times(answers);
}

/* Four bytes, least first; negative numbers in two's complement. */
static void put(uint8_t *to, int64_t value)
{
    for (int i = 0; i < 4; i++)
        to[i] = (uint8_t)((uint32_t)value >> 8 * i);
}

static uint32_t get(const uint8_t *from)
{
    uint32_t value = 0;
    for (int i = 0; i < 4; i++)
        value |= (uint32_t)from[i] << 8 * i;
    return value;
}

/* Writes out a repetition; returns where its bytes end. */
static uint8_t *expand(const struct answers *answers, const struct form *form, struct item *item, uint8_t *to,
                       const uint8_t *end)
{
    struct group *group = &item->group;
    for (uint32_t time = 0; time < item->times; time++) {
        if ((size_t)(end - to) < 4 * group->count)
            malformed(answers, "more values than stated");
        for (size_t i = 0; i < group->count; i++, to += 4) {
            if (group->values[i] < form->least || group->values[i] > form->most)
                malformed(answers, "a repetition that goes out of range");
            put(to, group->values[i]);
            group->values[i] += item->deltas.values[i];
        }
    }
    return to;
}

/* The rest of a line of values: `len` bytes, as far as these are whole values. */
static struct bytes read_values(struct answers *answers, const struct form *form, size_t len)
{
    struct bytes bytes = {allocate(len), len};
    uint8_t *to = bytes.at;
    const uint8_t *end = to + len / 4 * 4;
    while (take(answers, " ")) {
        struct item item;
        read_item(answers, form, &item);
        to = expand(answers, form, &item, to, end);
    }
    if (to != end)
        malformed(answers, "fewer values than stated");
    end_line(answers);
    return bytes;
}

/* A line of bytes, and the line for those that are no whole value. */
static struct bytes read_bytes(struct answers *answers, const char *name, const char *tail, const struct form *form)
{
    need(answers, name);
    size_t len = u32(answers);
    struct bytes bytes = read_values(answers, form, len);
    if (len % 4 > 0) {
        need(answers, tail);
        for (size_t i = len / 4 * 4; i < len; i++)
            bytes.at[i] = (uint8_t)hexadecimal(answers, 2);
        end_line(answers);
    }
    return bytes;
}

static void read_label(struct answers *answers, struct image *image)
{
    need(answers, "image ");
    image->label = answers->at;
    while (*answers->at > ' ' && *answers->at <= '~')
        answers->at++;
    image->label_len = (int)(answers->at - image->label);
    if (image->label_len == 0)
        malformed(answers, "an image without a label");
    end_line(answers);
}

static void read_incoming(struct answers *answers, struct image *image)
{
    need(answers, "incoming ");
    image->warnings = u32(answers);
    need(answers, " ");
    image->errors = u32(answers);
    end_line(answers);
}

static void read_buffers(struct answers *answers, struct image *image)
{
    need(answers, "buffers");
    for (int call = ROLES; call < CALLS; call++) {
        need(answers, " ");
        image->answers[call].buffer_len = u32(answers);
    }
    end_line(answers);
}

/* The verdict's name, or - where the call is refused. */
static uint32_t read_verdict(struct answers *answers, bool accepted)
{
    uint32_t verdict = 0;
    need(answers, " ");
    if (!accepted) {
        need(answers, "-");
        return 0;
    }
    while (!take(answers, VERDICTS[verdict]))
        if (++verdict > LUAD51_INVALID)
            malformed(answers, "not a verdict");
    return verdict;
}

static struct outcome read_outcome(struct answers *answers, enum call call)
{
    struct outcome outcome = {0};
    need(answers, LINES[call].outcome);
    outcome.refusal = (uint32_t)decimal(answers, 0, LINES[call].last_refusal);
    need(answers, " ");
    outcome.figure = u32(answers);
    if (call == CHECK)
        outcome.verdict = read_verdict(answers, outcome.refusal == LUAD51_ACCEPTED);
    end_line(answers);
    return outcome;
}

/* Whether a call's answer suits that of the roles call: where the roles call is refused, it is refused alike. */
static bool suits(const struct outcome *outcome, const struct outcome *roles)
{
    if (roles->refusal == LUAD51_ACCEPTED)
        return outcome->refusal == LUAD51_ACCEPTED || outcome->refusal == LUAD51_BUFFER_TOO_SHORT;
    return outcome->refusal == roles->refusal && outcome->figure == roles->figure;
}

static void read_outcomes(struct answers *answers, struct image *image)
{
    const struct outcome *roles = &image->answers[ROLES].outcome;
    for (int call = ROLES; call < CALLS; call++) {
        image->answers[call].outcome = read_outcome(answers, call);
        if (!suits(&image->answers[call].outcome, roles))
            malformed(answers, "a call that is not answered as the roles call");
    }
    image->has_records = roles->refusal == LUAD51_ACCEPTED || roles->refusal == LUAD51_ROLE_BUFFER_TOO_SHORT;
}

/* The upvalues of all rows. */
static size_t count_upvalues(const struct bytes *table)
{
    size_t count = 0;
    for (size_t at = UPVALUES_AT; at < table->len; at += LUAD51_ROW_BYTES)
        count += get(table->at + at);
    return count;
}

/* A line of `least` to `most` records. They fit the buffer of an accepted call, and do not fit where it is too short;
 * in both cases their number is the figure. */
static void read_records(struct answers *answers, const struct lines *lines, size_t least, size_t most,
                         struct answer *answer)
{
    const struct outcome *outcome = &answer->outcome;
    bool accepted = outcome->refusal == LUAD51_ACCEPTED;
    need(answers, lines->records);
    size_t count = u32(answers), len = lines->record_len * count;
    if (count < least || count > most)
        malformed(answers, "not as many records as the image needs");
    if (accepted || outcome->refusal == LUAD51_BUFFER_TOO_SHORT)
        if (accepted != (len <= answer->buffer_len) || outcome->figure != count)
            malformed(answers, "records that do not suit the call's answer");
    answer->count = count;
    answer->records = read_values(answers, &RECORD_VALUE, len);
}

/* Whether an error came in or was found: every diagnostic but that of the stack is one. */
static bool has_error(const struct image *image)
{
    const struct bytes *diagnostics = &image->answers[CHECK].records;
    for (size_t at = CODE_AT; at < diagnostics->len; at += LUAD51_DIAGNOSTIC_BYTES)
        if (get(diagnostics->at + at) != L51_STACK_001)
            return true;
    return image->errors > 0;
}

/* Whether the limit ended the check of an image without errors: it was met by incoming warnings alone, or by the last
 * diagnostic, that of a row's stack, and a word of this row or another row comes after it. */
static bool is_cut(const struct image *image)
{
    const struct answer *check = &image->answers[CHECK];
    if ((uint64_t)image->warnings + check->count < DIAGNOSTIC_LIMIT)
        return false;
    if (check->count == 0)
        return true;
    size_t row = get(check->records.at + check->records.len - LUAD51_DIAGNOSTIC_BYTES);
    size_t at = row * LUAD51_ROW_BYTES;
    return at + LUAD51_ROW_BYTES != image->table.len || get(image->table.at + at + WORDS_AT) > 0;
}

/* The verdict, which is not stored with a check call that is refused. Where it is stored, this must be it. */
static void find_verdict(struct answers *answers, struct image *image)
{
    const struct outcome *check = &image->answers[CHECK].outcome;
    image->verdict = has_error(image) ? LUAD51_INVALID : is_cut(image) ? LUAD51_INCOMPLETE : LUAD51_VALID_FOR_PARSER;
    if (check->refusal == LUAD51_ACCEPTED && check->verdict != image->verdict)
        malformed(answers, "a verdict that does not suit the diagnostics");
}

static void read_all_records(struct answers *answers, struct image *image)
{
    size_t words = image->words.len / LUAD51_WORD_BYTES, upvalues = count_upvalues(&image->table);
    size_t least[CALLS] = {words, upvalues, 0}, most[CALLS] = {words, upvalues, LUAD51_MAX_DIAGNOSTICS};
    for (int call = ROLES; call < CALLS; call++)
        read_records(answers, &LINES[call], least[call], most[call], &image->answers[call]);
    find_verdict(answers, image);
}

/* The lines before the answers. */
static void read_image(struct answers *answers, struct image *image)
{
    *image = (struct image){0};
    read_label(answers, image);
    read_incoming(answers, image);
    image->table = read_bytes(answers, "table ", "tail ", &FIELD);
    image->words = read_bytes(answers, "words ", "wtail ", &WORD);
    read_buffers(answers, image);
}

static void read_answers(struct answers *answers, struct image *image)
{
    read_outcomes(answers, image);
    if (image->has_records)
        read_all_records(answers, image);
    end_line(answers);
}

/* Passes over the lines up to a blank one, and over this. */
static void skip_answers(struct answers *answers)
{
    while (!take(answers, "\n")) {
        const char *end = strchr(answers->at, '\n');
        if (end == NULL)
            malformed(answers, "no blank line after the image");
        answers->at = end + 1;
        answers->line++;
    }
    answers->line++;
}

/* Ends the program, for a file that cannot be read. */
static void unreadable(const char *path)
{
    fprintf(stderr, "%s: %s\n", path, strerror(errno));
    exit(2);
}

/* The whole of a file, and a null character after it. */
static char *read_text(const char *path, size_t *len)
{
    FILE *file = fopen(path, "rb");
    if (file == NULL)
        unreadable(path);
    size_t room = 1 << 20, got;
    char *text = allocate(room);
    *len = 0;
    while ((got = fread(text + *len, 1, room - *len - 1, file)) > 0) {
        *len += got;
        if (*len == room - 1) {
            char *larger = memcpy(allocate(2 * room), text, *len);
            free(text);
            text = larger;
            room *= 2;
        }
    }
    if (ferror(file))
        unreadable(path);
    fclose(file);
    text[*len] = '\0';
    return text;
}

void answers_open(struct answers *answers, const char *path)
{
    size_t len;
    answers->path = path;
    answers->text = read_text(path, &len);
    answers->at = answers->text;
    answers->end = answers->text + len;
    answers->line = 1;
    if (len == 0)
        malformed(answers, "no images");
}

bool answers_next(struct answers *answers, struct image *image)
{
    if (answers->at == answers->end)
        return false;
    read_image(answers, image);
    read_answers(answers, image);
    return true;
}

bool answers_next_image(struct answers *answers, struct image *image)
{
    if (answers->at == answers->end)
        return false;
    read_image(answers, image);
    skip_answers(answers);
    return true;
}

void answers_close(struct answers *answers)
{
    free(answers->text);
}

void image_release(struct image *image)
{
    free(image->table.at);
    free(image->words.at);
    for (int call = ROLES; call < CALLS; call++)
        free(image->answers[call].records.at);
}
