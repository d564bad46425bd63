/* Reads images with their stored answers; tests/answers/README.md describes the format. A file that cannot be read or
 * is not in this form ends the program with status 2, after a message with file and line. */
#ifndef ANSWERS_H
#define ANSWERS_H

#include <stdbool.h>
#include <stddef.h>
#include <stdint.h>

#include "luad51.h"

struct bytes {
    uint8_t *at;
    size_t len;
};

/* What a call must answer: refusal number, or 0; its figure, or the number of records; the verdict of an accepted check
 * call, otherwise 0. */
struct outcome {
    uint32_t refusal;
    uint32_t figure;
    uint32_t verdict;
};

/* The calls whose answers are read. Each is lent the role buffer; a later one is lent a buffer of its own, too. */
enum call { ROLES, BINDINGS, CHECK, CALLS };

/* What a call must answer, and the records that are its own: roles, bindings or diagnostics. */
struct answer {
    struct outcome outcome;
    size_t buffer_len; /* of the buffer for these records */
    size_t count;
    struct bytes records; /* all of them, also where the buffer is too short; none where has_records is false */
};

struct image {
    const char *label; /* points into the text of the file */
    int label_len;
    uint32_t warnings;
    uint32_t errors;
    struct bytes table;
    struct bytes words;
    bool has_records; /* none of the refusals 1 to 6 applies */
    uint32_t verdict; /* of a check call that is lent enough; meaningless where has_records is false */
    struct answer answers[CALLS];
};

/* The names of the verdicts, by their numbers. */
extern const char *const VERDICTS[LUAD51_INVALID + 1];

/* An open file and how far it is read. */
struct answers {
    const char *path;
    char *text;
    const char *at;
    const char *end;
    unsigned long line;
};

/* Memory for `len` bytes, at least one; ends the program with status 2 where there is none. */
void *allocate(size_t len);

void answers_open(struct answers *answers, const char *path);

/* Reads the next image, to be released by image_release; false at the end of the file. */
bool answers_next(struct answers *answers, struct image *image);

/* Reads the next image likewise, but not its answers: there may be none. */
bool answers_next_image(struct answers *answers, struct image *image);

void answers_close(struct answers *answers);

void image_release(struct image *image);

#endif
