/* Checks, and calls on lent buffers that show what was left in them: for the test programs. */
#ifndef LENDING_H
#define LENDING_H

#include "emulate.h"
#include "routines.h"

/* ---- Checks */

static const char *now = "";
static unsigned long checks, failures;

static inline void check(bool holds, const char *what, const char *file, int line)
{
    checks++;
    if (!holds) {
        failures++;
        printf("%s:%d: %s: not so: %s\n", file, line, now, what);
    }
}

#define CHECK(what) check((what), #what, __FILE__, __LINE__)

/* What a test program ends with. */
static inline int outcome(const char *program)
{
    printf("%s: %lu checks, %lu failed\n", program, checks, failures);
    return failures > 0;
}

/* ---- Lent buffers: a pattern without zeros, and guards on both sides */

#define GUARD 64
#define LONGEST (1 << 17)

struct lent {
    size_t length;
    uint8_t bytes[GUARD + LONGEST + GUARD];
};

static struct lent record, workspace;

static inline uint8_t pattern(size_t index)
{
    return (uint8_t)(index % 251 + 1);
}

static inline void lend(struct lent *to, size_t length)
{
    size_t i;
    to->length = length;
    for (i = 0; i < sizeof to->bytes; i++)
        to->bytes[i] = pattern(i);
}

/* The lent part; NULL for none. */
static inline uint8_t *lent(struct lent *of)
{
    return of->length > 0 ? of->bytes + GUARD : NULL;
}

static inline bool patterned(const struct lent *of, size_t from, size_t to)
{
    while (from < to && of->bytes[from] == pattern(from))
        from++;
    return from == to;
}

/* The lent part from an offset on is as it was. */
static inline bool untouched(const struct lent *of, size_t offset)
{
    return patterned(of, GUARD + offset, GUARD + of->length);
}

static inline bool zero(const struct lent *of)
{
    size_t i = 0;
    while (i < of->length && of->bytes[GUARD + i] == 0)
        i++;
    return i == of->length;
}

static inline void check_guards(const struct lent *of)
{
    CHECK(patterned(of, 0, GUARD));
    CHECK(patterned(of, GUARD + of->length, sizeof of->bytes));
}

/* ---- Calls */

/* A file in a block of its own length, so that a look past its end can be seen from outside. */
static inline uint8_t *copy(const struct made *file)
{
    uint8_t *bytes = NULL;
    if (file->length > 0) {
        bytes = malloc(file->length);
        if (bytes == NULL)
            exit(2);
        memcpy(bytes, file->bytes, file->length);
    }
    return bytes;
}

/* The file is as it was; its copy is given up. */
static inline void check_file(uint8_t *bytes, const struct made *file)
{
    CHECK(file->length == 0 || memcmp(bytes, file->bytes, file->length) == 0);
    free(bytes);
}

/* Runs the files at hand. */
static inline struct emulate_answer go(const char *name, size_t record_length,
                                       size_t workspace_length)
{
    uint8_t *r = copy(&routine), *w = copy(&world), *c = copy(&call);
    struct emulate_answer answer;
    now = name;
    lend(&record, record_length);
    lend(&workspace, workspace_length);
    answer = run(r, routine.length, w, world.length, c, call.length, lent(&record), record_length,
                 lent(&workspace), workspace_length);
    check_file(r, &routine);
    check_file(w, &world);
    check_file(c, &call);
    check_guards(&record);
    check_guards(&workspace);
    return answer;
}

/* 1 to 9, 20, 30 and 31 leave both buffers untouched; 5, 30 and 31 tell a node. */
static inline void refused_at(const char *name, uint32_t number, uint32_t node,
                              size_t record_length, size_t workspace_length)
{
    struct emulate_answer answer = go(name, record_length, workspace_length);
    CHECK(answer.number == number);
    CHECK(answer.length == node);
    CHECK(emulate_record(lent(&record), answer).length == 0);
    CHECK(untouched(&record, 0));
    CHECK(untouched(&workspace, 0));
}

/* The other numbers tell 0. */
static inline void refused(const char *name, uint32_t number, size_t record_length,
                    size_t workspace_length)
{
    refused_at(name, number, 0, record_length, workspace_length);
}

/* 21 and 22 leave both zero throughout. */
static inline void cleared(const char *name, uint32_t number, size_t record_length,
                    size_t workspace_length)
{
    struct emulate_answer answer = go(name, record_length, workspace_length);
    CHECK(answer.number == number);
    CHECK(answer.length == 0);
    CHECK(zero(&record));
    CHECK(zero(&workspace));
}

/* A run leaves the record, the buffer beyond as it was, and the workspace zero throughout. */
static inline struct emulate_bytes ran(const char *name, uint32_t length, size_t record_length,
                                size_t workspace_length)
{
    struct emulate_answer answer = go(name, record_length, workspace_length);
    CHECK(answer.number == 0);
    CHECK(answer.length == length);
    CHECK(answer.length <= record_length && untouched(&record, answer.length));
    CHECK(zero(&workspace));
    return emulate_record(lent(&record), answer);
}

static inline bool same(struct emulate_bytes bytes, const struct made *expected)
{
    return bytes.length == expected->length
        && memcmp(bytes.first, expected->bytes, expected->length) == 0;
}

#endif
