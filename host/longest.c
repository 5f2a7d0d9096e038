/* A record of 4,294,967,295 bytes is written, and one of a byte more is refused by 22. The middle of
 * the buffer is one part of a file, mapped over and over, so that it takes 66 MiB; its ends are parts
 * of their own. What is expected is written from the specification (docs/FILES.md). Says which check
 * failed and ends with 1. */
#define _XOPEN_SOURCE 600
#include <sys/mman.h>
#include <unistd.h>

#include "lending.h"

/* ---- The buffer */

#define MIDDLE ((size_t)64 << 20)
#define END ((size_t)1 << 20)
#define LIMIT ((size_t)1 << 32)
#define BUFFER (LIMIT + MIDDLE)

static uint8_t *buffer, *last; /* `last` is the part around the limit */

static void map(int file, size_t at, size_t length, size_t offset)
{
    void *where = buffer + at;
    if (mmap(where, length, PROT_READ | PROT_WRITE, MAP_SHARED | MAP_FIXED, file, (off_t)offset)
        == MAP_FAILED) {
        perror("a part of the buffer");
        exit(2);
    }
}

static void map_buffer(void)
{
    FILE *made = tmpfile();
    int file = made == NULL ? -1 : fileno(made);
    size_t at;
    void *whole = MAP_FAILED;
    if (file >= 0 && ftruncate(file, (off_t)(MIDDLE + 2 * END)) == 0)
        whole = mmap(NULL, BUFFER, PROT_NONE, MAP_SHARED, file, 0);
    if (whole == MAP_FAILED) {
        perror("the buffer");
        exit(2);
    }
    buffer = whole;
    last = buffer + LIMIT - END / 2;
    for (at = 0; at < BUFFER; at += MIDDLE)
        map(file, at, MIDDLE, 0);
    map(file, 0, END, MIDDLE);
    map(file, LIMIT - END / 2, END, MIDDLE + END);
}

/* Whether all bytes from one to another are so. */
static bool all(const uint8_t *from, const uint8_t *to, uint8_t byte)
{
    while (from < to && *from == byte)
        from++;
    return from == to;
}

/* ---- The run */

enum { LEAST = EMULATE_RECORD_LEAST, STEP = EMULATE_SIZE_STEP, LOAD = EMULATE_SIZE_READ + 8 };

/* What a symbol's address, size and bytes take when they are asked for. */
enum { ASKED = 2 * EMULATE_SIZE_TOLD + LOAD };

enum { MANY = 2400, SOME = 50, ADDRESS = 0x1000 };

/* The symbol, so many times. */
static void put_symbols(uint32_t count)
{
    uint32_t i;
    over(&parts, INTRINSIC, count + 1);
    for (i = 0; i < count; i++)
        var(&parts, 1);
}

/* Loads that take so many bytes, at least 64: where fewer bytes are there, a load takes fewer. */
static void put_loads(uint32_t bytes)
{
    uint32_t i, count = (bytes + LOAD - 1) / LOAD, spare = count * LOAD - bytes;
    over(&parts, INTRINSIC, 1 + 2 * count);
    for (i = 0; i < count; i++) {
        uint32_t less = spare < 8 ? spare : 8;
        over(&parts, DEREF, 2);
        constant(&parts, 8, ADDRESS + less);
        spare -= less;
    }
}

static void make_world(void)
{
    known.names.length = known.symbols.length = known.regions.length = 0;
    put_text(&known.names, "s");
    symbol(&known, 0, 8, ADDRESS);
    region(&known, ADDRESS, "abcdefgh", 8);
    finish_world(&known, &world);
}

/* A run whose record has so many bytes: one step takes what is left over, some take a little, and
 * the last one, over and over, takes much. Gives its units. */
static uint32_t make_long(uint64_t length)
{
    const uint64_t much = STEP + MANY * ASKED, little = STEP + SOME * ASKED;
    const uint64_t left = length - LEAST - STEP - 64;
    uint32_t often = (uint32_t)(left / much), few = (uint32_t)(left % much / little), i;
    uint32_t units = 1 + 1 + few + 2 * often;
    begin(&parts, 0, 0, 0, 0);
    put_text(&parts.names, "f");
    put_text(&parts.names, "s");
    put_text(&parts.types, "int");
    put_symbols(MANY);
    put_symbols(SOME);
    put_loads((uint32_t)(left % much % little) + 64);
    statement(&parts, 0, 0, MANY + 1 + SOME + 1);
    for (i = 0; i < few; i++)
        statement(&parts, 0, 0, MANY + 1);
    statement(&parts, 0, 0, 0);
    block(&parts, 1 + few, GOTO, 0, 1, 0);
    block(&parts, 1, GOTO, 0, 1, 0);
    finish_files(units, NULL, 0);
    make_world();
    return units;
}

/* What is at the ends of a record. */
static void check_record(struct emulate_bytes made, uint32_t units)
{
    struct emulate_bytes questions = emulate_body(made, EMULATE_BODY_QUESTIONS);
    struct emulate_counts counts = { 0, 0, 0 };
    struct emulate_stop stop = { 0 };
    CHECK(emulate_read_stop(emulate_body(made, EMULATE_BODY_STOP), &stop) > 0);
    CHECK(stop.kind == EMULATE_STOP_STEPS && stop.number == units);
    CHECK(emulate_read_counts(emulate_body(made, EMULATE_BODY_COUNTS), &counts) > 0);
    CHECK(counts.spent == units);
    CHECK(questions.first + questions.length == made.first + made.length);
    CHECK(memcmp(made.first + made.length - 8, "abcdefgh", 8) == 0);
    CHECK(all(made.first + made.length, last + END, 0xa5));
}

static void test_length(const char *name, uint64_t length, uint32_t number)
{
    uint32_t units = make_long(length);
    struct emulate_answer answer;
    now = name;
    memset(buffer, 0xa5, END);
    memset(last, 0xa5, END);
    lend(&workspace, 65536);
    answer = run(routine.bytes, routine.length, world.bytes, world.length, call.bytes, call.length,
                 buffer, BUFFER, lent(&workspace), 65536);
    CHECK(answer.number == number);
    CHECK(answer.length == (number == 0 ? length : 0));
    CHECK(zero(&workspace));
    check_guards(&workspace);
    if (answer.number == 0)
        check_record(emulate_record(buffer, answer), units);
    else
        CHECK(all(buffer, buffer + END, 0) && all(last, last + END, 0));
}

int main(void)
{
    map_buffer();
    test_length("the longest record", UINT32_MAX, 0);
    test_length("a byte more", (uint64_t)UINT32_MAX + 1, 22);
    return outcome("longest");
}
