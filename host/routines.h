/* The files that the test programs run, and the records that the specification (docs/FILES.md) gives
 * for them. */
#ifndef ROUTINES_H
#define ROUTINES_H

#include "files.h"

/* The files of the case at hand, and the parts that they are made of. */
static struct made routine, world, call;
static struct routine parts;
static struct world known;

static inline void finish_files(uint32_t steps, const uint64_t *arguments, size_t count)
{
    finish(&parts, &routine);
    empty_world(&world);
    make_call(&call, steps, 8, arguments, count);
}

/* ---- The specification's `trim`: `sum = dwell + 200` and `return sum - 50` */

enum { DWELL, SUM, TRIM };

static inline void make_trim(void)
{
    const uint64_t dwell = 100;
    begin(&parts, TRIM, 0x1000, 0, 1);
    put_text(&parts.names, "dwell");
    put_text(&parts.names, "sum");
    put_text(&parts.names, "trim");
    put_text(&parts.types, "int32_t");
    put_text(&parts.types, "uint8_t");
    put_text(&parts.types, "int8_t");
    variable(&parts, DWELL, 1);
    variable(&parts, SUM, 2);
    over(&parts, ASSIGN, 5);
    var(&parts, SUM);
    node(&parts, BINARY, ADD, 0, 0, 3, 0);
    var(&parts, DWELL);
    constant(&parts, 1, 200);
    over(&parts, RETURN, 4);
    node(&parts, BINARY, SUB, 0, 0, 3, 0);
    var(&parts, SUM);
    constant(&parts, 1, 50);
    statement(&parts, 1, 0x1000, 0);
    statement(&parts, 0, 0, 5);
    block(&parts, 2, ENDS, 0, 0, 0);
    finish_files(10, &dwell, 1);
}

/* ---- `probe`: every note and every kind of question, up to a store without width */

enum { AUX, BUF, F, GAUGE, LOOSE, MARK, PROBE };
enum { CHAR, INT, WORD, WORD_POINTER, UNSIGNED_POINTER };

static inline void probe_nodes(void)
{
    /* 0 at 2000: *(uint16_t *)0x3000 = 0x1234 */
    over(&parts, ASSIGN, 5);
    over(&parts, DEREF, 3);
    node(&parts, CAST, 0, WORD_POINTER, 0, 2, 0);
    constant(&parts, 2, 0x3000);
    constant(&parts, 2, 0x1234);
    /* 1 at 2004, node 5: gauge = *(unsigned *)0x3000 */
    over(&parts, ASSIGN, 5);
    var(&parts, GAUGE);
    over(&parts, DEREF, 3);
    node(&parts, CAST, 0, UNSIGNED_POINTER, 0, 2, 0);
    constant(&parts, 2, 0x3000);
    /* 2, node 10: f(&buf, &aux, 5) */
    over(&parts, CALL, 7);
    node(&parts, FUNCTION_NAME, 0, F, 0, 1, 0x5000);
    over(&parts, ADDRESS_OF, 2);
    var(&parts, BUF);
    over(&parts, ADDRESS_OF, 2);
    var(&parts, AUX);
    constant(&parts, 4, 5);
    /* 3, node 17: mark() */
    node(&parts, INTRINSIC, 0, MARK, 0, 1, 0);
    /* 4, node 18: f() */
    over(&parts, CALL, 2);
    node(&parts, FUNCTION_NAME, 0, F, 0, 1, 0x5000);
    /* 5 at 2010, node 20: *(char *)0x3010 = { char at 0: 7, int16_t at 4: -2 } */
    over(&parts, ASSIGN, 8);
    over(&parts, DEREF, 2);
    constant(&parts, 2, 0x3010);
    over(&parts, STRUCT_INIT, 5);
    node(&parts, FIELD, 0, CHAR, 0, 2, 0);
    constant(&parts, 1, 7);
    node(&parts, FIELD, 0, WORD, 0, 2, 4);
    constant(&parts, 1, 0xfe);
    /* 6 at 2014, node 28: loose = 1 */
    over(&parts, ASSIGN, 3);
    var(&parts, LOOSE);
    constant(&parts, 1, 1);
}

static inline void probe_world(void)
{
    const uint8_t bytes[6] = { 0xa0, 0xa1, 0xa2, 0xa3, 0xa4, 0xa5 };
    known.names.length = known.symbols.length = known.regions.length = 0;
    put_text(&known.names, "gauge");
    put_text(&known.names, "loose");
    symbol(&known, 0, 2, 0x4000);
    symbol(&known, 1, 0, 0x6000);
    region(&known, 0x3000, bytes, 6);
    finish_world(&known, &world);
}

static inline void make_probe(void)
{
    static const char *const names[] = { "aux", "buf", "f", "gauge", "loose", "mark", "probe" };
    static const char *const types[] = { "char", "int", "int16_t", "uint16_t *", "unsigned *" };
    size_t i;
    begin(&parts, PROBE, 0x2000, INT, 0);
    for (i = 0; i < sizeof names / sizeof *names; i++)
        put_text(&parts.names, names[i]);
    for (i = 0; i < sizeof types / sizeof *types; i++)
        put_text(&parts.types, types[i]);
    variable(&parts, BUF, INT);
    variable(&parts, AUX, CHAR);
    probe_nodes();
    statement(&parts, 1, 0x2000, 0);
    statement(&parts, 1, 0x2004, 5);
    statement(&parts, 0, 0, 10);
    statement(&parts, 0, 0, 17);
    statement(&parts, 0, 0, 18);
    statement(&parts, 1, 0x2010, 20);
    statement(&parts, 1, 0x2014, 28);
    block(&parts, 7, ENDS, 0, 0, 0);
    finish_files(100, NULL, 0);
    probe_world();
}

/* ---- Records, field by field */

static inline void put_pairs(struct made *to, const uint32_t lengths[6])
{
    uint32_t i, offset = 48;
    to->length = 0;
    for (i = 0; i < 6; i++) {
        put(to, 4, offset);
        put(to, 4, lengths[i]);
        offset += lengths[i];
    }
}

static inline void put_value(struct made *to, unsigned is_known, unsigned is_signed, uint32_t bits,
                             uint64_t number)
{
    put(to, 1, is_known);
    put(to, 1, is_signed);
    put(to, 4, bits);
    put(to, 8, number);
}

static inline void no_value(struct made *to)
{
    put_value(to, 0, 0, 0, 0);
}

static inline void put_stop(struct made *to, unsigned kind, unsigned reason, unsigned flag,
                            uint64_t address, unsigned name)
{
    put(to, 1, kind);
    put(to, 1, reason);
    put(to, 1, flag);
    put(to, 8, address);
    put(to, 8, 0);
    put(to, 4, 0);
    put(to, 2, name);
}

static inline void put_counts(struct made *to, uint32_t entered, uint32_t recorded)
{
    put(to, 4, entered);
    put(to, 4, recorded);
    put(to, 4, entered + recorded);
}

/* A step of block 0, up to what it wrote. */
static inline void put_step(struct made *to, unsigned flag, uint64_t address, uint32_t number)
{
    put(to, 1, flag);
    put(to, 8, address);
    put(to, 4, 0);
    put(to, 4, number);
}

static inline void put_wrote(struct made *to, unsigned flag, unsigned name)
{
    put(to, 1, flag);
    put(to, 2, name);
}

static inline void wrote_nothing(struct made *to)
{
    put_wrote(to, 0, 0);
    no_value(to);
}

/* A note up to its value. */
static inline void put_note(struct made *to, unsigned note, uint64_t address, uint32_t fields)
{
    put(to, 1, note);
    put(to, 8, address);
    put(to, 4, fields);
}

/* A note without value and names. */
static inline void plain_note(struct made *to, unsigned note, uint64_t address, uint32_t fields)
{
    put_note(to, note, address, fields);
    no_value(to);
    put(to, 2, 0);
}

/* Question 1 or 2. */
static inline void put_told(struct made *to, unsigned kind, unsigned name, unsigned flag,
                            uint64_t number)
{
    put(to, 1, kind);
    put(to, 2, name);
    put(to, 1, flag);
    put(to, 8, number);
}

static inline void trim_record(struct made *to)
{
    static const uint32_t lengths[6] = { 39, 12, 126, 32, 0, 0 };
    put_pairs(to, lengths);
    put_stop(to, 0, 0, 0, 0, 0);
    put_value(to, 1, 1, 32, 0xfffffffa);
    put_counts(to, 1, 2);
    put_step(to, 1, 0x1000, 0);
    put_wrote(to, 1, SUM);
    put_value(to, 1, 1, 8, 44);
    plain_note(to, 0, 0, 0);
    put_step(to, 0, 0, 1);
    wrote_nothing(to);
    plain_note(to, 0, 0, 0);
    put(to, 2, DWELL);
    put_value(to, 1, 0, 8, 100);
    put(to, 2, SUM);
    put_value(to, 1, 1, 8, 44);
}

static inline void probe_steps(struct made *to)
{
    put_step(to, 1, 0x2000, 0);
    wrote_nothing(to);
    put_note(to, 2, 0x3000, 0);
    put_value(to, 1, 0, 16, 0x1234);
    put(to, 2, 0);
    put_step(to, 1, 0x2004, 1);
    put_wrote(to, 1, GAUGE);
    put_value(to, 1, 0, 16, 0x1234);
    plain_note(to, 0, 0, 0);
    put_step(to, 0, 0, 2);
    wrote_nothing(to);
    put_note(to, 5, 0, 0);
    no_value(to);
    put(to, 2, 2);
    put(to, 2, BUF);
    put(to, 2, AUX);
    put_step(to, 0, 0, 3);
    wrote_nothing(to);
    plain_note(to, 3, 0, 0);
    put_step(to, 0, 0, 4);
    wrote_nothing(to);
    plain_note(to, 4, 0, 0);
    put_step(to, 1, 0x2010, 5);
    wrote_nothing(to);
    plain_note(to, 1, 0x3010, 2);
    put_step(to, 1, 0x2014, 6);
    wrote_nothing(to);
    plain_note(to, 0, 0, 0);
}

/* A call's question up to its values. */
static inline void put_called(struct made *to, unsigned name, uint64_t address, unsigned count)
{
    put(to, 1, 4);
    put(to, 2, name);
    put(to, 8, address);
    put(to, 4, 1);
    put(to, 1, count);
}

static inline void probe_questions(struct made *to)
{
    put(to, 1, 3);
    put(to, 8, 0x3000);
    put(to, 1, 4);
    put(to, 1, 4);
    put_bytes(to, "\xa0\xa1\xa2\xa3", 4);
    put_told(to, 1, GAUGE, 1, 0x4000);
    put_told(to, 2, GAUGE, 1, 2);
    put_told(to, 1, BUF, 0, 0);
    put_told(to, 1, AUX, 0, 0);
    put_called(to, F, 0x5000, 3);
    put_value(to, 0, 0, 64, 0);
    put_value(to, 0, 0, 64, 0);
    put_value(to, 1, 1, 32, 5);
    put(to, 1, 0);
    put_called(to, F, 0x5000, 0);
    put(to, 1, 0);
    put_told(to, 1, LOOSE, 1, 0x6000);
    put_told(to, 2, LOOSE, 0, 0);
}

static inline void probe_record(struct made *to)
{
    static const uint32_t lengths[6] = { 39, 12, 445, 32, 63, 163 };
    static const uint16_t addresses[7] = {
        0x3000, 0x3001, 0x3010, 0x3014, 0x3015, 0x4000, 0x4001
    };
    static const uint8_t bytes[7] = { 0x34, 0x12, 7, 0xfe, 0xff, 0x34, 0x12 };
    size_t i;
    put_pairs(to, lengths);
    put_stop(to, 3, 7, 1, 0x2014, LOOSE);
    no_value(to);
    put_counts(to, 1, 7);
    probe_steps(to);
    put(to, 2, AUX);
    put_value(to, 0, 1, 8, 0);
    put(to, 2, BUF);
    put_value(to, 0, 1, 32, 0);
    for (i = 0; i < 7; i++) {
        put(to, 8, addresses[i]);
        put(to, 1, bytes[i]);
    }
    probe_questions(to);
}

#endif
