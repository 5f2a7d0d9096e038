/* The three files, written field by field: for the test programs. */
#ifndef FILES_H
#define FILES_H

#include <stdint.h>
#include <stdio.h>
#include <stdlib.h>
#include <string.h>

/* Bytes that are put one after the other. */
struct made {
    size_t length;
    uint8_t bytes[1 << 17];
};

static inline void put_bytes(struct made *to, const void *bytes, size_t count)
{
    if (count > sizeof to->bytes - to->length) {
        fputs("a file that is too long to be made\n", stderr);
        exit(2);
    }
    if (count > 0)
        memcpy(to->bytes + to->length, bytes, count);
    to->length += count;
}

/* A number, little-endian. */
static inline void put(struct made *to, size_t width, uint64_t number)
{
    uint8_t bytes[8];
    size_t i;
    for (i = 0; i < width; i++)
        bytes[i] = (uint8_t)(number >> 8 * i);
    put_bytes(to, bytes, width);
}

/* A name or a type: its length and its bytes. */
static inline void put_text(struct made *to, const char *text)
{
    put(to, 1, strlen(text));
    put_bytes(to, text, strlen(text));
}

/* A file: the count of its bodies, where each is and how long, then the bodies. */
static inline void put_file(struct made *to, const struct made *const *bodies, size_t count)
{
    size_t i, offset = 2 + 4 * count;
    to->length = 0;
    put(to, 2, count);
    for (i = 0; i < count; i++) {
        put(to, 2, offset);
        put(to, 2, bodies[i]->length);
        offset += bodies[i]->length;
    }
    for (i = 0; i < count; i++)
        put_bytes(to, bodies[i]->bytes, bodies[i]->length);
}

/* ---- Routines */

enum kind {
    CONSTANT, VAR, REGISTER, STRING_LITERAL, FUNCTION_NAME, CONDITION_TRUE, CONDITION_FALSE,
    CONSTANT_CONDITION, CAST, DEREF, ADDRESS_OF, TERNARY, BINARY, ASSIGN, CALL, INTRINSIC, RETURN,
    STRUCT_INIT, FIELD, PLAIN
};

enum operator_number { ADD = 0, SUB = 1, MUL = 2, DIV = 3 };

enum terminator { ENDS = 0, GOTO = 1, BRANCH = 2, SWITCH = 3 };

/* The six bodies. */
struct routine {
    struct made names, types, head, nodes, statements, blocks;
};

/* A routine that has a head, and nothing else yet. */
static inline void begin(struct routine *r, unsigned name, uint64_t address, unsigned returns,
                         unsigned parameters)
{
    r->names.length = r->types.length = r->head.length = 0;
    r->nodes.length = r->statements.length = r->blocks.length = 0;
    put(&r->head, 2, name);
    put(&r->head, 8, address);
    put(&r->head, 2, returns);
    put(&r->head, 1, parameters);
}

/* A parameter or a local. */
static inline void variable(struct routine *r, unsigned name, unsigned type)
{
    put(&r->head, 2, name);
    put(&r->head, 2, type);
}

/* A node with all of its fields; `span` counts it and all under it. */
static inline void node(struct routine *r, enum kind kind, unsigned flag, unsigned ref,
                        uint32_t width, uint32_t span, uint64_t value)
{
    put(&r->nodes, 1, kind);
    put(&r->nodes, 1, flag);
    put(&r->nodes, 2, ref);
    put(&r->nodes, 4, width);
    put(&r->nodes, 4, span);
    put(&r->nodes, 8, value);
}

static inline void constant(struct routine *r, uint32_t width, uint64_t value)
{
    node(r, CONSTANT, 0, 0, width, 1, value);
}

static inline void var(struct routine *r, unsigned name)
{
    node(r, VAR, 0, name, 0, 1, 0);
}

/* A node that says no more than its kind. */
static inline void over(struct routine *r, enum kind kind, uint32_t span)
{
    node(r, kind, 0, 0, 0, span, 0);
}

static inline void statement(struct routine *r, unsigned flag, uint64_t address, uint32_t root)
{
    put(&r->statements, 1, flag);
    put(&r->statements, 8, address);
    put(&r->statements, 4, root);
}

static inline void block(struct routine *r, unsigned statements, enum terminator terminator,
                         uint32_t root, uint32_t taken, uint32_t next)
{
    put(&r->blocks, 2, statements);
    put(&r->blocks, 1, terminator);
    put(&r->blocks, 1, 0);
    put(&r->blocks, 8, 0);
    put(&r->blocks, 4, root);
    put(&r->blocks, 4, taken);
    put(&r->blocks, 4, next);
}

static inline void switch_case(struct routine *r, int64_t value, uint32_t target)
{
    put(&r->blocks, 8, (uint64_t)value);
    put(&r->blocks, 4, target);
}

static inline void finish(struct routine *r, struct made *file)
{
    const struct made *bodies[6];
    bodies[0] = &r->names;
    bodies[1] = &r->types;
    bodies[2] = &r->head;
    bodies[3] = &r->nodes;
    bodies[4] = &r->statements;
    bodies[5] = &r->blocks;
    put_file(file, bodies, 6);
}

/* ---- Worlds and calls */

/* The three bodies. */
struct world {
    struct made names, symbols, regions;
};

static inline void symbol(struct world *w, unsigned name, unsigned size, uint64_t address)
{
    put(&w->symbols, 2, name);
    put(&w->symbols, 1, size);
    put(&w->symbols, 8, address);
}

static inline void region(struct world *w, uint64_t address, const void *bytes, uint32_t length)
{
    put(&w->regions, 8, address);
    put(&w->regions, 4, length);
    put_bytes(&w->regions, bytes, length);
}

static inline void finish_world(struct world *w, struct made *file)
{
    const struct made *bodies[3];
    bodies[0] = &w->names;
    bodies[1] = &w->symbols;
    bodies[2] = &w->regions;
    put_file(file, bodies, 3);
}

/* A world that knows nothing. */
static inline void empty_world(struct made *file)
{
    size_t i;
    file->length = 0;
    put(file, 2, 3);
    for (i = 0; i < 3; i++) {
        put(file, 2, 14);
        put(file, 2, 0);
    }
}

static inline void make_call(struct made *file, uint32_t steps, uint32_t depth,
                             const uint64_t *arguments, size_t count)
{
    size_t i;
    file->length = 0;
    put(file, 2, 1);
    put(file, 2, 6);
    put(file, 2, 8 + 8 * count);
    put(file, 4, steps);
    put(file, 4, depth);
    for (i = 0; i < count; i++)
        put(file, 8, arguments[i]);
}

#endif
