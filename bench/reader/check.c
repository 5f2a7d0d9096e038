/* A plain check of the same files, without proofs: how fast good C is at the same work.
 *
 * It gives the number by which the files are refused, and the node where one is. It reads no byte
 * outside them, whatever they hold, and presumes a little-endian machine. */
#include <stdbool.h>
#include <stdint.h>
#include <string.h>

#include "check.h"
#include "files.h"

enum {
    LONGEST_FILE = 65535, TEXTS = 512, LONGEST_TEXT = 64, PARAMETERS = 16, ARGUMENTS = 16,
    CHAIN = 64, NODES = LONGEST_FILE / sizeof(struct node), MOST_STEPS = 1000000, MOST_DEPTH = 255,
};

/* ---- Tables */

/* The bodies of a file, if they lie back to back from the table to the file's end. */
static bool read_table(struct bytes file, struct bytes *bodies, size_t count)
{
    size_t i, end = 2 + 4 * count;
    if (file.length > LONGEST_FILE || file.length < end || number_at(file.first, 2) != count)
        return false;
    for (i = 0; i < count; i++) {
        const uint8_t *pair = file.first + 2 + 4 * i;
        size_t length = number_at(pair + 2, 2);
        if (number_at(pair, 2) != end || length > file.length - end)
            return false;
        bodies[i] = (struct bytes){ file.first + end, length };
        end += length;
    }
    return end == file.length;
}

/* ---- Names and types */

#define EVERY(byte) (UINT64_C(0x0101010101010101) * (byte))

/* The high bit of each byte under the lowest or over 0x7e. A sum carries into the next byte only
 * where a byte is over 0x7f, which then is told by its own bit. */
static inline uint64_t outside(uint64_t word, uint8_t lowest)
{
    return (word | (word + EVERY(1)) | ~(word + EVERY(0x80 - lowest))) & EVERY(0x80);
}

/* Whether no byte of a text is outside. The last word may begin before the text: the table of the
 * file stands there. */
static inline bool is_plain(const uint8_t *text, size_t length, uint8_t lowest)
{
    uint64_t last = outside(number_at(text + length - 8, 8), lowest);
    size_t at;
    for (at = 0; at + 8 < length; at += 8)
        if (outside(number_at(text + at, 8), lowest) != 0)
            return false;
    if (length < 8)
        last = last >> 8 >> (56 - 8 * length);
    return last == 0;
}

static inline bool text_ok(const uint8_t *at, const uint8_t *last, uint8_t shortest, uint8_t lowest)
{
    size_t length = *at;
    return length >= shortest && length <= LONGEST_TEXT && length < (size_t)(last - at)
           && is_plain(at + 1, length, lowest);
}

/* The first eight bytes of a name as a number by which names are ordered; those it lacks are 0. */
static inline uint64_t beginning(const uint8_t *name)
{
    size_t length = *name;
    if (length >= 8)
        return __builtin_bswap64(number_at(name + 1, 8));
    return __builtin_bswap64(number_at(name + length - 7, 8) >> (64 - 8 * length));
}

static bool ascends(const uint8_t *a, const uint8_t *b)
{
    int order = memcmp(a + 1, b + 1, *a < *b ? *a : *b);
    return order < 0 || (order == 0 && *a < *b);
}

static bool read_names(struct bytes body, size_t *count)
{
    const uint8_t *at = body.first, *last = at + body.length, *earlier = at;
    uint64_t before = 0, begins;
    size_t n;
    for (n = 0; at < last; n++) {
        if (n == TEXTS || !text_ok(at, last, 1, 0x21))
            return false;
        begins = beginning(at);
        if (begins < before || (begins == before && !ascends(earlier, at)))
            return false;
        before = begins;
        earlier = at;
        at += *at + 1u;
    }
    *count = n;
    return true;
}

static bool read_types(struct bytes body, size_t *count)
{
    const uint8_t *at = body.first, *last = at + body.length;
    size_t n;
    for (n = 0; at < last; n++) {
        if (n == TEXTS || !text_ok(at, last, 0, 0x20))
            return false;
        at += *at + 1u;
    }
    *count = n;
    return true;
}

/* ---- The head */

struct PACKED head {
    uint16_t name;
    uint64_t address;
    uint16_t type;
    uint8_t parameters;
};

struct PACKED declared {
    uint16_t name, type;
};

static bool head_ok(struct bytes body, size_t names, size_t types)
{
    const struct head *head = (const struct head *)body.first;
    const struct declared *declared = (const struct declared *)(head + 1);
    size_t i, count = (body.length - sizeof *head) / sizeof *declared;
    if (body.length < sizeof *head || (body.length - sizeof *head) % sizeof *declared != 0)
        return false;
    if (head->name >= names || head->type >= types || head->parameters > PARAMETERS
        || head->parameters > count)
        return false;
    for (i = 0; i < count; i++)
        if (declared[i].name >= names || declared[i].type >= types)
            return false;
    return true;
}

/* ---- The fields of nodes */

/* What a kind allows. Kind, flag, ref and width are one number, the kind lowest: at most one of
 * the others has a range, so that it and all above it are held by one comparison. */
struct rule {
    uint64_t zero;  /* the bits below the one with a range */
    uint64_t least; /* the least number */
    uint64_t count; /* how many numbers from there on */
    uint64_t value; /* the bits of the value that are 0 */
};

#define FLAG(n) ((uint64_t)(n) << 8)
#define REF(n) ((uint64_t)(n) << 16)
#define WIDTH(n) ((uint64_t)(n) << 32)

#define NO_VALUE UINT64_MAX
#define NO_FIELD { 0, 0, FLAG(1), NO_VALUE }
#define WITH_REF(value) { FLAG(0xff), 0, REF(0), value }

/* How many names and types a routine has is put in later. */
static const struct rule general_rules[KINDS] = {
    [CONSTANT] = { FLAG(0xff) | REF(0xffff), WIDTH(1), WIDTH(8), 0 },
    [VAR] = WITH_REF(NO_VALUE),
    [REGISTER] = { 0, 0, UINT64_MAX, 0 },
    [STRING_LITERAL] = NO_FIELD,
    [FUNCTION_NAME] = WITH_REF(0),
    [CONDITION_TRUE] = NO_FIELD,
    [CONDITION_FALSE] = NO_FIELD,
    [CONSTANT_CONDITION] = { 0, 0, FLAG(2), NO_VALUE },
    [CAST] = WITH_REF(NO_VALUE),
    [DEREF] = NO_FIELD,
    [ADDRESS_OF] = NO_FIELD,
    [TERNARY] = NO_FIELD,
    [BINARY] = { 0, 0, FLAG(18), NO_VALUE },
    [ASSIGN] = NO_FIELD,
    [CALL] = NO_FIELD,
    [INTRINSIC] = WITH_REF(NO_VALUE),
    [RETURN] = NO_FIELD,
    [STRUCT_INIT] = NO_FIELD,
    [FIELD] = WITH_REF(0),
    [PLAIN] = NO_FIELD,
};

static void make_rules(struct rule *rules, size_t names, size_t types)
{
    memcpy(rules, general_rules, sizeof general_rules);
    rules[VAR].count = rules[FUNCTION_NAME].count = rules[INTRINSIC].count = REF(names);
    rules[CAST].count = rules[FIELD].count = REF(types);
}

static inline bool node_ok(const struct rule *rules, const struct node *node)
{
    uint64_t fields = number_at(&node->kind, 8);
    const struct rule *rule;
    if (node->kind >= KINDS)
        return false;
    rule = &rules[node->kind];
    return (fields & rule->zero) == 0 && fields - rule->least < rule->count
           && (node->value & rule->value) == 0;
}

/* The lowest faulty node, or the count of nodes. */
static uint32_t first_faulty(const struct node *nodes, uint32_t count, size_t names, size_t types)
{
    struct rule rules[KINDS];
    uint32_t k;
    make_rules(rules, names, types);
    for (k = 0; k < count; k++)
        if (!node_ok(rules, &nodes[k]))
            break;
    return k;
}

/* The number by which a faulty node is refused: 31 where kind and what the kind bounds are good. */
static uint32_t fault_of(const struct node *node, size_t names, size_t types)
{
    switch (node->kind) {
    case CONSTANT: return node->width - 1 < 8 ? 31 : 30;
    case VAR: case FUNCTION_NAME: case INTRINSIC: return node->ref < names ? 31 : 30;
    case CAST: case FIELD: return node->ref < types ? 31 : 30;
    case CONSTANT_CONDITION: return node->flag < 2 ? 31 : 30;
    case BINARY: return node->flag < 18 ? 31 : 30;
    default: return node->kind < KINDS ? 31 : 5;
    }
}

/* ---- Trees */

enum { OTHER = 4 };

/* How many children a kind has, or OTHER where it is no one number, or the node is a field. */
static const uint8_t arities[KINDS] = {
    [CAST] = 1, [DEREF] = 1, [ADDRESS_OF] = 1, [TERNARY] = 3, [BINARY] = 2, [ASSIGN] = 2,
    [CALL] = OTHER, [INTRINSIC] = OTHER, [RETURN] = OTHER, [STRUCT_INIT] = OTHER, [FIELD] = OTHER,
};

/* The nodes are read from the last to the first: a node finds the trees behind it, and takes the
 * nearest of them as its children. */
struct forest {
    const struct node *nodes;
    uint32_t count;
    /* Where the trees behind a node begin, the nearest last, and before them the end of the nodes.
     * First stand numbers that are no place, for a node that takes more trees than there are. */
    int16_t starts[OTHER - 1 + 1 + NODES];
    uint32_t fields, placed; /* all fields, and those under a StructInit */
};

/* Whether the trees after a place in the starts, as far as the nearest, are all fields. */
static bool are_fields(struct forest *f, const int16_t *after, const int16_t *nearest)
{
    f->placed += (uint32_t)(nearest - after);
    while (++after <= nearest)
        if (f->nodes[*after].kind != FIELD)
            return false;
    return true;
}

/* Whether those trees may be the children of a node. */
static bool children_ok(struct forest *f, uint8_t kind, const int16_t *after,
                        const int16_t *nearest)
{
    size_t count = (size_t)(nearest - after);
    switch (kind) {
    case CALL: return count - 1 <= ARGUMENTS;
    case RETURN: return count <= 1;
    case STRUCT_INIT: return are_fields(f, after, nearest);
    case FIELD: f->fields++; return count == 1;
    default: return true;
    }
}

/* Where in the starts the first tree stands that a node leaves out, by its span; NULL if what it
 * takes may not be its children. */
static int16_t *after_span(struct forest *f, uint32_t k, int16_t *nearest)
{
    const struct node *node = &f->nodes[k];
    int16_t *after = nearest;
    if (node->span > f->count - k)
        return NULL;
    while (*after < (int32_t)(k + node->span))
        after--;
    return children_ok(f, node->kind, after, nearest) ? after : NULL;
}

/* Puts each node before its children; gives the nearest of the starts, NULL for a wrong tree. */
static const int16_t *grow(struct forest *f)
{
    int16_t *nearest = f->starts + OTHER - 1;
    uint32_t k;
    for (k = f->count; k-- > 0;) {
        uint8_t arity = arities[f->nodes[k].kind];
        int16_t *after = arity != OTHER ? nearest - arity : after_span(f, k, nearest);
        if (after == NULL || *after - (int64_t)k != f->nodes[k].span)
            return NULL;
        nearest = after + 1;
        *nearest = (int16_t)k;
    }
    return nearest;
}

/* The span of the largest tree that no node has taken. */
static int largest(const struct forest *f, const int16_t *nearest)
{
    const int16_t *start;
    int most = 0;
    for (start = f->starts + OTHER - 1; start < nearest; start++)
        if (start[0] - start[1] > most)
            most = start[0] - start[1];
    return most;
}

/* How many trees end at each place. */
static void count_ends(const struct node *nodes, uint32_t count, uint16_t *ends)
{
    uint32_t k;
    memset(ends, 0, sizeof *ends * (count + 1));
    for (k = 0; k < count; k++)
        ends[k + nodes[k].span]++;
}

/* The chain to a node has as many nodes as trees begin there or before and end behind it. */
static bool chains_ok(const struct forest *f)
{
    uint16_t ends[NODES + 1];
    uint32_t k, length = 0;
    count_ends(f->nodes, f->count, ends);
    for (k = 0; k < f->count; k++) {
        length += 1u - ends[k];
        if (length > CHAIN)
            return false;
    }
    return true;
}

/* Where no tree has more nodes than a chain may have, no chain has. */
static bool trees_ok(struct forest *f)
{
    const int16_t *nearest;
    f->fields = f->placed = 0;
    memset(f->starts, -1, sizeof *f->starts * (OTHER - 1));
    f->starts[OTHER - 1] = (int16_t)f->count;
    nearest = grow(f);
    if (nearest == NULL || f->fields != f->placed)
        return false;
    return largest(f, nearest) <= CHAIN || chains_ok(f);
}

/* ---- Statements and blocks */

static inline bool is_root(const struct forest *f, uint32_t k)
{
    return k < f->count && f->nodes[k].kind != FIELD;
}

static inline bool address_ok(uint8_t flag, uint64_t address)
{
    return flag <= 1 && (address & (flag - UINT64_C(1))) == 0;
}

static bool statements_ok(const struct forest *f, struct bytes body)
{
    const struct statement *at = (const struct statement *)body.first;
    const struct statement *last = at + body.length / sizeof *at;
    if (body.length % sizeof *at != 0)
        return false;
    for (; at < last; at++)
        if (!address_ok(at->flag, at->address) || !is_root(f, at->root))
            return false;
    return true;
}

static inline bool block_ok(const struct forest *f, const struct block *block)
{
    switch (block->terminator) {
    case ENDS:
        return (block->flag | block->address | block->root | block->taken | block->next) == 0;
    case GOTO:
        return (block->flag | block->address | block->root | block->next) == 0;
    case BRANCH:
        return address_ok(block->flag, block->address) && is_root(f, block->root);
    case SWITCH:
        return address_ok(block->flag, block->address) && is_root(f, block->root)
               && block->next == 0;
    default:
        return false;
    }
}

/* Whether the blocks are good and take so many statements. */
static bool blocks_ok(const struct forest *f, struct bytes body, size_t statements)
{
    size_t at = 0, dealt = 0;
    while (at < body.length) {
        const struct block *block = (const struct block *)(body.first + at);
        if (body.length - at < sizeof *block || !block_ok(f, block))
            return false;
        dealt += block->statements;
        at += sizeof *block;
        if (block->terminator != SWITCH)
            continue;
        if (block->taken > (body.length - at) / sizeof(struct choice))
            return false;
        at += block->taken * sizeof(struct choice);
    }
    return dealt == statements;
}

/* ---- The three files */

static inline struct refusal by(uint32_t number)
{
    return (struct refusal){ number, 0 };
}

static struct refusal check_routine(struct bytes file)
{
    struct bytes bodies[6];
    struct forest forest;
    size_t names, types;
    uint32_t faulty;
    if (!read_table(file, bodies, 6))
        return by(1);
    if (!read_names(bodies[0], &names))
        return by(2);
    if (!read_types(bodies[1], &types))
        return by(3);
    if (!head_ok(bodies[2], names, types))
        return by(4);
    forest.nodes = (const struct node *)bodies[3].first;
    forest.count = bodies[3].length / sizeof(struct node);
    faulty = first_faulty(forest.nodes, forest.count, names, types);
    if (faulty < forest.count)
        return (struct refusal){ fault_of(&forest.nodes[faulty], names, types), faulty };
    if (bodies[3].length % sizeof(struct node) != 0 || !trees_ok(&forest))
        return by(6);
    if (!statements_ok(&forest, bodies[4])
        || !blocks_ok(&forest, bodies[5], bodies[4].length / sizeof(struct statement)))
        return by(7);
    return by(0);
}

static bool symbols_ok(struct bytes body, size_t names)
{
    const struct symbol *symbols = (const struct symbol *)body.first;
    size_t i, count = body.length / sizeof *symbols, least = 0;
    if (body.length % sizeof *symbols != 0)
        return false;
    for (i = 0; i < count; i++) {
        if (symbols[i].name < least || symbols[i].name >= names)
            return false;
        least = symbols[i].name + 1u;
    }
    return true;
}

struct PACKED region_head {
    uint64_t address;
    uint32_t length;
};

/* A region that ends at 2^64 leaves no address to the next. */
static bool regions_ok(struct bytes body)
{
    const uint8_t *at = body.first;
    size_t left = body.length;
    uint64_t least = 0;
    bool full = false;
    while (left > 0) {
        const struct region_head *head = (const struct region_head *)at;
        if (left < sizeof *head || full || head->address < least)
            return false;
        left -= sizeof *head;
        if (head->length == 0 || head->length > left
            || head->address + (head->length - 1) < head->address)
            return false;
        least = head->address + head->length;
        full = least == 0;
        left -= head->length;
        at += sizeof *head + head->length;
    }
    return true;
}

static bool world_ok(struct bytes file)
{
    struct bytes bodies[3];
    size_t names;
    return read_table(file, bodies, 3) && read_names(bodies[0], &names)
           && symbols_ok(bodies[1], names) && regions_ok(bodies[2]);
}

struct PACKED limits {
    uint32_t steps, depth;
};

static bool call_ok(struct bytes file)
{
    struct bytes body;
    const struct limits *limits;
    if (!read_table(file, &body, 1) || body.length % 8 != 0 || body.length < sizeof *limits
        || body.length > sizeof *limits + 8 * ARGUMENTS)
        return false;
    limits = (const struct limits *)body.first;
    return limits->steps <= MOST_STEPS && limits->depth <= MOST_DEPTH;
}

struct refusal files_check(const uint8_t *routine, size_t routine_length, const uint8_t *world,
                           size_t world_length, const uint8_t *call, size_t call_length)
{
    struct refusal refusal = check_routine((struct bytes){ routine, routine_length });
    if (refusal.number != 0)
        return refusal;
    if (!world_ok((struct bytes){ world, world_length }))
        return by(8);
    return by(call_ok((struct bytes){ call, call_length }) ? 0 : 9);
}
