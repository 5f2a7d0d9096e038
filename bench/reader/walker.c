/* A plain walker of the same files, without proofs: how fast good C is at the same work.
 *
 * It reads the three files as they lie and writes the whole record, in one pass. It takes the files
 * for well formed and checks nothing in them: no table, no name, no node, no root. It looks only
 * whether the record and the written addresses have room; where the record has none the run goes
 * on, since too many addresses come first. It presumes a little-endian machine. */
#include <setjmp.h>
#include <stdbool.h>
#include <stdint.h>
#include <stdlib.h>
#include <string.h>

#include "files.h"
#include "walker.h"

enum {
    NAMES = 512, BLOCKS = 2731, REGIONS = 5042, ARGUMENTS = 16,
    ADDRESSES = 4096, PAGES = ADDRESSES, SLOTS = 16384, PAGE = 64,
    PAIRS = 48, STOP = 39, COUNTS = 12, STEPS = PAIRS + STOP + COUNTS, ASIDE = 256,
};

/* ---- Values */

/* A type is its width in bits and its sign; a value's type tells also whether it is known. They are
 * one number, so that a value is two. */
typedef uint64_t ctype;

#define SIGNED ((uint64_t)1 << 32)
#define KNOWN ((uint64_t)1 << 33)

enum { WORD = 64, BYTE = 8 };

#define INT64 (WORD | SIGNED)

/* The number is 0 where it is not known. */
struct val {
    uint64_t number;
    ctype type;
};

/* Widths of known values are 1 to 64, here and in what follows. */
static inline uint64_t mask(uint32_t bits)
{
    return UINT64_MAX >> (-bits & 63);
}

static inline int64_t extended(uint64_t number, uint32_t bits)
{
    return (int64_t)(number << (-bits & 63)) >> (-bits & 63);
}

static inline struct val known(uint64_t number, ctype type)
{
    return (struct val){ number & mask((uint32_t)type), type | KNOWN };
}

static inline struct val unknown(ctype type)
{
    return (struct val){ 0, type };
}

static inline struct val truth(bool holds)
{
    return (struct val){ holds, BYTE | KNOWN };
}

/* The number of a value of the one width, in the other. */
static inline uint64_t widened(struct val v, uint32_t bits)
{
    uint64_t wide = v.type & SIGNED ? (uint64_t)extended(v.number, (uint32_t)v.type) : v.number;
    return wide & mask(bits);
}

static inline struct val cast(struct val v, ctype type)
{
    return (struct val){ widened(v, (uint32_t)type), type | (v.type & KNOWN) };
}

/* ---- The record's parts as they are written */

struct PACKED stored_val {
    uint8_t known, is_signed;
    uint32_t bits;
    uint64_t number;
};

struct PACKED step {
    uint8_t flag;
    uint64_t address;
    uint32_t block, statement;
    uint8_t wrote;
    uint16_t name;
    struct stored_val value;
    uint8_t note;
    uint64_t note_address;
    uint32_t fields;
    struct stored_val note_value;
    uint16_t taken;
};

struct PACKED stop {
    uint8_t kind, reason, flag;
    uint64_t address, number;
    uint32_t node;
    uint16_t name;
    struct stored_val value;
};

struct PACKED told {
    uint8_t kind;
    uint16_t name;
    uint8_t flag;
    uint64_t number;
};

static inline struct stored_val stored(struct val v)
{
    return (struct stored_val){ (v.type & KNOWN) != 0, (v.type & SIGNED) != 0, (uint32_t)v.type,
                                v.number };
}

/* ---- The machine */

struct variable {
    struct val value;
    bool set, declared;
    ctype type, first; /* of the last and of the first declaration */
    int16_t symbol;          /* the world's symbol of that name, or -1 */
};

struct placed {
    const struct block *block;
    uint32_t first; /* its first statement */
};

struct region {
    uint64_t address;
    const uint8_t *bytes;
    uint32_t length;
};

/* 64 addresses, of which those with a bit are written. */
struct page {
    uint64_t number, present;
    uint8_t bytes[PAGE];
};

struct machine {
    const struct node *nodes;
    const struct statement *statements;
    const struct symbol *symbols;
    struct variable variables[NAMES];
    ctype types[NAMES], pointees[NAMES]; /* a pointee is 0 where the type is no pointer's */
    struct placed blocks[BLOCKS];
    struct region regions[REGIONS];
    size_t name_count, block_count, region_count, near_region;
    uint32_t limit, depth, left;
    ctype return_type; /* 0 for void */
    int32_t unreachable, halted; /* the names of the two markers, or -1 */
    /* what is written to memory */
    struct page pages[PAGES];
    uint16_t slots[SLOTS];
    size_t page_count, written; /* addresses */
    /* the note that an evaluation leaves for its statement */
    uint8_t pending;
    uint16_t taken_count, taken[ARGUMENTS];
    /* what is written out */
    uint8_t *record;
    size_t capacity, at;
    uint8_t *questions;
    size_t asked, room;
    uint32_t entered, recorded;
    struct step *step; /* in the record or aside, while a statement is run */
    struct stop stop;
    /* a step and a question that the record may have no room for */
    uint8_t aside_step[ASIDE], aside_question[ASIDE];
    jmp_buf ended;
};

static struct machine machine;

_Noreturn static void end(struct machine *m, int how)
{
    longjmp(m->ended, how);
}

enum { STOPPED = 1, MANY_ADDRESSES = 2 };

_Noreturn static void fail(struct machine *m, uint8_t reason, uint64_t number, uint32_t node)
{
    m->stop.kind = 3;
    m->stop.reason = reason;
    m->stop.number = number;
    m->stop.node = node;
    end(m, STOPPED);
}

/* ---- Questions */

/* More room for questions, as long as the record may hold them. */
static uint8_t *more_room(struct machine *m, size_t length)
{
    if (m->asked + length > m->capacity)
        return m->aside_question;
    m->room = 2 * m->room + 65536;
    m->questions = realloc(m->questions, m->room);
    if (m->questions == NULL)
        abort();
    return m->questions + m->asked;
}

static inline uint8_t *ask(struct machine *m, size_t length)
{
    uint8_t *at;
    if (m->asked + length > m->room)
        at = more_room(m, length);
    else
        at = m->questions + m->asked;
    m->asked += length;
    return at;
}

static void tell(struct machine *m, uint8_t kind, uint16_t name, bool flag, uint64_t number)
{
    struct told told = { kind, name, flag, flag ? number : 0 };
    memcpy(ask(m, sizeof told), &told, sizeof told);
}

/* The symbol of a name, after the question for its address; NULL if there is none. */
static const struct symbol *address_of(struct machine *m, uint16_t name)
{
    int16_t number = m->variables[name].symbol;
    const struct symbol *symbol = number < 0 ? NULL : &m->symbols[number];
    tell(m, 1, name, symbol != NULL, symbol != NULL ? symbol->address : 0);
    return symbol;
}

/* A symbol's width in bits, or 0 where it is none of the four. */
static uint32_t size_of(struct machine *m, uint16_t name, const struct symbol *symbol)
{
    uint8_t size = symbol->size;
    tell(m, 2, name, size != 0, size);
    return size == 1 || size == 2 || size == 4 || size == 8 ? 8u * size : 0;
}

/* The last region that begins at an address or before it. */
static const struct region *region_of(struct machine *m, uint64_t address)
{
    size_t low = 0, high = m->region_count;
    const struct region *near = &m->regions[m->near_region];
    if (high == 0 || m->regions[0].address > address)
        return NULL;
    if (address - near->address < near->length)
        return near;
    while (high - low > 1) {
        size_t middle = (low + high) / 2;
        if (m->regions[middle].address <= address)
            low = middle;
        else
            high = middle;
    }
    m->near_region = low;
    return &m->regions[low];
}

/* The unbroken bytes from an address on; how many there are. */
static size_t image(struct machine *m, uint64_t address, size_t length, uint8_t *bytes)
{
    const struct region *region = region_of(m, address), *last = m->regions + m->region_count;
    size_t found = 0;
    while (region != NULL && region < last && address + found - region->address < region->length) {
        uint64_t offset = address + found - region->address;
        size_t here = region->length - offset;
        if (here > length - found)
            here = length - found;
        memcpy(bytes + found, region->bytes + offset, here);
        found += here;
        if (found == length || address + found == 0)
            return found;
        region++;
    }
    return found;
}

/* ---- Memory: pages found by a hash */

static inline size_t slot_of(uint64_t number)
{
    return (number * 0x9e3779b97f4a7c15u) >> 50;
}

static struct page *find_page(struct machine *m, uint64_t number)
{
    size_t slot = slot_of(number);
    while (m->slots[slot] != 0) {
        struct page *page = &m->pages[m->slots[slot] - 1];
        if (page->number == number)
            return page;
        slot = (slot + 1) % SLOTS;
    }
    return NULL;
}

static struct page *make_page(struct machine *m, uint64_t number)
{
    struct page *page = find_page(m, number);
    size_t slot = slot_of(number);
    if (page != NULL)
        return page;
    if (m->page_count == PAGES)
        end(m, MANY_ADDRESSES);
    while (m->slots[slot] != 0)
        slot = (slot + 1) % SLOTS;
    page = &m->pages[m->page_count++];
    m->slots[slot] = (uint16_t)m->page_count;
    page->number = number;
    page->present = 0;
    return page;
}

/* So many addresses of a page, from an offset on, are written. */
static inline void mark(struct machine *m, struct page *page, size_t offset, size_t count)
{
    uint64_t bits = mask((uint32_t)count) << offset, fresh = bits & ~page->present;
    if (fresh == 0)
        return;
    page->present |= bits;
    m->written += fresh == bits ? count : (size_t)__builtin_popcountll(fresh);
    if (m->written > ADDRESSES)
        end(m, MANY_ADDRESSES);
}

static void store(struct machine *m, uint64_t address, struct val v)
{
    size_t done = 0, length = (uint32_t)v.type / 8;
    if (!(v.type & KNOWN))
        fail(m, 6, address, 0);
    while (done < length) {
        uint64_t at = address + done;
        size_t offset = at % PAGE, here = PAGE - offset;
        struct page *page = make_page(m, at / PAGE);
        if (here > length - done)
            here = length - done;
        memcpy(page->bytes + offset, (uint8_t *)&v.number + done, here);
        mark(m, page, offset, here);
        done += here;
    }
}

/* The bytes of one page over those of the image; how many of them there are without a gap. */
static size_t overlaid(const struct page *page, size_t offset, size_t length, size_t imaged,
                       uint8_t *bytes)
{
    size_t i;
    for (i = 0; i < length; i++) {
        if (page != NULL && page->present >> (offset + i) & 1)
            bytes[i] = page->bytes[offset + i];
        else if (i >= imaged)
            return i;
    }
    return length;
}

static struct val load(struct machine *m, uint64_t address, ctype type)
{
    uint8_t bytes[8] = { 0 }, *asked;
    size_t length = (uint32_t)type / 8, count = image(m, address, length, bytes), done = 0;
    asked = ask(m, 11 + count);
    asked[0] = 3;
    memcpy(asked + 1, &address, 8);
    asked[9] = (uint8_t)length;
    asked[10] = (uint8_t)count;
    memcpy(asked + 11, bytes, count);
    if (m->page_count == 0)
        done = count;
    while (m->page_count != 0 && done < length) {
        uint64_t at = address + done;
        size_t offset = at % PAGE, here = PAGE - offset, got;
        if (here > length - done)
            here = length - done;
        got = overlaid(find_page(m, at / PAGE), offset, here, count > done ? count - done : 0,
                       bytes + done);
        done += got;
        if (got < here)
            break;
    }
    if (done < length)
        return unknown(type);
    return known(number_at(bytes, 8), type);
}

/* ---- Operators */

enum operator_number {
    ADD, SUB, MUL, DIV, MOD, AND, OR, XOR, SHL, SHR, EQUAL, NOT_EQUAL, LESS, LESS_EQUAL, GREATER,
    GREATER_EQUAL, LOGICAL_AND, LOGICAL_OR
};

static struct val shifted(uint8_t op, struct val l, struct val r)
{
    uint32_t bits = (uint32_t)l.type, count = (uint32_t)r.number & (bits - 1);
    if (!(l.type & r.type & KNOWN))
        return unknown(l.type & ~KNOWN);
    if (op == SHL)
        return known(l.number << count, l.type);
    if (l.type & SIGNED)
        return known((uint64_t)(extended(l.number, bits) >> count), l.type);
    return known(l.number >> count, l.type);
}

static struct val divided(struct machine *m, uint8_t op, uint64_t a, uint64_t b, ctype type)
{
    int64_t sa = extended(a, (uint32_t)type), sb = extended(b, (uint32_t)type);
    if (b == 0)
        fail(m, 9, 0, 0);
    if (!(type & SIGNED))
        return known(op == DIV ? a / b : a % b, type);
    if (sb == -1)
        return known(op == DIV ? 0 - a : 0, type);
    return known((uint64_t)(op == DIV ? sa / sb : sa % sb), type);
}

static inline bool less(uint64_t a, uint64_t b, ctype type)
{
    return type & SIGNED ? extended(a, (uint32_t)type) < extended(b, (uint32_t)type) : a < b;
}

/* The wider one's type, and of equal widths a signed one if both are. */
static inline ctype common(ctype l, ctype r)
{
    uint32_t a = (uint32_t)l, b = (uint32_t)r;
    return (a > b ? l : a < b ? r : l & r) & ~KNOWN;
}

static struct val operate(struct machine *m, uint8_t op, struct val l, struct val r)
{
    ctype type = common(l.type, r.type);
    uint64_t a = widened(l, (uint32_t)type), b = widened(r, (uint32_t)type);
    if (op == SHL || op == SHR)
        return shifted(op, l, r);
    if (!(l.type & r.type & KNOWN))
        return unknown(op >= EQUAL ? BYTE | (type & SIGNED) : type);
    switch (op) {
    case ADD: return known(a + b, type);
    case SUB: return known(a - b, type);
    case MUL: return known(a * b, type);
    case DIV:
    case MOD: return divided(m, op, a, b, type);
    case AND: return known(a & b, type);
    case OR: return known(a | b, type);
    case XOR: return known(a ^ b, type);
    case EQUAL: return truth(a == b);
    case NOT_EQUAL: return truth(a != b);
    case LESS: return truth(less(a, b, type));
    case LESS_EQUAL: return truth(!less(b, a, type));
    case GREATER: return truth(less(b, a, type));
    case GREATER_EQUAL: return truth(!less(a, b, type));
    case LOGICAL_AND: return truth(a != 0 && b != 0);
    default: return truth(a != 0 || b != 0);
    }
}

/* ---- Expressions */

static struct val eval_other(struct machine *m, uint32_t n);
static struct val assign(struct machine *m, uint32_t n, struct step *step);

static inline uint32_t after(const struct machine *m, uint32_t n)
{
    return n + m->nodes[n].span;
}

/* Constants and variables that are set come most often, and call nothing. */
static inline struct val eval(struct machine *m, uint32_t n)
{
    const struct node *node = &m->nodes[n];
    if (node->kind == CONSTANT)
        return known(node->value, 8 * node->width | SIGNED);
    if (node->kind == VAR && m->variables[node->ref].set)
        return m->variables[node->ref].value;
    return eval_other(m, n);
}

/* A variable that is not set. */
static struct val unset(struct machine *m, uint16_t name)
{
    const struct variable *variable = &m->variables[name];
    const struct symbol *symbol;
    uint32_t bits;
    symbol = address_of(m, name);
    if (symbol == NULL)
        return unknown(variable->declared ? variable->type : INT64);
    bits = size_of(m, name, symbol);
    return bits == 0 ? unknown(INT64) : load(m, symbol->address, bits | SIGNED);
}

/* A pointer's address, and the type of what it points at. */
static struct val pointer(struct machine *m, uint32_t n, ctype *type)
{
    const struct node *node = &m->nodes[n];
    if (node->kind == CAST && m->pointees[node->ref] != 0) {
        *type = m->pointees[node->ref];
        return eval(m, n + 1);
    }
    *type = INT64;
    return eval(m, n);
}

static struct val deref(struct machine *m, uint32_t n)
{
    ctype type;
    struct val address = pointer(m, n + 1, &type);
    return address.type & KNOWN ? load(m, address.number, type) : unknown(type);
}

static void ask_call(struct machine *m, const struct node *callee, const struct val *values,
                     uint8_t count)
{
    uint8_t *at = ask(m, 17 + sizeof(struct stored_val) * count), i;
    const uint32_t depth = 1;
    at[0] = 4;
    memcpy(at + 1, &callee->ref, 2);
    memcpy(at + 3, &callee->value, 8);
    memcpy(at + 11, &depth, 4);
    at[15] = count;
    at += 16;
    for (i = 0; i < count; i++, at += sizeof(struct stored_val))
        *(struct stored_val *)at = stored(values[i]);
    *at = 0;
}

/* The locals whose addresses a call was given are unknown after it. */
static void take(struct machine *m, uint32_t argument)
{
    uint16_t name = m->nodes[argument + 1].ref;
    if (m->nodes[argument].kind != ADDRESS_OF || m->nodes[argument + 1].kind != VAR
        || !m->variables[name].declared)
        return;
    m->variables[name].value = unknown(m->variables[name].type);
    m->variables[name].set = true;
    m->taken[m->taken_count++] = name;
}

/* A call, which no world follows. */
static struct val call(struct machine *m, uint32_t n)
{
    uint32_t first = after(m, n + 1), last = after(m, n), child;
    struct val values[ARGUMENTS];
    uint8_t count = 0;
    for (child = first; child < last; child = after(m, child))
        values[count++] = eval(m, child);
    if (m->nodes[n + 1].kind == FUNCTION_NAME && m->depth > 0)
        ask_call(m, &m->nodes[n + 1], values, count);
    m->taken_count = 0;
    for (child = first; child < last; child = after(m, child))
        take(m, child);
    m->pending = m->taken_count == 0 ? 4 : 5;
    return unknown(INT64);
}

static struct val intrinsic(struct machine *m, uint32_t n)
{
    uint32_t last = after(m, n), child;
    for (child = n + 1; child < last; child = after(m, child))
        eval(m, child);
    return unknown(INT64);
}

static struct val ternary(struct machine *m, uint32_t n)
{
    uint32_t second = after(m, n + 1);
    struct val x = eval(m, n + 1), y = eval(m, second), z = eval(m, after(m, second));
    if (!(x.type & KNOWN))
        return unknown(y.type & ~KNOWN);
    return x.number != 0 ? y : z;
}

static struct val address(struct machine *m, uint32_t target)
{
    const struct symbol *symbol = NULL;
    if (m->nodes[target].kind == VAR)
        symbol = address_of(m, m->nodes[target].ref);
    return symbol != NULL ? known(symbol->address, WORD) : unknown(WORD);
}

static struct val binary(struct machine *m, uint32_t n)
{
    struct val l = eval(m, n + 1), r = eval(m, after(m, n + 1));
    return operate(m, m->nodes[n].flag, l, r);
}

/* An Assign inside an expression: its step is not in the record. */
static struct val assigned(struct machine *m, uint32_t n)
{
    struct step aside;
    return assign(m, n, &aside);
}

static struct val eval_other(struct machine *m, uint32_t n)
{
    const struct node *node = &m->nodes[n];
    switch (node->kind) {
    case VAR: return unset(m, node->ref);
    case REGISTER: return unknown(node->width | SIGNED);
    case CONDITION_TRUE: return truth(true);
    case CONDITION_FALSE: return truth(false);
    case CONSTANT_CONDITION: return truth(node->flag);
    case CAST: return cast(eval(m, n + 1), m->types[node->ref]);
    case DEREF: return deref(m, n);
    case ADDRESS_OF: return address(m, n + 1);
    case TERNARY: return ternary(m, n);
    case BINARY: return binary(m, n);
    case ASSIGN: return assigned(m, n);
    case CALL: return call(m, n);
    case INTRINSIC: return intrinsic(m, n);
    case RETURN: return node->span > 1 ? eval(m, n + 1) : unknown(INT64);
    case PLAIN: return unknown(INT64);
    default: return unknown(WORD);
    }
}

/* ---- Statements */

static struct val write(struct machine *m, uint16_t name, struct val v, struct step *step)
{
    struct variable *variable = &m->variables[name];
    const struct symbol *symbol = variable->declared ? NULL : address_of(m, name);
    if (variable->declared)
        v = cast(v, variable->type);
    if (symbol != NULL) {
        uint32_t bits = size_of(m, name, symbol);
        m->stop.name = bits == 0 ? name : 0;
        if (bits == 0)
            fail(m, 7, 0, 0);
        v = cast(v, bits | (v.type & SIGNED));
        store(m, symbol->address, v);
    } else {
        variable->value = v;
        variable->set = true;
    }
    step->wrote = 1;
    step->name = name;
    step->value = stored(v);
    return v;
}

static struct val assign_struct(struct machine *m, uint32_t left, uint32_t right, struct step *step)
{
    uint32_t base = left + 1, last = after(m, right), child, count = 0;
    struct val address;
    if (m->nodes[left].kind != DEREF)
        fail(m, 4, 0, left);
    if (m->nodes[base].kind == CAST)
        base++;
    address = eval(m, base);
    if (!(address.type & KNOWN))
        fail(m, 5, 0, base);
    for (child = right + 1; child < last; child = after(m, child)) {
        struct val v = cast(eval(m, child + 1), m->types[m->nodes[child].ref]);
        store(m, address.number + m->nodes[child].value, v);
        count++;
    }
    step->note = 1;
    step->note_address = address.number;
    step->fields = count;
    return unknown(INT64);
}

static struct val assign(struct machine *m, uint32_t n, struct step *step)
{
    uint32_t left = n + 1, right = after(m, left);
    struct val v, address;
    ctype type;
    if (m->nodes[right].kind == STRUCT_INIT)
        return assign_struct(m, left, right, step);
    v = eval(m, right);
    if (m->nodes[left].kind == VAR)
        return write(m, m->nodes[left].ref, v, step);
    if (m->nodes[left].kind != DEREF)
        fail(m, 8, 0, left);
    address = pointer(m, left + 1, &type);
    if (!(address.type & KNOWN))
        fail(m, 5, 0, left + 1);
    v = cast(v, type);
    store(m, address.number, v);
    step->note = 2;
    step->note_address = address.number;
    step->note_value = stored(v);
    return unknown(INT64);
}

static void execute(struct machine *m, uint32_t n)
{
    uint8_t kind = m->nodes[n].kind;
    struct val v;
    if (kind == ASSIGN) {
        assign(m, n, m->step);
        return;
    }
    v = eval(m, n);
    if ((kind == CALL || kind == INTRINSIC) && !(v.type & KNOWN) && m->pending == 0)
        m->step->note = 3;
}

/* The note that an evaluation left for a step; gives how long the names are that it takes. */
static size_t put_note(struct machine *m, struct step *step)
{
    step->note = m->pending;
    if (m->pending != 5)
        return 0;
    step->taken = m->taken_count;
    memcpy(step + 1, m->taken, 2u * m->taken_count);
    return 2u * m->taken_count;
}

/* A step that was made aside goes into the record if there is room for it. */
static void keep_step(struct machine *m, size_t length)
{
    if (m->at + length <= m->capacity)
        memcpy(m->record + m->at, m->aside_step, length);
}

/* The step is in its place; what is left is the note. */
static void end_step(struct machine *m)
{
    struct step *step = m->step;
    size_t length = sizeof *step;
    m->step = NULL;
    if (m->pending != 0 && step->note == 0)
        length += put_note(m, step);
    if ((uint8_t *)step == m->aside_step)
        keep_step(m, length);
    m->at += length;
}

_Noreturn static void stop(struct machine *m, uint8_t kind, uint64_t number)
{
    m->stop.kind = kind;
    m->stop.number = number;
    end(m, STOPPED);
}

/* Where the run is, if it stops there. */
static inline void stand(struct machine *m, uint8_t flag, uint64_t address)
{
    m->stop.flag = flag;
    m->stop.address = address;
}

static void give(struct machine *m, uint32_t n)
{
    struct val v = unknown(0);
    if (m->nodes[n].span > 1)
        v = eval(m, n + 1);
    stand(m, 0, 0);
    if (m->nodes[n].span == 1)
        stop(m, 1, 0);
    m->stop.value = stored(m->return_type != 0 ? cast(v, m->return_type) : v);
    stop(m, 0, 0);
}

/* The markers that end a run. */
static void look_for_marker(struct machine *m, uint32_t n)
{
    const struct node *node = &m->nodes[n];
    if (node->ref == m->unreachable)
        stop(m, 6, 0);
    if (node->ref == m->halted && node->span == 2 && m->nodes[n + 1].kind == CONSTANT)
        stop(m, 7, m->nodes[n + 1].value);
}

static void run_statement(struct machine *m, uint32_t block, uint32_t number)
{
    const struct statement *statement = &m->statements[number];
    uint32_t root = statement->root;
    struct step *step = (struct step *)m->aside_step;
    if (m->at + sizeof *step + sizeof m->taken <= m->capacity)
        step = (struct step *)(m->record + m->at);
    memset(step, 0, sizeof *step);
    step->flag = statement->flag;
    step->address = statement->address;
    step->block = block;
    step->statement = number;
    stand(m, statement->flag, statement->address);
    m->step = step;
    m->pending = 0;
    m->recorded++;
    if (m->nodes[root].kind == RETURN)
        give(m, root);
    if (m->nodes[root].kind == INTRINSIC)
        look_for_marker(m, root);
    execute(m, root);
    end_step(m);
}

/* ---- The walk */

static inline void pay(struct machine *m)
{
    if (m->left == 0) {
        stand(m, 0, 0);
        stop(m, 2, m->limit);
    }
    m->left--;
}

/* A branch or a switch stands at its own address, else at the last statement's of its block. */
static void stand_at(struct machine *m, const struct placed *placed)
{
    const struct block *block = placed->block;
    const struct statement *last = &m->statements[placed->first + block->statements] - 1;
    if (block->flag || block->statements == 0)
        stand(m, block->flag, block->address);
    else
        stand(m, last->flag, last->address);
}

static uint32_t chosen(struct machine *m, const struct block *block, struct val v)
{
    const struct choice *choices = (const struct choice *)(block + 1);
    int64_t value = extended(v.number, (uint32_t)v.type);
    uint32_t i;
    if (!(v.type & KNOWN))
        fail(m, 2, 0, block->root);
    for (i = 0; i < block->taken; i++)
        if (choices[i].value == value)
            return choices[i].target;
    fail(m, 3, (uint64_t)value, 0);
}

static uint32_t terminate(struct machine *m, const struct placed *placed)
{
    const struct block *block = placed->block;
    struct val v;
    if (block->terminator == GOTO)
        return block->taken;
    if (block->terminator == ENDS) {
        stand(m, 0, 0);
        stop(m, 1, 0);
    }
    stand_at(m, placed);
    v = eval(m, block->root);
    if (block->terminator == SWITCH)
        return chosen(m, block, v);
    if (!(v.type & KNOWN))
        fail(m, 1, 0, block->root);
    return v.number != 0 ? block->taken : block->next;
}

_Noreturn static void walk(struct machine *m)
{
    uint32_t at = 0, i;
    if (m->block_count == 0)
        stop(m, 5, 0);
    while (at < m->block_count) {
        const struct placed *placed = &m->blocks[at];
        pay(m);
        m->entered++;
        for (i = 0; i < placed->block->statements; i++) {
            pay(m);
            run_statement(m, at, placed->first + i);
        }
        at = terminate(m, placed);
    }
    stand(m, 0, 0);
    stop(m, 4, at);
}

/* ---- Making ready */

static struct bytes body(const uint8_t *file, size_t which)
{
    const uint8_t *pair = file + 2 + 4 * which;
    return (struct bytes){ file + number_at(pair, 2), number_at(pair + 2, 2) };
}

static bool is(const uint8_t *text, size_t length, const char *word)
{
    return length == strlen(word) && memcmp(text, word, length) == 0;
}

/* The type of one word, or of two that are joined by a blank. */
static ctype type_of_base(const char *base, bool is_unsigned)
{
    const ctype sign = is_unsigned ? 0 : SIGNED;
    const struct {
        const char *word;
        ctype type;
    } words[] = {
        { "int", 32 | sign }, { "", 32 | sign }, { "char", 8 | sign }, { "short", 16 | sign },
        { "short int", 16 | sign }, { "_Bool", 8 }, { "bool", 8 }, { "size_t", 64 },
        { "uintptr_t", 64 }, { "uint64_t", 64 }, { "uint32_t", 32 }, { "uint16_t", 16 },
        { "uint8_t", 8 }, { "int64_t", 64 | SIGNED }, { "intptr_t", 64 | SIGNED },
        { "ssize_t", 64 | SIGNED }, { "int32_t", 32 | SIGNED }, { "int16_t", 16 | SIGNED },
        { "int8_t", 8 | SIGNED },
    };
    size_t i;
    for (i = 0; i < sizeof words / sizeof *words; i++)
        if (strcmp(words[i].word, base) == 0)
            return words[i].type;
    return WORD | sign;
}

static size_t trimmed(const uint8_t *text, size_t length)
{
    while (length > 0 && text[length - 1] == ' ')
        length--;
    return length;
}

static ctype type_of(const uint8_t *text, size_t length)
{
    char base[66] = "";
    size_t used = 0, at = 0;
    bool is_unsigned = false;
    length = trimmed(text, length);
    if (length > 0 && text[length - 1] == '*')
        return WORD;
    while (at < length) {
        const uint8_t *word = text + at;
        size_t n = 0;
        while (at + n < length && word[n] != ' ')
            n++;
        at += n + 1;
        if (is(word, n, "unsigned"))
            is_unsigned = true;
        else if (n > 0 && !is(word, n, "signed") && !is(word, n, "const")
                 && !is(word, n, "volatile")) {
            if (used > 0)
                base[used++] = ' ';
            memcpy(base + used, word, n);
            used += n;
        }
    }
    base[used] = 0;
    return type_of_base(base, is_unsigned);
}

static void read_types(struct machine *m, struct bytes types)
{
    size_t at, i = 0;
    for (at = 0; at < types.length; at += types.first[at] + 1u) {
        const uint8_t *text = types.first + at + 1;
        size_t length = trimmed(text, types.first[at]);
        m->types[i] = type_of(text, length);
        m->pointees[i] = length > 0 && text[length - 1] == '*' ? type_of(text, length - 1) : 0;
        i++;
    }
}

static int compared(const uint8_t *a, const uint8_t *b)
{
    int order = memcmp(a + 1, b + 1, *a < *b ? *a : *b);
    return order != 0 ? order : *a - *b;
}

/* Each name's symbol, by going through both sorted lists at once. */
static void read_names(struct machine *m, struct bytes names, const uint8_t *world)
{
    struct bytes known_names = body(world, 0), symbols = body(world, 1);
    size_t at, i = 0, s = 0, count = symbols.length / sizeof(struct symbol), here = 0, passed = 0;
    m->symbols = (const struct symbol *)symbols.first;
    m->unreachable = m->halted = -1;
    for (at = 0; at < names.length; at += names.first[at] + 1u) {
        const uint8_t *name = names.first + at;
        struct variable *variable = &m->variables[i];
        int order = -1;
        variable->set = variable->declared = false;
        variable->symbol = -1;
        if (is(name + 1, *name, "__builtin_unreachable"))
            m->unreachable = (int32_t)i;
        if (is(name + 1, *name, "__analysis_halted"))
            m->halted = (int32_t)i;
        while (s < count) {
            for (; passed < m->symbols[s].name; passed++)
                here += known_names.first[here] + 1u;
            order = compared(known_names.first + here, name);
            if (order >= 0)
                break;
            s++;
        }
        if (s < count && order == 0)
            variable->symbol = (int16_t)s;
        i++;
    }
    m->name_count = i;
}

/* A declared name; a parameter is set to what is given for it, if anything is. */
static void declare(struct variable *variable, ctype type, bool parameter, struct val given)
{
    if (!variable->declared)
        variable->first = type;
    variable->declared = true;
    variable->type = type;
    if (parameter) {
        variable->set = true;
        variable->value = cast(given, type);
    }
}

static void read_head(struct machine *m, const uint8_t *routine, const uint8_t *given, size_t count)
{
    struct bytes head = body(routine, 2), types = body(routine, 1);
    const uint8_t *at = head.first + 13, *last = head.first + head.length;
    size_t i, parameters = head.first[12], returned = number_at(head.first + 10, 2), place = 0;
    for (i = 0; i < returned; i++)
        place += types.first[place] + 1u;
    m->return_type = is(types.first + place + 1, types.first[place], "void") ? 0
                                                                             : m->types[returned];
    for (i = 0; at < last; i++, at += 4) {
        struct val v = unknown(WORD);
        if (i < parameters && i < count)
            v = known(number_at(given + 8 * i, 8), INT64);
        declare(&m->variables[number_at(at, 2)], m->types[number_at(at + 2, 2)], i < parameters, v);
    }
}

static void read_blocks(struct machine *m, struct bytes blocks)
{
    const uint8_t *at = blocks.first, *last = at + blocks.length;
    uint32_t dealt = 0;
    m->block_count = 0;
    while (at < last) {
        const struct block *block = (const struct block *)at;
        m->blocks[m->block_count++] = (struct placed){ block, dealt };
        dealt += block->statements;
        at += sizeof *block;
        if (block->terminator == SWITCH)
            at += sizeof(struct choice) * block->taken;
    }
}

static void read_regions(struct machine *m, struct bytes regions)
{
    const uint8_t *at = regions.first, *last = at + regions.length;
    m->region_count = m->near_region = 0;
    while (at < last) {
        uint32_t length = (uint32_t)number_at(at + 8, 4);
        m->regions[m->region_count++] = (struct region){ number_at(at, 8), at + 12, length };
        at += 12 + length;
    }
}

/* ---- The record */

/* The pages in the order of their numbers, by sorting digit after digit; gives where they are. */
static const uint16_t *sorted_pages(struct machine *m)
{
    static uint16_t first[PAGES], second[PAGES];
    uint16_t *from = first, *to = second, *other;
    size_t i, digit, ascends = 1, starts[257];
    for (i = 0; i < m->page_count; i++) {
        from[i] = (uint16_t)i;
        ascends &= i == 0 || m->pages[i - 1].number < m->pages[i].number;
    }
    for (digit = 0; digit < 8 && !ascends; digit++) {
        memset(starts, 0, sizeof starts);
        for (i = 0; i < m->page_count; i++)
            starts[(m->pages[i].number >> 8 * digit & 255) + 1]++;
        if (starts[(m->pages[0].number >> 8 * digit & 255) + 1] == m->page_count)
            continue;
        for (i = 1; i < 257; i++)
            starts[i] += starts[i - 1];
        for (i = 0; i < m->page_count; i++)
            to[starts[m->pages[from[i]].number >> 8 * digit & 255]++] = from[i];
        other = from;
        from = to;
        to = other;
    }
    return from;
}

static size_t put_variables(struct machine *m, uint8_t *to)
{
    uint8_t *at = to;
    size_t i;
    for (i = 0; i < m->name_count; i++) {
        const struct variable *variable = &m->variables[i];
        struct stored_val v = stored(variable->set ? variable->value : unknown(variable->first));
        uint16_t name = (uint16_t)i;
        if (!variable->set && !variable->declared)
            continue;
        memcpy(at, &name, 2);
        memcpy(at + 2, &v, sizeof v);
        at += 2 + sizeof v;
    }
    return (size_t)(at - to);
}

static size_t put_memory(struct machine *m, uint8_t *to)
{
    const uint16_t *order = sorted_pages(m);
    uint8_t *at = to;
    size_t i;
    for (i = 0; i < m->page_count; i++) {
        const struct page *page = &m->pages[order[i]];
        uint64_t present = page->present;
        for (; present != 0; present &= present - 1) {
            unsigned offset = (unsigned)__builtin_ctzll(present);
            uint64_t address = page->number * PAGE + offset;
            memcpy(at, &address, 8);
            at[8] = page->bytes[offset];
            at += 9;
        }
    }
    return (size_t)(at - to);
}

/* How many variables the record lists. */
static size_t listed(const struct machine *m)
{
    size_t i, count = 0;
    for (i = 0; i < m->name_count; i++)
        count += m->variables[i].set || m->variables[i].declared;
    return count;
}

/* Whether the record has room; the variables are counted only where that decides. */
static bool fits(const struct machine *m)
{
    size_t others = m->at + 9 * m->written + m->asked;
    return others + 16 * m->name_count <= m->capacity || others + 16 * listed(m) <= m->capacity;
}

/* The bodies after the steps, then what stands before them; gives the record's length. */
static uint32_t put_rest(struct machine *m)
{
    uint32_t lengths[6] = { STOP, COUNTS, (uint32_t)(m->at - STEPS), 0, 0, (uint32_t)m->asked };
    uint32_t counts[3] = { m->entered, m->recorded, m->entered + m->recorded };
    uint32_t i, offset = PAIRS;
    lengths[3] = (uint32_t)put_variables(m, m->record + m->at);
    m->at += lengths[3];
    lengths[4] = (uint32_t)put_memory(m, m->record + m->at);
    m->at += lengths[4];
    if (m->asked > 0)
        memcpy(m->record + m->at, m->questions, m->asked);
    m->at += m->asked;
    for (i = 0; i < 6; i++) {
        memcpy(m->record + 8 * i, &offset, 4);
        memcpy(m->record + 8 * i + 4, &lengths[i], 4);
        offset += lengths[i];
    }
    memcpy(m->record + PAIRS, &m->stop, sizeof m->stop);
    memcpy(m->record + PAIRS + STOP, counts, sizeof counts);
    return (uint32_t)m->at;
}

static void make_ready(struct machine *m, const uint8_t *routine, const uint8_t *world,
                       const uint8_t *call)
{
    struct bytes given = body(call, 0);
    m->nodes = (const struct node *)body(routine, 3).first;
    m->statements = (const struct statement *)body(routine, 4).first;
    m->limit = m->left = (uint32_t)number_at(given.first, 4);
    m->depth = (uint32_t)number_at(given.first + 4, 4);
    read_types(m, body(routine, 1));
    read_names(m, body(routine, 0), world);
    read_head(m, routine, given.first + 8, (given.length - 8) / 8);
    read_blocks(m, body(routine, 5));
    read_regions(m, body(world, 2));
    if (m->page_count > 0)
        memset(m->slots, 0, sizeof m->slots);
    m->page_count = m->written = 0;
    m->asked = 0;
    m->entered = m->recorded = 0;
    m->step = NULL;
    memset(&m->stop, 0, sizeof m->stop);
}

uint32_t walker_run(const uint8_t *routine, const uint8_t *world, const uint8_t *call,
                    uint8_t *record, size_t capacity, uint32_t *length)
{
    struct machine *m = &machine;
    int how;
    make_ready(m, routine, world, call);
    m->record = record;
    m->capacity = capacity < UINT32_MAX ? capacity : UINT32_MAX;
    m->at = STEPS;
    *length = 0;
    how = setjmp(m->ended);
    if (how == 0)
        walk(m);
    if (m->step != NULL)
        end_step(m);
    if (how == STOPPED && fits(m)) {
        *length = put_rest(m);
        return 0;
    }
    memset(record, 0, capacity);
    return how == STOPPED ? 22 : 21;
}
