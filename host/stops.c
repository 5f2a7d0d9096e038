/* How runs stop, each stop with its fields, and runs that write many addresses. What is expected is
 * written from the specification (docs/FILES.md). Says which check failed and ends with 1. */
#include "lending.h"

/* ---- How runs stop */

enum { HALTED, UNREACHABLE, IT, X };

/* A routine `f` without statements, of type int. */
static void begin_small(void)
{
    begin(&parts, IT, 0, 0, 0);
    put_text(&parts.names, "__analysis_halted");
    put_text(&parts.names, "__builtin_unreachable");
    put_text(&parts.names, "f");
    put_text(&parts.names, "x");
    put_text(&parts.types, "int");
}

/* The one statement at 1010 hexadecimal whose root is node 0. */
static void finish_small(void)
{
    statement(&parts, 1, 0x1010, 0);
    block(&parts, 1, ENDS, 0, 0, 0);
}

static void unknown_node(void)
{
    node(&parts, REGISTER, 1, 2, 7, 1, 3);
}

static void no_blocks(void)
{
}

static void bare_return(void)
{
    over(&parts, RETURN, 1);
    finish_small();
}

static void block_return(void)
{
    over(&parts, PLAIN, 1);
    finish_small();
}

static void unknown_return(void)
{
    over(&parts, RETURN, 2);
    unknown_node();
    finish_small();
}

static void missing_block(void)
{
    block(&parts, 0, GOTO, 0, 7, 0);
}

static void turning(void)
{
    over(&parts, PLAIN, 1);
    statement(&parts, 1, 0x1010, 0);
    block(&parts, 1, GOTO, 0, 0, 0);
}

static void unreachable(void)
{
    node(&parts, INTRINSIC, 0, UNREACHABLE, 0, 1, 0);
    finish_small();
}

static void halted(void)
{
    node(&parts, INTRINSIC, 0, HALTED, 0, 2, 0);
    constant(&parts, 1, 0x12345678);
    finish_small();
}

static void unknown_branch(void)
{
    over(&parts, PLAIN, 1);
    unknown_node();
    statement(&parts, 1, 0x1010, 0);
    block(&parts, 1, BRANCH, 1, 0, 0);
}

static void unknown_switch(void)
{
    over(&parts, PLAIN, 1);
    unknown_node();
    statement(&parts, 1, 0x1010, 0);
    block(&parts, 1, SWITCH, 1, 0, 0);
}

static void case_missing(void)
{
    constant(&parts, 1, 0xfe);
    block(&parts, 0, SWITCH, 0, 2, 0);
    switch_case(&parts, 254, 0);
    switch_case(&parts, 2, 0);
}

static void struct_to_name(void)
{
    over(&parts, ASSIGN, 3);
    var(&parts, X);
    over(&parts, STRUCT_INIT, 1);
    finish_small();
}

static void unknown_address(void)
{
    over(&parts, ASSIGN, 4);
    over(&parts, DEREF, 2);
    unknown_node();
    constant(&parts, 1, 1);
    finish_small();
}

static void unknown_value(void)
{
    over(&parts, ASSIGN, 4);
    over(&parts, DEREF, 2);
    constant(&parts, 2, 0x4000);
    unknown_node();
    finish_small();
}

static void store_to_constant(void)
{
    over(&parts, ASSIGN, 3);
    constant(&parts, 1, 1);
    constant(&parts, 1, 2);
    finish_small();
}

static void zero_divisor(void)
{
    node(&parts, BINARY, DIV, 0, 0, 3, 0);
    constant(&parts, 1, 1);
    constant(&parts, 1, 0);
    finish_small();
}

struct ending {
    const char *name;
    void (*make)(void);
    uint32_t steps;
    uint8_t kind, reason;
    uint64_t address; /* 0 for none */
    uint64_t number;
    uint32_t node;
    uint32_t bits; /* of the returned value */
    uint32_t entered, recorded;
};

static const struct ending endings[] = {
    { "no blocks", no_blocks, 10, 5, 0, 0, 0, 0, 0, 0, 0 },
    { "no blocks, 0 steps", no_blocks, 0, 5, 0, 0, 0, 0, 0, 0, 0 },
    { "bare return", bare_return, 10, 1, 0, 0, 0, 0, 0, 1, 1 },
    { "block's return", block_return, 10, 1, 0, 0, 0, 0, 0, 1, 1 },
    { "unknown return", unknown_return, 10, 0, 0, 0, 0, 0, 32, 1, 1 },
    { "missing block", missing_block, 10, 4, 0, 0, 7, 0, 0, 1, 0 },
    { "missing block, 1 step", missing_block, 1, 4, 0, 0, 7, 0, 0, 1, 0 },
    { "0 steps", block_return, 0, 2, 0, 0, 0, 0, 0, 0, 0 },
    { "1 step, one statement", block_return, 1, 2, 0, 0, 1, 0, 0, 1, 0 },
    { "7 steps", turning, 7, 2, 0, 0, 7, 0, 0, 4, 3 },
    { "unreachable", unreachable, 10, 6, 0, 0x1010, 0, 0, 0, 1, 1 },
    { "halted", halted, 10, 7, 0, 0x1010, 0x12345678, 0, 0, 1, 1 },
    { "unknown branch", unknown_branch, 10, 3, 1, 0x1010, 0, 1, 0, 1, 1 },
    { "unknown switch", unknown_switch, 10, 3, 2, 0x1010, 0, 1, 0, 1, 1 },
    { "no case", case_missing, 10, 3, 3, 0, UINT64_MAX - 1, 0, 0, 1, 0 },
    { "struct to a name", struct_to_name, 10, 3, 4, 0x1010, 0, 1, 0, 1, 1 },
    { "unknown address", unknown_address, 10, 3, 5, 0x1010, 0, 2, 0, 1, 1 },
    { "unknown value", unknown_value, 10, 3, 6, 0x1010, 0x4000, 0, 0, 1, 1 },
    { "store to a constant", store_to_constant, 10, 3, 8, 0x1010, 0, 1, 0, 1, 1 },
    { "division by zero", zero_divisor, 10, 3, 9, 0x1010, 0, 0, 0, 1, 1 },
};

/* None of these has a variable, a written byte or a question. */
static void test_ending(const struct ending *e)
{
    uint32_t length = 99 + 63 * e->recorded;
    struct emulate_bytes made;
    struct emulate_stop stop;
    struct emulate_counts counts;
    begin_small();
    e->make();
    finish_files(e->steps, NULL, 0);
    made = ran(e->name, length, length, 65536);
    if (emulate_read_stop(emulate_body(made, EMULATE_BODY_STOP), &stop) != 39
        || emulate_read_counts(emulate_body(made, EMULATE_BODY_COUNTS), &counts) != 12) {
        check(false, "a record with a stop and counts", __FILE__, __LINE__);
        return;
    }
    CHECK(stop.kind == e->kind);
    CHECK(stop.reason == e->reason);
    CHECK(stop.has_address == (e->address != 0));
    CHECK(stop.address == e->address);
    CHECK(stop.number == e->number);
    CHECK(stop.node == e->node);
    CHECK(stop.name == 0);
    CHECK(!stop.value.known);
    CHECK(stop.value.is_signed == (e->bits != 0));
    CHECK(stop.value.bits == e->bits);
    CHECK(counts.entered == e->entered);
    CHECK(counts.recorded == e->recorded);
    CHECK(counts.spent == e->entered + e->recorded);
    cleared(e->name, 22, length - 1, 65536);
}

static void test_endings(void)
{
    size_t i;
    for (i = 0; i < sizeof endings / sizeof *endings; i++)
        test_ending(&endings[i]);
}

/* ---- Many addresses: `*(long *)p = 1; p = p + 8`, over and over */

static void make_spray(uint32_t steps)
{
    const uint64_t start = 0x10000;
    begin(&parts, 1, 0, 0, 1);
    put_text(&parts.names, "p");
    put_text(&parts.names, "spray");
    put_text(&parts.types, "uint64_t");
    put_text(&parts.types, "long *");
    variable(&parts, 0, 0);
    over(&parts, ASSIGN, 5);
    over(&parts, DEREF, 3);
    node(&parts, CAST, 0, 1, 0, 2, 0);
    var(&parts, 0);
    constant(&parts, 1, 1);
    over(&parts, ASSIGN, 5);
    var(&parts, 0);
    node(&parts, BINARY, ADD, 0, 0, 3, 0);
    var(&parts, 0);
    constant(&parts, 1, 8);
    statement(&parts, 0, 0, 0);
    statement(&parts, 0, 0, 5);
    block(&parts, 2, GOTO, 0, 0, 0);
    finish_files(steps, &start, 1);
}

/* 512 rounds of three units write 4,096 addresses. */
static void check_spray(struct emulate_bytes made)
{
    struct emulate_bytes rest = emulate_body(made, EMULATE_BODY_MEMORY);
    struct emulate_variable p = { 0 };
    struct emulate_written written;
    size_t used, count = 0;
    bool right = true;
    while ((used = emulate_read_written(rest, &written)) > 0) {
        right = right && written.address == 0x10000 + count && written.byte == (count % 8 == 0);
        rest = emulate_after(rest, used);
        count++;
    }
    CHECK(right);
    CHECK(count == 4096);
    CHECK(rest.length == 0);
    CHECK(emulate_read_variable(emulate_body(made, EMULATE_BODY_VARIABLES), &p) == 16);
    CHECK(p.value.number == 0x11000);
}

/* 99 + 1,024 steps of 63 + a variable of 16 + 4,096 bytes of 9 */
#define SPRAY_LENGTH 101491

static void test_spray(void)
{
    make_spray(1536);
    check_spray(ran("4,096 addresses", SPRAY_LENGTH, SPRAY_LENGTH, 65536));
    cleared("4,096 addresses, one byte short", 22, SPRAY_LENGTH - 1, 65536);
    refused("4,096 addresses, a short workspace", 20, SPRAY_LENGTH, 65535);
    make_spray(1537);
    check_spray(ran("4,096 addresses, a block more", SPRAY_LENGTH, LONGEST, 65536));
    make_spray(1538);
    cleared("4,104 addresses", 21, LONGEST, 65536);
    cleared("4,104 addresses, a longer workspace", 21, LONGEST, 70001);
    cleared("4,104 addresses, a short buffer", 21, 99, 65536);
    cleared("4,104 addresses, no buffer", 21, 0, 65536);
}

int main(void)
{
    test_endings();
    test_spray();
    return outcome("stops");
}
