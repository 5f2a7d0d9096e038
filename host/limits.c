/* Files as full as they may be, and with one entry more; a run of as many units as a call may ask for; as
 * many bytes of questions as the least workspace keeps, and more.
 * What is expected is written from the specification (docs/FILES.md). Says which check failed and ends
 * with 1. */
#include "lending.h"

/* The record of a run without steps, variables, written bytes and questions, and a step of it. */
enum { LEAST = EMULATE_RECORD_LEAST, STEP = EMULATE_SIZE_STEP };

/* A routine `f` of type int, and nothing else yet. */
static void begin_full(void)
{
    begin(&parts, 0, 0, 0, 0);
    put_text(&parts.names, "f");
    put_text(&parts.types, "int");
}

/* 512 names in ascending order. */
static void put_names(struct made *to)
{
    char name[4];
    unsigned i;
    to->length = 0;
    for (i = 0; i < 512; i++) {
        snprintf(name, sizeof name, "%03u", i);
        put_text(to, name);
    }
}

/* How many entries of so many bytes the routine has room for. */
static uint32_t room(size_t bytes)
{
    finish(&parts, &routine);
    return (uint32_t)((EMULATE_FILE_LONGEST - routine.length) / bytes);
}

/* The one statement is the tree at node 0. */
static void finish_tree(void)
{
    statement(&parts, 0, 0, 0);
    block(&parts, 1, ENDS, 0, 0, 0);
}

static struct emulate_counts counts_of(struct emulate_bytes made)
{
    struct emulate_counts counts = { 0, 0, 0 };
    CHECK(emulate_read_counts(emulate_body(made, EMULATE_BODY_COUNTS), &counts) > 0);
    return counts;
}

/* ---- Routines */

static void test_statements(void)
{
    uint32_t i, count;
    begin_full();
    over(&parts, PLAIN, 1);
    block(&parts, 0, ENDS, 0, 0, 0);
    count = room(13);
    for (i = 0; i < count; i++)
        statement(&parts, 0, 0, 0);
    parts.blocks.length = 0;
    block(&parts, count, ENDS, 0, 0, 0);
    finish_files(11, NULL, 0);
    ran("statements", LEAST + 10 * STEP, LONGEST, 65536);
    statement(&parts, 0, 0, 0);
    finish_files(11, NULL, 0);
    refused("a statement more", 1, LONGEST, 65536);
}

/* A ring of blocks without statements. */
static void test_blocks(void)
{
    uint32_t i, count;
    struct emulate_counts counts;
    begin_full();
    count = room(24);
    for (i = 0; i < count; i++)
        block(&parts, 0, GOTO, 0, (i + 1) % count, 0);
    finish_files(1000000, NULL, 0);
    counts = counts_of(ran("blocks, and 1,000,000 units", LEAST, LONGEST, 65536));
    CHECK(counts.entered == 1000000 && counts.recorded == 0 && counts.spent == 1000000);
    block(&parts, 0, GOTO, 0, 0, 0);
    finish_files(10, NULL, 0);
    refused("a block more", 1, LONGEST, 65536);
}

/* Only the last case takes the value. */
static void test_cases(void)
{
    uint32_t i, count;
    struct emulate_stop stop = { 0 };
    struct emulate_bytes made;
    begin_full();
    constant(&parts, 8, UINT64_MAX);
    block(&parts, 0, SWITCH, 0, 0, 0);
    count = room(12);
    parts.blocks.length = 0;
    block(&parts, 0, SWITCH, 0, count, 0);
    for (i = 1; i < count; i++)
        switch_case(&parts, i, 0);
    switch_case(&parts, -1, 7);
    finish_files(10, NULL, 0);
    made = ran("cases", LEAST, LONGEST, 65536);
    CHECK(emulate_read_stop(emulate_body(made, EMULATE_BODY_STOP), &stop) > 0);
    CHECK(stop.kind == EMULATE_STOP_NO_BLOCK && stop.number == 7);
    switch_case(&parts, -1, 7);
    finish_files(10, NULL, 0);
    refused("a case more", 1, LONGEST, 65536);
}

/* Each of 512 names declared over and over. */
static void test_locals(void)
{
    uint32_t i, count;
    begin_full();
    put_names(&parts.names);
    count = room(4);
    for (i = 0; i < count; i++)
        variable(&parts, i % 512, 0);
    finish_files(10, NULL, 0);
    ran("locals", LEAST + 512 * EMULATE_SIZE_VARIABLE, LONGEST, 65536);
    variable(&parts, 0, 0);
    finish_files(10, NULL, 0);
    refused("a local more", 1, LONGEST, 65536);
}

static void test_nodes(void)
{
    uint32_t i, count;
    begin_full();
    finish_tree();
    count = room(20);
    over(&parts, INTRINSIC, count);
    for (i = 1; i < count; i++)
        constant(&parts, 1, 1);
    finish_files(10, NULL, 0);
    ran("nodes", LEAST + STEP, LONGEST, 65536);
    parts.nodes.bytes[20 * (count - 1)] = 20;
    finish_files(10, NULL, 0);
    refused_at("the last node of unknown kind", 5, count - 1, LONGEST, 65536);
    constant(&parts, 1, 1);
    finish_files(10, NULL, 0);
    refused("a node more", 1, LONGEST, 65536);
}

/* ---- Worlds */

/* Each of 512 symbols is read: its address, its size, and no byte. */
static void test_symbols(void)
{
    uint32_t i;
    begin_full();
    put_names(&parts.names);
    put_names(&known.names);
    known.symbols.length = known.regions.length = 0;
    over(&parts, INTRINSIC, 513);
    for (i = 0; i < 512; i++) {
        var(&parts, i);
        symbol(&known, i, 8, 16 * i);
    }
    finish_tree();
    finish_files(10, NULL, 0);
    finish_world(&known, &world);
    ran("symbols", LEAST + STEP + 512 * (2 * EMULATE_SIZE_TOLD + EMULATE_SIZE_READ), LONGEST, 65536);
    symbol(&known, 512, 8, 0);
    finish_world(&known, &world);
    refused("a symbol more", 8, LONGEST, 65536);
    known.symbols.length -= 11;
    put_text(&known.names, "x");
    finish_world(&known, &world);
    refused("a name more", 8, LONGEST, 65536);
}

/* Loads of 8 bytes from these addresses. */
static void make_loads(const uint64_t *addresses, uint32_t count)
{
    uint32_t i;
    begin_full();
    over(&parts, INTRINSIC, 1 + 2 * count);
    for (i = 0; i < count; i++) {
        over(&parts, DEREF, 2);
        constant(&parts, 8, addresses[i]);
    }
    finish_tree();
    finish_files(10, NULL, 0);
}

/* Where the first of so many regions is, so far apart, of which the last one is the last byte. */
static uint64_t first_of(uint32_t count, uint64_t apart)
{
    return UINT64_MAX - apart * (count - 1);
}

/* Regions of one byte. */
static void make_regions(uint32_t count, uint64_t apart)
{
    const uint64_t first = first_of(count, apart);
    uint32_t i;
    known.names.length = known.symbols.length = known.regions.length = 0;
    for (i = 0; i < count; i++)
        region(&known, first + apart * i, "r", 1);
    finish_world(&known, &world);
}

/* Loads at both ends, where 8 bytes, 1 byte or none are answered. */
static void test_regions(void)
{
    const uint32_t most = (EMULATE_FILE_LONGEST - 14) / 13;
    uint64_t addresses[4] = { 0, UINT64_MAX - 7, UINT64_MAX, 0 };
    addresses[0] = first_of(most, 1);
    make_loads(addresses, 4);
    make_regions(most, 1);
    ran("touching regions", LEAST + STEP + 4 * EMULATE_SIZE_READ + 8 + 8 + 1, LONGEST, 65536);
    addresses[0] = first_of(most, 2);
    make_loads(addresses, 4);
    make_regions(most, 2);
    ran("regions apart", LEAST + STEP + 4 * EMULATE_SIZE_READ + 1 + 1, LONGEST, 65536);
    make_regions(most + 1, 1);
    refused("a region more", 8, LONGEST, 65536);
}

/* Each load's question stands in its order, and the first ones have their byte. */
static void check_reads(struct emulate_bytes made, uint32_t count, uint32_t answered)
{
    struct emulate_bytes rest = emulate_body(made, EMULATE_BODY_QUESTIONS);
    struct emulate_question asked = { 0 };
    uint32_t i;
    for (i = 0; i < count; i++) {
        size_t used = emulate_read_question(rest, &asked);
        CHECK(used == EMULATE_SIZE_READ + (i < answered));
        CHECK(asked.address == 16 * i && asked.asked == 8 && asked.bytes.length == (i < answered));
        CHECK(i >= answered || asked.bytes.first[0] == 'r');
        rest = emulate_after(rest, used);
    }
    CHECK(rest.length == 0);
}

/* Some 4,290 bytes of questions, byte by byte up to more than the least workspace has room for: the
 * record is the same with a longer one. */
static void test_questions(void)
{
    enum { COUNT = 390, MORE = 8 };
    uint64_t addresses[COUNT];
    uint32_t i, answered;
    for (i = 0; i < COUNT; i++)
        addresses[i] = 16 * i;
    make_loads(addresses, COUNT);
    known.names.length = known.symbols.length = known.regions.length = 0;
    for (answered = 0; answered <= MORE; answered++) {
        const uint32_t length = LEAST + STEP + COUNT * EMULATE_SIZE_READ + answered;
        finish_world(&known, &world);
        check_reads(ran("questions", length, length, 65536), COUNT, answered);
        check_reads(ran("a longer workspace", length, length, 65536 + MORE), COUNT, answered);
        region(&known, addresses[answered], "r", 1);
    }
    cleared("questions past the buffer", 22, LEAST + STEP + COUNT * EMULATE_SIZE_READ, 65536 + MORE);
}

int main(void)
{
    test_statements();
    test_blocks();
    test_cases();
    test_locals();
    test_nodes();
    test_symbols();
    test_regions();
    test_questions();
    return outcome("limits");
}
