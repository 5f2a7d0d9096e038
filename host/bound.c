/* How long a record is: by its counts, and at most, as emulate_record_most says before the call.
 * The routines are as greedy as each part of that allows, and by how much it says more than they
 * take is reckoned from docs/FILES.md. Says which check failed and ends with 1. */
#include "lending.h"

/* The record of a run without steps, variables, written bytes and questions, and a step of it. */
enum { LEAST = EMULATE_RECORD_LEAST, STEP = EMULATE_SIZE_STEP };

/* What most variables and most written bytes take. */
enum { VARIABLES = 512 * 16, WRITTEN = 4096 * 9, APART = VARIABLES + WRITTEN };

/* What a symbol's address, its size and its 8 bytes take when they are asked. */
enum { NAMED = 12 + 12, ASKED = NAMED + 11 + 8 };

/* The routine is `f`, the symbol `s`; `x00` and so on are locals. */
enum { ROUTINE, SYMBOL, LOCAL };

/* ---- The length by the counts */

/* A reader of an entry, which also tells what such an entry takes. */
typedef size_t reader(struct emulate_bytes from, size_t *takes);

static size_t read_step(struct emulate_bytes from, size_t *takes)
{
    struct emulate_step step = { 0 };
    size_t used = emulate_read_step(from, &step);
    *takes = 63 + 2 * (step.taken.length / 2);
    return used;
}

static size_t read_variable(struct emulate_bytes from, size_t *takes)
{
    struct emulate_variable variable_read;
    *takes = 16;
    return emulate_read_variable(from, &variable_read);
}

static size_t read_written(struct emulate_bytes from, size_t *takes)
{
    struct emulate_written written;
    *takes = 9;
    return emulate_read_written(from, &written);
}

static size_t read_question(struct emulate_bytes from, size_t *takes)
{
    struct emulate_question asked = { 0 };
    size_t used = emulate_read_question(from, &asked);
    *takes = 12;
    if (asked.kind == EMULATE_ASKED_READ)
        *takes = 11 + asked.bytes.length;
    if (asked.kind == EMULATE_ASKED_CALL)
        *takes = 17 + 14 * (asked.values.length / 14);
    return used;
}

static size_t body_length(struct emulate_bytes made, enum emulate_bodies which, reader *read)
{
    struct emulate_bytes rest = emulate_body(made, which);
    size_t used, takes, length = 0;
    while ((used = read(rest, &takes)) > 0) {
        length += takes;
        rest = emulate_after(rest, used);
    }
    return length;
}

static size_t length_by_counts(struct emulate_bytes made)
{
    return 99 + body_length(made, EMULATE_BODY_STEPS, read_step)
        + body_length(made, EMULATE_BODY_VARIABLES, read_variable)
        + body_length(made, EMULATE_BODY_MEMORY, read_written)
        + body_length(made, EMULATE_BODY_QUESTIONS, read_question);
}

/* ---- The bound */

/* The first bytes of a file, in a block of their own length. */
static uint8_t *beginning(struct made *file, size_t length)
{
    const size_t whole = file->length;
    uint8_t *bytes;
    file->length = length;
    bytes = copy(file);
    file->length = whole;
    return bytes;
}

/* The bound of the first bytes of routine and call. */
static uint64_t most_of(size_t routine_length, size_t call_length)
{
    uint8_t *r = beginning(&routine, routine_length), *c = beginning(&call, call_length);
    uint64_t most = emulate_record_most(r, routine_length, c, call_length);
    free(r);
    free(c);
    return most;
}

/* The run has a record of this length, and the bound is so much more: a buffer of that will do. */
static void bounded(const char *name, uint32_t length, uint64_t over)
{
    struct emulate_bytes made = ran(name, length, LONGEST, 65536);
    uint64_t most = most_of(routine.length, call.length);
    CHECK(length_by_counts(made) == length);
    CHECK(most == length + over);
    if (most <= LONGEST)
        ran(name, length, (size_t)most, 65536);
}

/* ---- Routines */

/* `f` of type int in a world that has `s`, and nothing else yet. */
static void begin_greedy(void)
{
    begin(&parts, ROUTINE, 0, 0, 0);
    put_text(&parts.names, "f");
    put_text(&parts.names, "s");
    put_text(&parts.types, "int");
    put_text(&parts.types, "uint64_t");
    known.names.length = known.symbols.length = known.regions.length = 0;
    put_text(&known.names, "s");
    symbol(&known, 0, 8, 0x1000);
    region(&known, 0x1000, "abcdefgh", 8);
}

/* So many locals of type int. */
static void locals(unsigned count)
{
    char name[5];
    unsigned i;
    for (i = 0; i < count; i++) {
        snprintf(name, sizeof name, "x%03u", i);
        put_text(&parts.names, name);
        variable(&parts, LOCAL + i, 0);
    }
}

/* One block that has the tree at node 0 so many times, and units for them. */
static void finish_repeated(unsigned statements, uint32_t depth)
{
    unsigned i;
    for (i = 0; i < statements; i++)
        statement(&parts, 0, 0, 0);
    block(&parts, statements, ENDS, 0, 0, 0);
    finish(&parts, &routine);
    finish_world(&known, &world);
    make_call(&call, statements + 1, depth, NULL, 0);
}

/* ---- Statements */

enum { OFTEN = 7 };

/* Nothing is over but what a block's unit does not take. */
static void test_symbols(void)
{
    unsigned i;
    begin_greedy();
    over(&parts, INTRINSIC, 33);
    for (i = 0; i < 32; i++)
        var(&parts, SYMBOL);
    finish_repeated(OFTEN, 8);
    bounded("symbols", LEAST + OFTEN * (STEP + 32 * ASKED), APART + STEP + 32 * ASKED);
}

/* *(uint64_t *)s: the pointer is asked as a symbol, then what it points at, where nothing is. */
static void test_loads(void)
{
    begin_greedy();
    put_text(&parts.types, "uint64_t *");
    over(&parts, INTRINSIC, 4);
    over(&parts, DEREF, 3);
    node(&parts, CAST, 0, 2, 0, 2, 0);
    var(&parts, SYMBOL);
    finish_repeated(OFTEN, 8);
    bounded("loads", LEAST + OFTEN * (STEP + ASKED + 11), APART + OFTEN * 8 + STEP + ASKED + 19);
}

/* f(&x000, .., &x015), whose names are taken also where no call is asked. What is under an `&` is
 * not evaluated. */
static void test_taken(uint32_t depth)
{
    const uint32_t asked = depth > 0 ? 17 + 16 * 14 : 0, unasked = 17 + 16 * 14 - asked;
    unsigned i;
    begin_greedy();
    locals(16);
    over(&parts, CALL, 34);
    node(&parts, FUNCTION_NAME, 0, ROUTINE, 0, 1, 0x5000);
    for (i = 0; i < 16; i++) {
        over(&parts, ADDRESS_OF, 2);
        var(&parts, LOCAL + i);
    }
    finish_repeated(OFTEN, depth);
    bounded("taken names", LEAST + OFTEN * (STEP + 16 * (12 + 2) + asked) + 16 * 16,
            APART - 16 * 16 + OFTEN * (16 * ASKED + unasked)
                + STEP + 16 * (12 + 2) + 17 + 16 * 14 + 16 * ASKED);
}

/* A call whose last argument is a call, and so on: 15 symbols and, in the last one, 16. */
static void test_calls(void)
{
    enum { CALLS = 62 };
    const uint32_t tree = CALLS * (17 + 16 * 14 + 15 * ASKED) + ASKED;
    unsigned i, k;
    begin_greedy();
    for (i = CALLS; i > 0; i--) {
        over(&parts, CALL, 17 * i + 1);
        node(&parts, FUNCTION_NAME, 0, ROUTINE, 0, 1, 0x5000);
        for (k = 0; k < 15; k++)
            var(&parts, SYMBOL);
    }
    var(&parts, SYMBOL);
    finish_repeated(2, 255);
    bounded("calls in calls", LEAST + 2 * (STEP + tree), APART + STEP + tree);
}

/* s = s, so many times over. */
static void put_assigns(unsigned assigns)
{
    unsigned i;
    for (i = assigns; i > 0; i--) {
        over(&parts, ASSIGN, 2 * i + 1);
        var(&parts, SYMBOL);
    }
    var(&parts, SYMBOL);
}

/* s = s = .. = s: each Assign is executed once, however deep it stands. */
static void test_assigns(void)
{
    enum { ASSIGNS = 62 };
    const uint32_t tree = ASSIGNS * NAMED + ASKED, most = (ASSIGNS + 1) * ASKED;
    begin_greedy();
    put_assigns(ASSIGNS);
    finish_repeated(OFTEN, 8);
    bounded("nested Assigns", LEAST + OFTEN * (STEP + tree) + 8 * 9,
            APART - 8 * 9 + OFTEN * (most - tree) + STEP + most);
}

/* f(s = s = s = s, ..): so it is among arguments. */
static void test_arguments(void)
{
    enum { ASSIGNS = 3 };
    const uint32_t called = 17 + 16 * 14, tree = called + 16 * (ASSIGNS * NAMED + ASKED);
    const uint32_t most = called + 16 * (ASSIGNS + 1) * ASKED;
    unsigned i;
    begin_greedy();
    over(&parts, CALL, 2 + 16 * (2 * ASSIGNS + 1));
    node(&parts, FUNCTION_NAME, 0, ROUTINE, 0, 1, 0x5000);
    for (i = 0; i < 16; i++)
        put_assigns(ASSIGNS);
    finish_repeated(OFTEN, 8);
    bounded("Assigns as arguments", LEAST + OFTEN * (STEP + tree) + 8 * 9,
            APART - 8 * 9 + OFTEN * (most - tree) + STEP + most);
}

/* *(s = s) = { uint64_t at 0 = s = s, .. }: and in a pointer and in fields. What s has is where
 * they are stored. */
static void test_fields(void)
{
    enum { FIELDS = 16 };
    const uint32_t tree = (1 + FIELDS) * (NAMED + ASKED), most = 19 + (1 + FIELDS) * 2 * ASKED;
    unsigned i;
    begin_greedy();
    over(&parts, ASSIGN, 6 + 4 * FIELDS);
    over(&parts, DEREF, 4);
    put_assigns(1);
    over(&parts, STRUCT_INIT, 1 + 4 * FIELDS);
    for (i = 0; i < FIELDS; i++) {
        node(&parts, FIELD, 0, 1, 0, 4, 8 * i);
        put_assigns(1);
    }
    finish_repeated(OFTEN, 8);
    bounded("fields", LEAST + OFTEN * (STEP + tree) + (8 + 8 * FIELDS) * 9,
            APART - (8 + 8 * FIELDS) * 9 + OFTEN * (most - tree) + STEP + most);
}

/* All 512 variables and all 4,096 written bytes. */
static void test_full(void)
{
    unsigned i;
    begin_greedy();
    locals(510);
    variable(&parts, ROUTINE, 0);
    variable(&parts, SYMBOL, 0);
    over(&parts, ASSIGN, 4 + 2 * 512);
    over(&parts, DEREF, 2);
    constant(&parts, 8, 0x8000);
    over(&parts, STRUCT_INIT, 1 + 2 * 512);
    for (i = 0; i < 512; i++) {
        node(&parts, FIELD, 0, 1, 0, 2, 8 * i);
        constant(&parts, 8, i);
    }
    finish_repeated(OFTEN, 8);
    bounded("variables and addresses", LEAST + OFTEN * STEP + VARIABLES + WRITTEN,
            STEP + (OFTEN + 1) * 19);
}

/* ---- Terminators */

/* if (s < s) goto 0; else goto 0; in a block with so many statements that are the same tree. */
static void make_ring(unsigned statements, uint32_t units)
{
    unsigned i;
    begin_greedy();
    node(&parts, BINARY, ADD, 0, 0, 3, 0);
    var(&parts, SYMBOL);
    var(&parts, SYMBOL);
    for (i = 0; i < statements; i++)
        statement(&parts, 0, 0, 0);
    block(&parts, statements, BRANCH, 0, 0, 0);
    finish(&parts, &routine);
    finish_world(&known, &world);
    make_call(&call, units, 8, NULL, 0);
}

/* A block without statements takes no step; in one with some, as many trees as units. */
static void test_terminators(void)
{
    make_ring(0, 20);
    bounded("terminators", LEAST + 20 * 2 * ASKED, APART + 20 * STEP);
    make_ring(1, 20);
    bounded("a statement and a terminator", LEAST + 10 * STEP + 20 * 2 * ASKED, APART + 10 * STEP);
    make_ring(3, 20);
    bounded("three and a terminator", LEAST + 15 * STEP + 20 * 2 * ASKED, APART + 5 * STEP);
}

/* ---- Other files */

/* The roots of two statements are one tree and a part of it, after a larger one that is no root. */
static void test_parts(void)
{
    begin_greedy();
    over(&parts, INTRINSIC, 4);
    over(&parts, INTRINSIC, 3);
    var(&parts, SYMBOL);
    var(&parts, SYMBOL);
    over(&parts, INTRINSIC, 2);
    var(&parts, SYMBOL);
    statement(&parts, 0, 0, 1);
    statement(&parts, 0, 0, 2);
    statement(&parts, 0, 0, 4);
    block(&parts, 3, ENDS, 0, 0, 0);
    finish(&parts, &routine);
    finish_world(&known, &world);
    make_call(&call, 4, 8, NULL, 0);
    bounded("parts of trees", LEAST + 3 * STEP + 4 * ASKED, APART + STEP + 4 * ASKED);
}

static void test_known(void)
{
    begin(&parts, ROUTINE, 0, 0, 0);
    put_text(&parts.names, "f");
    put_text(&parts.types, "int");
    finish_files(0, NULL, 0);
    bounded("no blocks", LEAST, APART);
    make_trim();
    bounded("trim", LEAST + 2 * STEP + 2 * 16, APART - 2 * 16 + 8 * STEP + 10 * 2 * ASKED);
    make_probe();
    now = "probe";
    CHECK(most_of(routine.length, call.length)
          == LEAST + APART + 100 * (STEP + 17 + 5 * 14 + 2 * (12 + 2) + 2 * ASKED));
}

/* Whatever the bytes are, none behind them is looked at: what is cut short or changed has no more
 * nodes, and no more steps. */
static void test_any(void)
{
    const uint64_t widest = LEAST + APART + 10 * (STEP + 9 * (17 + 16 * 14));
    uint64_t whole;
    size_t i;
    make_trim();
    whole = most_of(routine.length, call.length);
    now = "other bytes";
    CHECK(emulate_record_most(NULL, 0, NULL, 0) == LEAST + APART);
    for (i = 0; i < routine.length; i++)
        CHECK(most_of(i, call.length) <= whole);
    for (i = 0; i < call.length; i++)
        CHECK(most_of(routine.length, i) <= whole);
    for (i = 0; i < routine.length; i++) {
        routine.bytes[i] ^= 0xff;
        CHECK(most_of(routine.length, call.length) <= widest);
        routine.bytes[i] ^= 0xff;
    }
    memset(call.bytes + 6, 0xff, 4);
    CHECK(most_of(routine.length, call.length)
          == LEAST + APART + UINT32_MAX * (uint64_t)(STEP + 2 * ASKED));
}

int main(void)
{
    test_symbols();
    test_loads();
    test_taken(8);
    test_taken(0);
    test_calls();
    test_assigns();
    test_arguments();
    test_fields();
    test_full();
    test_terminators();
    test_parts();
    test_known();
    test_any();
    return outcome("bound");
}
