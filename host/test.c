/* Drives both entries at the edges of their promises: buffers, files, calls in a row, threads. The
 * files are made here, and what is expected is written from the specification (docs/FILES.md).
 *
 * test [FOLDER]: says which check failed and ends with 1; with a folder it also writes the files
 * of two routines there, for the example. */
#define _POSIX_C_SOURCE 200112L
#include <pthread.h>

#include "lending.h"

/* ---- Buffers and workspaces at their edges */

static struct made expected;

/* A run whose record is `expected`: its buffer exact, longer, short; each kind of workspace. */
static void test_edges(void)
{
    uint32_t length = (uint32_t)expected.length;
    CHECK(same(ran("long buffer", length, LONGEST, 65536), &expected));
    CHECK(same(ran("exact buffer", length, length, 65536), &expected));
    CHECK(same(ran("one byte more", length, length + 1, 65536), &expected));
    CHECK(same(ran("longer workspace", length, length, 70001), &expected));
    cleared("buffer one byte short", 22, length - 1, 65536);
    cleared("buffer one byte short, longer workspace", 22, length - 1, 65537);
    cleared("buffer of one byte", 22, 1, 65536);
    cleared("no buffer", 22, 0, 65536);
    refused("workspace one byte short", 20, length, 65535);
    refused("workspace and buffer short", 20, length - 1, 65535);
    refused("no workspace", 20, length, 0);
    refused("nothing lent", 20, 0, 0);
}

/* Calls in a row, with the buffers as the last one left them. */
static void test_again(void)
{
    size_t i;
    now = "calls in a row";
    lend(&record, LONGEST);
    lend(&workspace, 65536);
    for (i = 0; i < 3; i++) {
        struct emulate_answer answer =
            run(routine.bytes, routine.length, world.bytes, world.length, call.bytes, call.length,
                lent(&record), record.length, lent(&workspace), workspace.length);
        CHECK(answer.number == 0);
        CHECK(same(emulate_record(lent(&record), answer), &expected));
        CHECK(untouched(&record, expected.length));
        CHECK(zero(&workspace));
    }
}

/* Buffers in blocks of their own length, of which nothing was ever written. */
static void test_unwritten(void)
{
    uint8_t *lent_record = malloc(expected.length), *lent_workspace = malloc(65536);
    struct emulate_answer answer;
    now = "unwritten buffers";
    if (lent_record == NULL || lent_workspace == NULL)
        exit(2);
    answer = run(routine.bytes, routine.length, world.bytes, world.length, call.bytes, call.length,
                 lent_record, expected.length, lent_workspace, 65536);
    CHECK(answer.number == 0);
    CHECK(same(emulate_record(lent_record, answer), &expected));
    free(lent_record);
    free(lent_workspace);
}

/* ---- Files */

static void test_empty_files(void)
{
    struct made *files[3];
    uint32_t numbers[3] = { 1, 8, 9 };
    size_t i;
    files[0] = &routine;
    files[1] = &world;
    files[2] = &call;
    for (i = 0; i < 3; i++) {
        make_trim();
        files[i]->length = 0;
        refused("an empty file", numbers[i], 257, 65536);
        refused("an empty file, nothing lent", numbers[i], 0, 0);
    }
    routine.length = world.length = call.length = 0;
    refused("three empty files", 1, 257, 65536);
}

/* One byte changed in a body of `trim`. */
static void refused_by_byte(const char *what, struct made *body, size_t at, unsigned byte,
                            uint32_t number)
{
    make_trim();
    body->bytes[at] = (uint8_t)byte;
    finish(&parts, &routine);
    refused(what, number, 257, 65536);
}

/* One fault in each body of the routine. */
static void test_faults(void)
{
    make_trim();
    routine.bytes[0] = 5;
    refused("five bodies", 1, 257, 65536);
    refused_by_byte("names out of order", &parts.names, 1, 'z', 2);
    refused_by_byte("a type with a byte under 0x20", &parts.types, 1, 0x1f, 3);
    refused_by_byte("more parameters than variables", &parts.head, 12, 3, 4);
    refused_by_byte("a root past the nodes", &parts.statements, 9, 9, 7);
    world.length = 0;
    refused("two faults", 7, 257, 65535);
    make_trim();
    parts.nodes.length--;
    finish(&parts, &routine);
    refused("a node cut off", 6, 257, 65536);
}

static void test_calls(void)
{
    uint64_t arguments[17] = { 100 };
    make_trim();
    make_call(&call, 1000000, 255, arguments, 16);
    CHECK(same(ran("the highest limits", 257, 257, 65536), &expected));
    make_call(&call, 1000001, 8, arguments, 1);
    refused("too many steps", 9, 257, 65536);
    make_call(&call, 10, 256, arguments, 1);
    refused("too deep", 9, 257, 65536);
    make_call(&call, 10, 8, arguments, 17);
    refused("17 arguments", 9, 257, 65536);
    refused("17 arguments, a short workspace", 9, 257, 65535);
}

/* A routine of `bytes` bytes: one block without statements, nodes, and empty types for the rest. */
static void make_long_routine(size_t bytes)
{
    size_t left = bytes - 26 - 2 - 13 - 24;
    begin(&parts, 0, 0, 0, 0);
    put_text(&parts.names, "f");
    while (parts.nodes.length + 40 <= left)
        over(&parts, PLAIN, 1);
    while (parts.types.length + parts.nodes.length < left)
        put_text(&parts.types, "");
    block(&parts, 0, ENDS, 0, 0, 0);
    finish_files(10, NULL, 0);
}

/* A world of `bytes` bytes: one region. */
static void make_long_world(size_t bytes)
{
    static const uint8_t zeros[65536];
    known.names.length = known.symbols.length = known.regions.length = 0;
    region(&known, 0, zeros, (uint32_t)(bytes - 14 - 12));
    finish_world(&known, &world);
}

/* Files of 65,535 bytes, and of one more with nothing else wrong. */
static void test_long_files(void)
{
    make_long_routine(65535);
    CHECK(routine.length == 65535);
    ran("a routine of 65,535 bytes", 99, 99, 65536);
    make_long_world(65535);
    CHECK(world.length == 65535);
    ran("a routine and a world of 65,535 bytes", 99, 99, 65536);
    make_long_world(65536);
    CHECK(world.length == 65536);
    refused("a world of 65,536 bytes", 8, 99, 65536);
    make_long_routine(65536);
    CHECK(routine.length == 65536);
    refused("a routine of 65,536 bytes", 1, 99, 65536);
    make_trim();
    memset(call.bytes + call.length, 0, 65536 - call.length);
    call.length = 65536;
    refused("a call of 65,536 bytes", 9, 257, 65536);
}

/* ---- constant_value */

static struct emulate_constant constant_of(const char *name, uint32_t number, size_t length)
{
    uint8_t *r = copy(&routine);
    struct emulate_constant answer;
    now = name;
    lend(&workspace, length);
    answer = constant_value(r, routine.length, number, lent(&workspace), length);
    check_file(r, &routine);
    check_guards(&workspace);
    return answer;
}

/* No value, and a refusal's number with the node that it tells. */
static void no_constant_at(const char *name, uint32_t number, size_t length, uint32_t refusal,
                           uint32_t node)
{
    struct emulate_constant answer = constant_of(name, number, length);
    CHECK(answer.refusal == refusal);
    CHECK(!answer.known && !answer.is_signed && answer.bits == 0 && answer.number == node);
    CHECK(refusal == 0 || refusal == 21 ? zero(&workspace) : untouched(&workspace, 0));
}

static void no_constant(const char *name, uint32_t number, size_t length, uint32_t refusal)
{
    no_constant_at(name, number, length, refusal, 0);
}

static void is_constant(const char *name, uint32_t number, size_t length,
                        struct emulate_value value)
{
    struct emulate_constant answer = constant_of(name, number, length);
    CHECK(answer.refusal == 0);
    CHECK(answer.known == value.known);
    CHECK(answer.is_signed == value.is_signed);
    CHECK(answer.bits == value.bits);
    CHECK(answer.number == value.number);
    CHECK(zero(&workspace));
}

/* Trees that no statement names. */
static void make_fold(void)
{
    begin(&parts, 0, 0, 0, 0);
    put_text(&parts.names, "f");
    put_text(&parts.names, "x");
    put_text(&parts.types, "uint16_t");
    node(&parts, BINARY, MUL, 0, 0, 3, 0); /* 0: 6 * 7 */
    constant(&parts, 1, 6);
    constant(&parts, 4, 7);
    node(&parts, CAST, 0, 0, 0, 2, 0); /* 3: (uint16_t)-1 */
    constant(&parts, 1, 0xff);
    var(&parts, 1); /* 5: x */
    node(&parts, BINARY, DIV, 0, 0, 3, 0); /* 6: 1 / 0 */
    constant(&parts, 1, 1);
    constant(&parts, 1, 0);
    over(&parts, ASSIGN, 6); /* 9: *1 = { uint16_t at 0: 2 } */
    over(&parts, DEREF, 2);
    constant(&parts, 1, 1);
    over(&parts, STRUCT_INIT, 3);
    node(&parts, FIELD, 0, 0, 0, 2, 0); /* 13 */
    constant(&parts, 1, 2);
    finish_files(10, NULL, 0);
}

static void test_fold(void)
{
    const struct emulate_value product = { true, true, 32, 42 };
    const struct emulate_value minus_one = { true, false, 16, 65535 };
    const struct emulate_value two = { true, true, 8, 2 };
    make_fold();
    is_constant("6 * 7", 0, 65536, product);
    is_constant("6 * 7, a longer workspace", 0, 70001, product);
    is_constant("(uint16_t)-1", 3, 65536, minus_one);
    is_constant("what a field holds", 14, 65536, two);
    no_constant("a name", 5, 65536, 0);
    no_constant("1 / 0", 6, 65536, 0);
    no_constant("a store", 9, 65536, 0);
    no_constant("a field", 13, 65536, 9);
    no_constant("no node", 15, 65536, 9);
    no_constant("the last number", UINT32_MAX, 65536, 9);
    no_constant("a field, a short workspace", 13, 65535, 9);
    no_constant("a short workspace", 0, 65535, 20);
    no_constant("no workspace", 0, 0, 20);
    routine.bytes[0] = 5;
    no_constant("five bodies", 0, 65536, 1);
    routine.length = 0;
    no_constant("an empty file", 0, 65536, 1);
    no_constant("nothing at all", 0, 0, 1);
}

/* `int32_t f(bool flag) { return flag; }`, and two casts that no statement names. */
static void make_bools(uint64_t flag)
{
    begin(&parts, 0, 0, 2, 1);
    put_text(&parts.names, "f");
    put_text(&parts.names, "flag");
    put_text(&parts.types, "bool");
    put_text(&parts.types, "unsigned bool");
    put_text(&parts.types, "int32_t");
    variable(&parts, 1, 0);
    over(&parts, RETURN, 2);
    var(&parts, 1);
    node(&parts, CAST, 0, 0, 0, 2, 0); /* 2: (bool)256 */
    constant(&parts, 2, 256);
    node(&parts, CAST, 0, 1, 0, 2, 0); /* 4: (unsigned bool)256 */
    constant(&parts, 2, 256);
    statement(&parts, 0, 0, 0);
    block(&parts, 1, ENDS, 0, 0, 0);
    finish_files(10, &flag, 1);
}

/* A bool keeps 1 of 256; its low 8 bits are 0. */
static void test_bools(void)
{
    const struct emulate_value one = { true, false, 8, 1 };
    const struct emulate_value low = { true, false, 8, 0 };
    struct emulate_bytes made;
    struct emulate_variable flag;
    make_bools(256);
    is_constant("(bool)256", 2, 65536, one);
    is_constant("(unsigned bool)256", 4, 65536, low);
    made = ran("a bool parameter of 256", 178, 178, 65536);
    CHECK(emulate_read_variable(emulate_body(made, EMULATE_BODY_VARIABLES), &flag) == 16
          && flag.value.known && !flag.value.is_signed && flag.value.bits == 8
          && flag.value.number == 1);
}

/* One intrinsic with 512 stores of 8 bytes each, and one of one byte at an address. */
static void make_stores(uint64_t address)
{
    uint32_t i;
    begin(&parts, 0, 0, 0, 0);
    put_text(&parts.names, "f");
    put_text(&parts.types, "char *");
    over(&parts, INTRINSIC, 1 + 4 * 512 + 5);
    for (i = 0; i < 512; i++) {
        over(&parts, ASSIGN, 4);
        over(&parts, DEREF, 2);
        constant(&parts, 4, 8 * i);
        constant(&parts, 1, 1);
    }
    over(&parts, ASSIGN, 5);
    over(&parts, DEREF, 3);
    over(&parts, CAST, 2);
    constant(&parts, 8, address);
    constant(&parts, 1, 1);
    statement(&parts, 0, 0, 0);
    block(&parts, 1, ENDS, 0, 0, 0);
    finish_files(10, NULL, 0);
}

/* The last store goes to an address that is written already, or to one more. */
static void test_stores(void)
{
    make_stores(4095);
    no_constant("4,096 addresses by itself", 0, 65536, 0);
    ran("4,096 addresses in a statement", 99 + 63 + 9 * 4096, LONGEST, 65536);
    make_stores(4096);
    no_constant("4,097 addresses by itself", 0, 65536, 21);
    no_constant("4,097 addresses by itself, a longer workspace", 0, 70001, 21);
    no_constant("4,097 addresses by itself, a short workspace", 0, 65535, 20);
    cleared("4,097 addresses in a statement", 21, LONGEST, 65536);
}

/* ---- Nodes: 5, 30 and 31 tell the lowest that is not as it must be */

/* A byte of a node of `trim`, and what is put there. A node has kind u8, flag u8, ref u16, width
 * u32, span u32, value u64. */
struct spoilt {
    unsigned node, at, byte;
};

enum { AT_KIND = 0, AT_FLAG = 1, AT_REF = 2, AT_WIDTH = 4, AT_SPAN = 8, AT_VALUE = 12 };

struct faulty {
    const char *what;
    struct spoilt first, second;
    uint32_t number, node;
};

#define ALONE(node, at, byte) { node, at, byte }, { node, at, byte }

/* The nodes: Assign, Var, Binary, Var, Constant; from 5 on Return, Binary, Var, Constant. */
static const struct faulty barred = { "a Constant of 9 bytes", ALONE(8, AT_WIDTH, 9), 30, 8 };

static const struct faulty faults[] = {
    { "kind 20", ALONE(0, AT_KIND, 20), 5, 0 },
    { "kind 255 in the last node", ALONE(8, AT_KIND, 255), 5, 8 },
    { "a Constant of no byte", ALONE(4, AT_WIDTH, 0), 30, 4 },
    { "operator 18", ALONE(2, AT_FLAG, 18), 30, 2 },
    { "a name past the last", ALONE(1, AT_REF, 3), 30, 1 },
    { "a Var with a flag", ALONE(7, AT_FLAG, 1), 31, 7 },
    { "an Assign with a ref", ALONE(0, AT_REF + 1, 1), 31, 0 },
    { "a Binary with a width", ALONE(6, AT_WIDTH + 3, 1), 31, 6 },
    { "a Return with a value", ALONE(5, AT_VALUE + 7, 1), 31, 5 },
    { "5 and 30 on a node", { 3, AT_KIND, 20 }, { 3, AT_REF, 3 }, 5, 3 },
    { "5 and 31 on a node", { 8, AT_KIND, 20 }, { 8, AT_FLAG, 1 }, 5, 8 },
    { "30 and 31 on a node", { 2, AT_FLAG, 18 }, { 2, AT_VALUE, 1 }, 30, 2 },
    { "31, then 5", { 3, AT_WIDTH, 1 }, { 4, AT_KIND, 20 }, 31, 3 },
    { "31, then 30", { 5, AT_FLAG, 1 }, { 8, AT_WIDTH, 9 }, 31, 5 },
    { "30, then 5", { 1, AT_REF, 3 }, { 8, AT_KIND, 20 }, 30, 1 },
    { "30, then 31", { 4, AT_WIDTH, 9 }, { 5, AT_FLAG, 1 }, 30, 4 },
    { "5, then 30", { 2, AT_KIND, 20 }, { 4, AT_WIDTH, 9 }, 5, 2 },
    { "a span, then 5", { 0, AT_SPAN, 9 }, { 8, AT_KIND, 20 }, 5, 8 },
    { "a span, then 30", { 0, AT_SPAN, 9 }, { 8, AT_WIDTH, 9 }, 30, 8 },
    { "31, then a span", { 3, AT_FLAG, 1 }, { 8, AT_SPAN, 0 }, 31, 3 },
    { "a span", ALONE(8, AT_SPAN, 0), 6, 0 },
};

static void spoil(const struct spoilt *s)
{
    parts.nodes.bytes[20 * s->node + s->at] = (uint8_t)s->byte;
}

static void make_faulty(const struct faulty *f)
{
    make_trim();
    spoil(&f->first);
    spoil(&f->second);
    finish(&parts, &routine);
}

/* A `constant_value` is refused as a run is, whatever node is asked for. */
static void test_faulty(const struct faulty *f)
{
    make_faulty(f);
    refused_at(f->what, f->number, f->node, 257, 65536);
    refused_at(f->what, f->number, f->node, 0, 0);
    no_constant_at(f->what, 0, 65536, f->number, f->node);
    no_constant_at(f->what, UINT32_MAX, 0, f->number, f->node);
    world.length = call.length = 0;
    refused_at(f->what, f->number, f->node, 257, 65536);
}

static void test_nodes(void)
{
    size_t i;
    test_faulty(&barred);
    for (i = 0; i < sizeof faults / sizeof *faults; i++)
        test_faulty(&faults[i]);
}

/* A node cut off is no node; those before it are looked at. */
static void test_cut_nodes(void)
{
    const struct spoilt before = { 4, AT_WIDTH, 0 };
    make_faulty(&barred);
    parts.nodes.length--;
    finish(&parts, &routine);
    refused("a faulty node cut off", 6, 257, 65536);
    no_constant("a faulty node cut off", 0, 65536, 6);
    spoil(&before);
    finish(&parts, &routine);
    refused_at("a faulty node before one that is cut off", 30, 4, 257, 65536);
    no_constant_at("a faulty node before one that is cut off", 0, 65536, 30, 4);
}

/* ---- Threads: each with buffers of its own, over the same files */

#define THREADS 4

struct caller {
    uint8_t record[1024], workspace[EMULATE_WORKSPACE_NEEDED];
    bool right;
};

static void *call_often(void *given)
{
    struct caller *me = given;
    int i;
    me->right = true;
    for (i = 0; i < 50; i++) {
        struct emulate_answer answer =
            run(routine.bytes, routine.length, world.bytes, world.length, call.bytes, call.length,
                me->record, sizeof me->record, me->workspace, sizeof me->workspace);
        me->right = me->right && answer.number == 0
            && same(emulate_record(me->record, answer), &expected);
    }
    return NULL;
}

static void test_threads(void)
{
    static struct caller callers[THREADS];
    pthread_t threads[THREADS];
    int i;
    now = "threads at once";
    for (i = 0; i < THREADS; i++) {
        if (pthread_create(&threads[i], NULL, call_often, &callers[i]) != 0)
            exit(2);
    }
    for (i = 0; i < THREADS; i++) {
        pthread_join(threads[i], NULL);
        CHECK(callers[i].right);
    }
}

/* ---- All of it */

static void write_file(const char *folder, const char *name, const char *sort,
                       const struct made *file)
{
    char path[4096];
    FILE *out;
    snprintf(path, sizeof path, "%s/%s-%s.bin", folder, name, sort);
    out = fopen(path, "wb");
    if (out == NULL || fwrite(file->bytes, 1, file->length, out) != file->length
        || fclose(out) != 0) {
        perror(path);
        exit(2);
    }
}

static void write_files(const char *folder, const char *name)
{
    write_file(folder, name, "routine", &routine);
    write_file(folder, name, "world", &world);
    write_file(folder, name, "call", &call);
}

/* A routine at hand whose record is `expected`. */
static void test_whole(const char *name, const char *folder)
{
    test_edges();
    test_again();
    test_unwritten();
    test_threads();
    if (folder != NULL)
        write_files(folder, name);
}

int main(int count, char **words)
{
    const char *folder = count > 1 ? words[1] : NULL;
    now = "lengths";
    CHECK(sizeof(struct emulate_answer) == 8);
    CHECK(sizeof(struct emulate_constant) == 24);
    make_probe();
    probe_record(&expected);
    CHECK(expected.length == 802);
    test_whole("probe", folder);
    make_trim();
    trim_record(&expected);
    CHECK(expected.length == 257);
    test_whole("trim", folder);
    test_calls();
    test_empty_files();
    test_faults();
    test_long_files();
    test_fold();
    test_bools();
    test_stores();
    test_nodes();
    test_cut_nodes();
    if (folder != NULL) {
        make_faulty(&barred);
        write_files(folder, "barred");
    }
    return outcome("test");
}
