/* Runs the deepest chains of 64 nodes and the widest trees on a thread with a stack of 64 KiB, tells
 * how much of it a call used at most, and ends with 1 if that is more than EMULATE_STACK_NEEDED. */
#define _POSIX_C_SOURCE 200112L
#include <pthread.h>

#include "emulate.h"
#include "files.h"

/* ---- Chains */

#define DEEPEST 64

/* Where the symbol lies. */
#define SYMBOL_AT 4096

/* A node of a chain, with what stands beside the next one: nodes before it and after it. */
struct link {
    char letter;
    enum kind kind;
    unsigned before, after;
};

static const struct link links[] = {
    { 'c', CAST, 0, 0 },
    { 'd', DEREF, 0, 0 },
    { '&', ADDRESS_OF, 0, 0 },
    { '=', ASSIGN, 1, 0 },  /* the right side */
    { '*', ASSIGN, 0, 1 },  /* the left side */
    { '?', TERNARY, 0, 2 }, /* the condition */
    { ':', TERNARY, 2, 0 }, /* the last arm */
    { '(', CALL, 1, 0 },    /* the one argument */
    { ',', CALL, 16, 0 },   /* the last of 16 */
    { '+', BINARY, 1, 0 },
    { '-', BINARY, 0, 1 },
    { 'i', INTRINSIC, 0, 0 },
    { 'r', RETURN, 0, 0 },
    { '{', STRUCT_INIT, 0, 0 },
    { 'f', FIELD, 0, 0 },
    { 's', ASSIGN, 2, 0 }, /* a store through a pointer */
};

struct chain {
    const char *name;
    const char *letters; /* over and over */
    const char *lowest;  /* then these, if any */
};

static const struct chain chains[] = {
    { "casts", "c", "" },
    { "loads", "d", "" },
    { "loads of casts", "dc", "" },
    { "addresses", "&", "" },
    { "assigns", "=", "" },
    { "stores in pointers", "*d", "" },
    { "stores in cast pointers", "*dc", "" },
    { "conditions", "?", "" },
    { "arms", ":", "" },
    { "calls", "(", "" },
    { "calls with 16 arguments", ",", "" },
    { "right operands", "+", "" },
    { "left operands", "-", "" },
    { "intrinsics", "i", "" },
    { "returns", "r", "" },
    { "struct stores", "s{f", "" },
    { "assigned calls", "=(", "" },
    { "assigned conditions in calls", "=?(", "" },
    { "all sorts", "=?(,+-cd*dir", "" },
    { "casts of a load", "c", "d" },
    { "casts of a load of a cast", "c", "dc" },
    { "casts of an assign", "c", "=" },
    { "casts of a store", "c", "*d" },
    { "casts of a store in a cast pointer", "c", "*dc" },
    { "casts of a stored value", "c", "sc" },
    { "casts of a struct store", "c", "s{f" },
    { "casts of a call", "c", "(" },
    { "casts of a call with 16 arguments", "c", "," },
    { "casts of a call that takes an address", "c", "(&" },
    { "casts of an operand", "c", "+" },
    { "casts of an intrinsic", "c", "i" },
    { "a wide intrinsic", "I", "" },
    { "a wide struct", "S", "" },
};

/* What stands at the end of a chain: a constant, a symbol in the world's memory, or one that is in
 * memory that the run has written. */
enum end { CONSTANT_END, SYMBOL_END, WRITTEN_END, ENDINGS };

static const char *const endings[ENDINGS] = { "a constant", "a symbol", "a written symbol" };

static struct routine parts;
static struct made routine, world, call;

static const struct link *link_of(char letter)
{
    size_t i = 0;
    while (links[i].letter != letter)
        i++;
    return &links[i];
}

/* The link at a level; where a Return stands on top, the chain begins below it. */
static const struct link *link_at(const struct chain *chain, bool returned, size_t level)
{
    size_t lowest = DEEPEST - 1 - strlen(chain->lowest);
    if (returned && level == 0)
        return link_of('r');
    if (level >= lowest)
        return link_of(chain->lowest[level - lowest]);
    return link_of(chain->letters[(level - returned) % strlen(chain->letters)]);
}

/* What stands before the next node: a callee, a place to assign to, or constants. */
static void put_before(const struct link *l)
{
    unsigned i = 0;
    if (l->kind == CALL) {
        node(&parts, FUNCTION_NAME, 0, 0, 0, 1, 0);
        i = 1;
    } else if (l->letter == '=') {
        var(&parts, 2);
        i = 1;
    } else if (l->letter == 's') {
        over(&parts, DEREF, 2);
        i = 1;
    }
    for (; i < l->before; i++)
        constant(&parts, 1, 1);
}

static void put_end(enum end end)
{
    if (end == CONSTANT_END)
        constant(&parts, 1, 1);
    else
        var(&parts, 1);
}

/* A tree whose longest chain has 64 nodes, or 63 where a field would be missing at its end. */
static void put_chain(const struct chain *chain, enum end end, bool returned)
{
    uint32_t span = 1;
    size_t level, last = DEEPEST - 1;
    unsigned i;
    if (link_at(chain, returned, last - 1)->kind == STRUCT_INIT)
        last--;
    for (level = 0; level < last; level++) {
        const struct link *l = link_at(chain, returned, level);
        span += 1 + l->before + l->after;
    }
    for (level = 0; level < last; level++) {
        const struct link *l = link_at(chain, returned, level);
        over(&parts, l->kind, span);
        put_before(l);
        span -= 1 + l->before + l->after;
    }
    put_end(end);
    while (level > 0) {
        level--;
        for (i = 0; i < link_at(chain, returned, level)->after; i++)
            constant(&parts, 1, 1);
    }
}

/* As many nodes side by side as a file has room for. */
#define WIDEST 3240

/* An Intrinsic over constants. */
static void put_wide_intrinsic(void)
{
    unsigned i;
    over(&parts, INTRINSIC, WIDEST);
    for (i = 1; i < WIDEST; i++)
        constant(&parts, 1, 1);
}

/* A struct stored to the address 1, of fields that are constants. */
static void put_wide_struct(void)
{
    unsigned i, fields = (WIDEST - 4) / 2;
    over(&parts, ASSIGN, 2 * fields + 4);
    over(&parts, DEREF, 2);
    constant(&parts, 1, 1);
    over(&parts, STRUCT_INIT, 2 * fields + 1);
    for (i = 0; i < fields; i++) {
        over(&parts, FIELD, 2);
        constant(&parts, 1, 1);
    }
}

static void put_tree(const struct chain *chain, enum end end, bool returned)
{
    if (chain->letters[0] == 'I')
        put_wide_intrinsic();
    else if (chain->letters[0] == 'S')
        put_wide_struct();
    else
        put_chain(chain, end, returned);
}

/* A store of 1 to where the symbol is, as a statement of its own. */
static void put_store(void)
{
    uint32_t root = (uint32_t)(parts.nodes.length / 20);
    over(&parts, ASSIGN, 4);
    over(&parts, DEREF, 2);
    constant(&parts, 2, SYMBOL_AT);
    constant(&parts, 8, 1);
    statement(&parts, 0, 0, root);
}

/* Where the chain stands. */
enum place { STATEMENT, RETURNED, CONDITION, BY_ITSELF, PLACES };

static const char *const places[PLACES] = {
    "as a statement", "under a return", "as a condition", "by itself"
};

static void make_world(void)
{
    static const uint8_t bytes[16] = { 1 };
    static struct world w;
    memset(&w, 0, sizeof w);
    put_text(&w.names, "s");
    symbol(&w, 0, 8, SYMBOL_AT);
    region(&w, SYMBOL_AT - 8, bytes, sizeof bytes);
    finish_world(&w, &world);
}

static void make_files(const struct chain *chain, enum end end, enum place place)
{
    unsigned first = end == WRITTEN_END;
    begin(&parts, 0, 0, 0, 0);
    put_text(&parts.names, "f");
    put_text(&parts.names, "s");
    put_text(&parts.names, "x");
    put_text(&parts.types, "long *");
    variable(&parts, 2, 0);
    put_tree(chain, end, place == RETURNED);
    if (first)
        put_store();
    if (place == CONDITION) {
        block(&parts, first, BRANCH, 0, 1, 1);
    } else {
        statement(&parts, 0, 0, 0);
        block(&parts, first + 1, ENDS, 0, 0, 0);
    }
    finish(&parts, &routine);
    make_world();
    make_call(&call, 10, 8, NULL, 0);
}

/* ---- A stack of 64 KiB, with room below it that shows how far a call goes */

#define STACK 65536
#define ROOM 65536
#define PATTERN 0xa5

static union {
    uint8_t bytes[ROOM + STACK];
    long double aligned;
} stack;

static uint8_t record[1 << 20], workspace[EMULATE_WORKSPACE_NEEDED];

struct task {
    enum place place;
    uint32_t number;
    uint8_t *top; /* where the call begins */
};

static void *carry_out(void *given)
{
    struct task *task = given;
    uint8_t here = PATTERN;
    task->top = &here;
    if (task->place == BY_ITSELF)
        task->number = constant_value(routine.bytes, routine.length, 0, workspace,
                                      sizeof workspace).refusal;
    else
        task->number = run(routine.bytes, routine.length, world.bytes, world.length, call.bytes,
                           call.length, record, sizeof record, workspace, sizeof workspace).number;
    return NULL;
}

/* Carries a task out on the stack; gives the bytes that the call used. */
static size_t used_by(struct task *task)
{
    pthread_attr_t attributes;
    pthread_t thread;
    size_t lowest = 0;
    memset(stack.bytes, PATTERN, sizeof stack.bytes);
    if (pthread_attr_init(&attributes) != 0
        || pthread_attr_setstack(&attributes, stack.bytes + ROOM, STACK) != 0
        || pthread_create(&thread, &attributes, carry_out, task) != 0
        || pthread_join(thread, NULL) != 0) {
        fputs("no thread with a stack of its own\n", stderr);
        exit(2);
    }
    pthread_attr_destroy(&attributes);
    while (stack.bytes[lowest] == PATTERN)
        lowest++;
    return (size_t)(task->top - (stack.bytes + lowest));
}

/* What was used at most, and by what. */
struct most {
    size_t used;
    const char *chain, *end, *place;
};

/* Tells whether the files were accepted; keeps the most that a call used. */
static bool measure(const struct chain *chain, enum end end, enum place place, struct most *most)
{
    struct task task = { place, 0, NULL };
    size_t used;
    make_files(chain, end, place);
    used = used_by(&task);
    if (used > most->used) {
        most->used = used;
        most->chain = chain->name;
        most->end = endings[end];
        most->place = places[place];
    }
    if (task.number != 0)
        printf("%s over %s %s: refused by %u\n", chain->name, endings[end], places[place],
               (unsigned)task.number);
    return task.number == 0;
}

int main(void)
{
    struct most most = { 0, "", "", "" };
    size_t i;
    int end, place;
    bool fine = true;
    for (i = 0; i < sizeof chains / sizeof *chains; i++)
        for (end = 0; end < ENDINGS; end++)
            for (place = 0; place < PLACES; place++)
                fine &= measure(&chains[i], (enum end)end, (enum place)place, &most);
    printf("%lu of %lu bytes of stack: %s over %s %s\n", (unsigned long)most.used,
           (unsigned long)EMULATE_STACK_NEEDED, most.chain, most.end, most.place);
    return !fine || most.used > EMULATE_STACK_NEEDED;
}
