/* A host that has a `run` and a `constant_value` of its own, and calls the library's by their
 * prefixed names. OWN is `static`, or empty where the linker is to see the host's own as well. Says
 * what is not so and ends with 1. */
#define EMULATE_PREFIXED
#include "emulate.h"
#include "routines.h"

/* ---- The host's own */

OWN int run(int speed)
{
    return speed + 1;
}

OWN int constant_value(void)
{
    return 5;
}

/* ---- The library's: `trim` of docs/FILES.md, and the node of its 200 */

#define NODE_OF_200 4

static uint8_t record[EMULATE_RECORD_LEAST + 2 * EMULATE_SIZE_STEP + 2 * EMULATE_SIZE_VARIABLE];
static uint8_t workspace[EMULATE_WORKSPACE_NEEDED];

static bool runs_trim(void)
{
    struct emulate_stop stop;
    struct emulate_answer answer =
        emulate_run(routine.bytes, routine.length, world.bytes, world.length, call.bytes,
                    call.length, record, sizeof record, workspace, sizeof workspace);
    if (answer.number != EMULATE_RAN || answer.length != sizeof record)
        return false;
    emulate_read_stop(emulate_body(emulate_record(record, answer), EMULATE_BODY_STOP), &stop);
    return stop.kind == EMULATE_STOP_VALUE && emulate_integer(stop.value) == -6;
}

static bool evaluates_200(void)
{
    struct emulate_constant constant = emulate_constant_value(
        routine.bytes, routine.length, NODE_OF_200, workspace, sizeof workspace);
    return constant.refusal == EMULATE_RAN && constant.known && constant.is_signed
        && constant.bits == 8 && constant.number == 200;
}

static bool say(bool holds, const char *what)
{
    if (!holds)
        printf("prefixed.c: not so: %s\n", what);
    return holds;
}

int main(void)
{
    bool fine = true;
    make_trim();
    fine &= say(run(6) == 7 && constant_value() == 5, "the host's own are called by their names");
    fine &= say(runs_trim(), "emulate_run runs trim");
    fine &= say(evaluates_200(), "emulate_constant_value gives 200");
    return !fine;
}
