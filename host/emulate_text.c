/* The texts of the numbers in an answer and in a record. */
#include "emulate.h"

static const char none[] = "no such number";

/* The text of a number, of those counted from 0. */
static const char *text_of(const char *const *texts, size_t count, uint32_t number)
{
    return number < count ? texts[number] : none;
}

const char *emulate_refusal_text(uint32_t number)
{
    static const char *const input[] = {
        "not refused",
        "the routine's table is wrong, or the file is too long",
        "the routine's names are wrong",
        "the routine's types are wrong",
        "the routine's head is wrong",
        "a node has an unknown kind",
        "the nodes are no trees: a span, a child count, the depth or a field's place is wrong",
        "the statements or blocks are wrong, or a root is no node or is a field",
        "the world file is wrong or too long",
        "the call file is wrong or over its limits; of constant_value: no such node, or it is a field",
    };
    static const char *const state[] = {
        "the workspace is under 65,536 bytes",
        "the run writes over 4,096 addresses",
        "the record is longer than its buffer",
    };
    static const char *const nodes[] = {
        "a node has a width, a flag or a reference that its kind does not allow",
        "a node has a field that is not 0 and that its kind does not use",
    };
    if (number < 20)
        return text_of(input, sizeof input / sizeof *input, number);
    if (number < 30)
        return text_of(state, sizeof state / sizeof *state, number - 20);
    return text_of(nodes, sizeof nodes / sizeof *nodes, number - 30);
}

const char *emulate_body_text(uint32_t body)
{
    static const char *const texts[] = {
        "stop", "counts", "steps", "variables", "memory", "questions",
    };
    return text_of(texts, sizeof texts / sizeof *texts, body);
}

const char *emulate_stop_text(uint32_t kind)
{
    static const char *const texts[] = {
        "returned with a value",
        "returned",
        "the step limit is spent",
        "the run cannot go on",
        "no such block",
        "the routine has no blocks",
        "the call does not return",
        "the code there is not analyzed",
    };
    return text_of(texts, sizeof texts / sizeof *texts, kind);
}

const char *emulate_reason_text(uint32_t reason)
{
    static const char *const texts[] = {
        "no reason",
        "the branch depends on an unknown value",
        "the switch depends on an unknown value",
        "no case of the switch takes the value",
        "a struct stored to what is no pointer's target",
        "the store goes to an unknown address",
        "an unknown value stored",
        "a store to a symbol whose width is not told",
        "a store to what cannot be stored to",
        "a division by zero",
    };
    return text_of(texts, sizeof texts / sizeof *texts, reason);
}

const char *emulate_note_text(uint32_t note)
{
    static const char *const texts[] = {
        "no note",
        "fields written",
        "value written",
        "its result is unknown",
        "not followed; its result is unknown, and so is what it wrote to memory",
        "not followed; its result is unknown, and so are the names that it took",
    };
    return text_of(texts, sizeof texts / sizeof *texts, note);
}

const char *emulate_asked_text(uint32_t kind)
{
    static const char *const texts[] = {
        none,
        "the address of a name",
        "the size of a name",
        "a read of bytes",
        "a call of a function",
    };
    return text_of(texts, sizeof texts / sizeof *texts, kind);
}
