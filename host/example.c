/* An example host: example [--questions] [--record FILE] ROUTINE WORLD CALL
 *
 * Loads the three files, lends buffers, runs, and prints what came out. Ends with 0, with 1 after a
 * refusal, and with 2 where it could not do what was asked. */
#include <inttypes.h>
#include <stdio.h>
#include <stdlib.h>
#include <string.h>

#include "emulate.h"

static const char usage[] =
    " [--questions] [--record FILE] ROUTINE WORLD CALL\n"
    "    --questions      print alone what the run asked of the world, with the answers\n"
    "    --record FILE    write the record into FILE too\n";

/* ---- Files */

/* One byte more than a file may have, so that one that is too long is refused as such. */
struct file {
    uint8_t bytes[EMULATE_FILE_LONGEST + 1];
    size_t length;
};

static struct file routine, world, call;

static bool load(struct file *file, const char *path)
{
    bool loaded;
    FILE *in = fopen(path, "rb");
    if (in == NULL) {
        perror(path);
        return false;
    }
    file->length = fread(file->bytes, 1, sizeof file->bytes, in);
    loaded = !ferror(in);
    if (!loaded)
        perror(path);
    fclose(in);
    return loaded;
}

static bool save(struct emulate_bytes bytes, const char *path)
{
    bool saved;
    FILE *out = fopen(path, "wb");
    if (out == NULL) {
        perror(path);
        return false;
    }
    saved = fwrite(bytes.first, 1, bytes.length, out) == bytes.length;
    saved = fclose(out) == 0 && saved;
    if (!saved)
        perror(path);
    return saved;
}

/* ---- The run */

/* The record's buffer: what is lent first, and the longest that a record can fill. */
#define BUFFER_FIRST ((size_t)1 << 20)
#define BUFFER_LONGEST ((size_t)UINT32_MAX)

static struct emulate_answer run_into(uint8_t *record, size_t length)
{
    static uint8_t workspace[EMULATE_WORKSPACE_NEEDED];
    return run(routine.bytes, routine.length, world.bytes, world.length, call.bytes, call.length,
               record, length, workspace, sizeof workspace);
}

/* Runs again with twice the buffer, as long as the record does not fit. A refused run leaves
 * nothing to go on by, so each try is a whole run: a host that knows how long its records are lends
 * that at once. Gives the buffer, to be freed; NULL where there is no memory for one. */
static uint8_t *run_whole(struct emulate_answer *answer)
{
    size_t length = BUFFER_FIRST;
    uint8_t *record = malloc(length);
    while (record != NULL) {
        *answer = run_into(record, length);
        if (answer->number != EMULATE_RECORD_LONG || length == BUFFER_LONGEST)
            return record;
        free(record);
        length = length > BUFFER_LONGEST / 2 ? BUFFER_LONGEST : 2 * length;
        record = malloc(length);
    }
    fprintf(stderr, "no memory for a record buffer of %zu bytes\n", length);
    return NULL;
}

/* ---- Printing */

static struct emulate_bytes routine_file(void)
{
    struct emulate_bytes file;
    file.first = routine.bytes;
    file.length = routine.length;
    return file;
}

/* Letters of the routine file; where they are not there, the number by which they were meant. */
static void print_letters(struct emulate_bytes letters, uint16_t number)
{
    if (letters.first != NULL)
        printf("%.*s", (int)letters.length, (const char *)letters.first);
    else
        printf("%u", (unsigned)number);
}

static void print_name(uint16_t number)
{
    print_letters(emulate_name(routine_file(), number), number);
}

static void print_type(uint16_t number)
{
    print_letters(emulate_type(routine_file(), number), number);
}

static void print_value(struct emulate_value value)
{
    if (!value.known)
        printf("unknown");
    else if (value.is_signed)
        printf("%" PRId64, emulate_integer(value));
    else
        printf("%" PRIu64, value.number);
    printf(" (%" PRIu32 " bits, %s)", value.bits, value.is_signed ? "signed" : "unsigned");
}

static void print_address(bool has_address, uint64_t address)
{
    if (has_address)
        printf(" at 0x%" PRIx64, address);
}

static void print_reason(const struct emulate_stop *stop)
{
    printf(": %s", emulate_reason_text(stop->reason));
    switch (stop->reason) {
    case EMULATE_REASON_NO_CASE:
        printf(": 0x%" PRIx64, stop->number);
        break;
    case EMULATE_REASON_VALUE:
        print_address(true, stop->number);
        break;
    case EMULATE_REASON_WIDTH:
        printf(": ");
        print_name(stop->name);
        break;
    case EMULATE_REASON_ZERO_DIVISOR:
        break;
    default:
        printf(": node %" PRIu32, stop->node);
    }
}

static void print_stop(const struct emulate_stop *stop)
{
    printf("stop: %s", emulate_stop_text(stop->kind));
    print_address(stop->has_address, stop->address);
    switch (stop->kind) {
    case EMULATE_STOP_VALUE:
        printf(": ");
        print_value(stop->value);
        break;
    case EMULATE_STOP_STEPS:
    case EMULATE_STOP_NO_BLOCK:
        printf(": %" PRIu64, stop->number);
        break;
    case EMULATE_STOP_HALTED:
        printf(": 0x%" PRIx64, stop->number);
        break;
    case EMULATE_STOP_UNKNOWN:
        print_reason(stop);
        break;
    }
    printf("\n");
}

static void print_note(const struct emulate_step *step)
{
    struct emulate_bytes taken = step->taken;
    uint16_t name;
    if (step->note != EMULATE_NOTE_NONE)
        printf("; %s", emulate_note_text(step->note));
    if (step->note == EMULATE_NOTE_FIELDS)
        printf(": %" PRIu32, step->note_fields);
    if (step->note == EMULATE_NOTE_VALUE) {
        printf(": ");
        print_value(step->note_value);
    }
    print_address(step->note == EMULATE_NOTE_FIELDS || step->note == EMULATE_NOTE_VALUE,
                  step->note_address);
    for (; emulate_read_name(taken, &name) > 0; taken = emulate_after(taken, 2)) {
        printf(taken.length == step->taken.length ? ": " : ", ");
        print_name(name);
    }
}

static void print_step(const struct emulate_step *step)
{
    printf("step: block %" PRIu32 ", statement %" PRIu32, step->block, step->statement);
    print_address(step->has_address, step->address);
    if (step->wrote) {
        printf("; ");
        print_name(step->name);
        printf(" = ");
        print_value(step->value);
    }
    print_note(step);
    printf("\n");
}

/* ---- Questions */

static void print_arguments(struct emulate_bytes values)
{
    const char *before = " with ";
    struct emulate_value value;
    size_t used;
    for (; (used = emulate_read_value(values, &value)) > 0; values = emulate_after(values, used)) {
        printf("%s", before);
        print_value(value);
        before = ", ";
    }
}

/* The address or the size of a name, so many bytes from an address on, or a call of a function. */
static void print_asked(const struct emulate_question *asked)
{
    printf("asked: %s: ", emulate_asked_text(asked->kind));
    if (asked->kind == EMULATE_ASKED_READ)
        printf("%u", (unsigned)asked->asked);
    else
        print_name(asked->name);
    print_address(asked->kind == EMULATE_ASKED_READ || asked->kind == EMULATE_ASKED_CALL,
                  asked->address);
    print_arguments(asked->values);
}

/* A call is never answered: no world follows one. */
static void print_answer(const struct emulate_question *asked)
{
    size_t i;
    if (!asked->answered && asked->bytes.length == 0)
        printf("; no answer");
    else if (asked->kind == EMULATE_ASKED_ADDRESS_OF)
        printf("; answer: 0x%" PRIx64, asked->number);
    else if (asked->kind == EMULATE_ASKED_SIZE_OF)
        printf("; answer: %" PRIu64, asked->number);
    else
        printf("; answer:");
    for (i = 0; i < asked->bytes.length; i++)
        printf(" %02x", (unsigned)asked->bytes.first[i]);
    printf("\n");
}

static void print_questions(struct emulate_bytes record)
{
    struct emulate_bytes rest = emulate_body(record, EMULATE_BODY_QUESTIONS);
    struct emulate_question asked;
    size_t used;
    if (rest.length == 0)
        printf("asked: nothing\n");
    for (; (used = emulate_read_question(rest, &asked)) > 0; rest = emulate_after(rest, used)) {
        print_asked(&asked);
        print_answer(&asked);
    }
}

/* ---- The other bodies of a record */

/* The routine's head begins with its name (2 bytes), its address (8) and its return type (2). */
static void print_head(void)
{
    struct emulate_bytes head = emulate_file_body(routine_file(), 2);
    if (head.length < 12)
        return;
    printf("routine: ");
    print_type((uint16_t)emulate_number(head.first + 10, 2));
    printf(" ");
    print_name((uint16_t)emulate_number(head.first, 2));
    print_address(true, emulate_number(head.first + 2, 8));
    printf("\n");
}

static void print_end(struct emulate_bytes record)
{
    struct emulate_stop stop;
    struct emulate_counts counts;
    if (emulate_read_stop(emulate_body(record, EMULATE_BODY_STOP), &stop) > 0)
        print_stop(&stop);
    if (emulate_read_counts(emulate_body(record, EMULATE_BODY_COUNTS), &counts) > 0)
        printf("blocks %" PRIu32 ", steps %" PRIu32 ", units %" PRIu32 "\n", counts.entered,
               counts.recorded, counts.spent);
}

static void print_steps(struct emulate_bytes record)
{
    struct emulate_bytes rest = emulate_body(record, EMULATE_BODY_STEPS);
    struct emulate_step step;
    size_t used;
    for (; (used = emulate_read_step(rest, &step)) > 0; rest = emulate_after(rest, used))
        print_step(&step);
}

static void print_variables(struct emulate_bytes record)
{
    struct emulate_bytes rest = emulate_body(record, EMULATE_BODY_VARIABLES);
    struct emulate_variable variable;
    size_t used;
    for (; (used = emulate_read_variable(rest, &variable)) > 0; rest = emulate_after(rest, used)) {
        printf("variable: ");
        print_name(variable.name);
        printf(" = ");
        print_value(variable.value);
        printf("\n");
    }
}

static void print_memory(struct emulate_bytes record)
{
    struct emulate_bytes rest = emulate_body(record, EMULATE_BODY_MEMORY);
    struct emulate_written written;
    size_t used;
    for (; (used = emulate_read_written(rest, &written)) > 0; rest = emulate_after(rest, used))
        printf("written: %02x at 0x%" PRIx64 "\n", (unsigned)written.byte, written.address);
}

/* ---- The whole */

struct options {
    bool questions;     /* print them alone */
    const char *record; /* the file to write the record into, or NULL */
    char **files;       /* routine, world, call */
};

static bool read_options(int count, char **words, struct options *options)
{
    int at = 1;
    options->questions = false;
    options->record = NULL;
    for (; at < count && strncmp(words[at], "--", 2) == 0; at++) {
        if (strcmp(words[at], "--questions") == 0)
            options->questions = true;
        else if (strcmp(words[at], "--record") == 0 && at + 1 < count)
            options->record = words[++at];
        else
            return false;
    }
    options->files = words + at;
    return count - at == 3;
}

static void print_number(struct emulate_answer answer)
{
    printf("number: %" PRIu32 ", %s", answer.number, emulate_refusal_text(answer.number));
    if (emulate_tells_node(answer.number))
        printf(": node %" PRIu32, answer.length);
    printf("\n");
}

static void print_record(struct emulate_bytes record)
{
    print_head();
    print_end(record);
    print_steps(record);
    print_variables(record);
    print_memory(record);
    print_questions(record);
}

/* What came out of a run, and how the program ends. */
static int report(const struct options *options, struct emulate_answer answer,
                  const uint8_t *buffer)
{
    struct emulate_bytes record = emulate_record(buffer, answer);
    bool ran = answer.number == EMULATE_RAN;
    if (ran && options->record != NULL && !save(record, options->record))
        return 2;
    if (ran && options->questions) {
        print_questions(record);
    } else {
        print_number(answer);
        if (ran)
            print_record(record);
    }
    if (fflush(stdout) != 0) {
        perror("standard output");
        return 2;
    }
    return ran ? 0 : 1;
}

int main(int count, char **words)
{
    struct options options;
    struct emulate_answer answer;
    uint8_t *buffer;
    int status;
    if (!read_options(count, words, &options)) {
        fprintf(stderr, "%s%s", words[0], usage);
        return 2;
    }
    if (!load(&routine, options.files[0]) || !load(&world, options.files[1])
        || !load(&call, options.files[2]))
        return 2;
    buffer = run_whole(&answer);
    if (buffer == NULL)
        return 2;
    status = report(&options, answer, buffer);
    free(buffer);
    return status;
}
