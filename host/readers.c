/* Every reader of the header on records that come back, whole and cut short, and the texts. Says
 * which check failed and ends with 1. */
#include "lending.h"

/* ---- Readers */

static bool is_value(struct emulate_value value, bool is_known, bool is_signed, uint32_t bits,
                     uint64_t number)
{
    return value.known == is_known && value.is_signed == is_signed && value.bits == bits
        && value.number == number;
}

static void check_trim_readers(struct emulate_bytes made)
{
    struct emulate_bytes steps = emulate_body(made, EMULATE_BODY_STEPS);
    struct emulate_stop stop = { 0 };
    struct emulate_step step = { 0 };
    CHECK(emulate_read_stop(emulate_body(made, EMULATE_BODY_STOP), &stop) == 39);
    CHECK(stop.kind == EMULATE_STOP_VALUE && stop.reason == EMULATE_REASON_NONE);
    CHECK(is_value(stop.value, true, true, 32, 0xfffffffa));
    CHECK(emulate_integer(stop.value) == -6);
    CHECK(emulate_read_step(steps, &step) == 63);
    CHECK(step.has_address && step.address == 0x1000 && step.block == 0 && step.statement == 0);
    CHECK(step.wrote && step.name == SUM && is_value(step.value, true, true, 8, 44));
    CHECK(step.note == EMULATE_NOTE_NONE && step.taken.length == 0);
    steps = emulate_after(steps, 63);
    CHECK(emulate_read_step(steps, &step) == 63);
    CHECK(!step.has_address && step.address == 0 && step.statement == 1 && !step.wrote);
    steps = emulate_after(steps, 63);
    CHECK(steps.length == 0);
    CHECK(emulate_read_step(steps, &step) == 0);
    CHECK(emulate_body(made, EMULATE_BODY_MEMORY).length == 0);
    CHECK(emulate_body(made, EMULATE_BODY_QUESTIONS).length == 0);
}

/* The steps of `probe`, by their notes. */
static void check_probe_steps(struct emulate_bytes rest)
{
    static const uint8_t notes[7] = { 2, 0, 5, 3, 4, 1, 0 };
    struct emulate_step step = { 0 };
    uint16_t first = 0, second = 0;
    size_t i;
    for (i = 0; i < 7; i++) {
        size_t used = emulate_read_step(rest, &step);
        CHECK(used == (i == 2 ? 67u : 63u));
        CHECK(step.statement == i && step.note == notes[i] && step.wrote == (i == 1));
        if (i == 0)
            CHECK(step.note_address == 0x3000 && is_value(step.note_value, 1, 0, 16, 0x1234));
        if (i == 2) {
            CHECK(step.taken.length == 4);
            CHECK(emulate_read_name(step.taken, &first) == 2 && first == BUF);
            CHECK(emulate_read_name(emulate_after(step.taken, 2), &second) == 2 && second == AUX);
            CHECK(emulate_read_name(emulate_after(step.taken, 4), &second) == 0);
        }
        if (i == 5)
            CHECK(step.note_address == 0x3010 && step.note_fields == 2);
        rest = emulate_after(rest, used);
    }
    CHECK(rest.length == 0);
}

static void check_probe_call(const struct emulate_question *asked)
{
    struct emulate_bytes values = asked->values;
    struct emulate_value value = { 0 };
    CHECK(asked->name == F && asked->address == 0x5000 && asked->depth == 1 && !asked->answered);
    CHECK(values.length == 42);
    CHECK(emulate_read_value(values, &value) == 14 && is_value(value, false, false, 64, 0));
    values = emulate_after(values, 28);
    CHECK(emulate_read_value(values, &value) == 14 && is_value(value, true, true, 32, 5));
    CHECK(emulate_read_value(emulate_after(values, 14), &value) == 0);
}

/* The questions of `probe`: kinds, lengths, and what each kind holds. */
static void check_probe_questions(struct emulate_bytes rest)
{
    static const uint8_t kinds[9] = { 3, 1, 2, 1, 1, 4, 4, 1, 2 };
    static const size_t lengths[9] = { 15, 12, 12, 12, 12, 59, 17, 12, 12 };
    struct emulate_question asked = { 0 };
    size_t i;
    for (i = 0; i < 9; i++) {
        size_t used = emulate_read_question(rest, &asked);
        CHECK(used == lengths[i] && asked.kind == kinds[i]);
        if (i == 0) {
            CHECK(asked.address == 0x3000 && asked.asked == 4 && asked.bytes.length == 4);
            CHECK(memcmp(asked.bytes.first, "\xa0\xa1\xa2\xa3", 4) == 0);
        }
        if (i == 1)
            CHECK(asked.name == GAUGE && asked.answered && asked.number == 0x4000);
        if (i == 2)
            CHECK(asked.name == GAUGE && asked.answered && asked.number == 2);
        if (i == 3)
            CHECK(asked.name == BUF && !asked.answered && asked.number == 0);
        if (i == 5)
            check_probe_call(&asked);
        if (i == 6)
            CHECK(asked.name == F && asked.values.length == 0 && !asked.answered);
        rest = emulate_after(rest, used);
    }
    CHECK(rest.length == 0);
    CHECK(emulate_read_question(rest, &asked) == 0);
}

static void check_probe_readers(struct emulate_bytes made)
{
    struct emulate_bytes variables = emulate_body(made, EMULATE_BODY_VARIABLES);
    struct emulate_bytes memory = emulate_body(made, EMULATE_BODY_MEMORY);
    struct emulate_stop stop = { 0 };
    struct emulate_variable variable_read = { 0 };
    struct emulate_written written = { 0 };
    CHECK(emulate_read_stop(emulate_body(made, EMULATE_BODY_STOP), &stop) == 39);
    CHECK(stop.kind == EMULATE_STOP_UNKNOWN && stop.reason == EMULATE_REASON_WIDTH);
    CHECK(stop.has_address && stop.address == 0x2014 && stop.name == LOOSE);
    CHECK(variables.length == 32);
    CHECK(emulate_read_variable(emulate_after(variables, 16), &variable_read) == 16);
    CHECK(variable_read.name == BUF && is_value(variable_read.value, false, true, 32, 0));
    CHECK(memory.length == 63);
    CHECK(emulate_read_written(emulate_after(memory, 27), &written) == 9);
    CHECK(written.address == 0x3014 && written.byte == 0xfe);
    check_probe_steps(emulate_body(made, EMULATE_BODY_STEPS));
    check_probe_questions(emulate_body(made, EMULATE_BODY_QUESTIONS));
}

/* The readers as functions of one type. */
#define LENGTH_READ(what)                                  \
    static size_t what##_length(struct emulate_bytes from) \
    {                                                      \
        struct emulate_##what what;                        \
        return emulate_read_##what(from, &what);           \
    }

LENGTH_READ(stop)
LENGTH_READ(counts)
LENGTH_READ(step)
LENGTH_READ(variable)
LENGTH_READ(written)
LENGTH_READ(question)
LENGTH_READ(value)

/* A reader gives 0 for every part that is too short, and looks at nothing beyond it. */
static void check_short(size_t (*read)(struct emulate_bytes), struct emulate_bytes whole,
                        size_t length)
{
    size_t i;
    CHECK(read(whole) == length);
    for (i = 0; i < length && i < whole.length; i++) {
        uint8_t *bytes = malloc(i + (i == 0));
        struct emulate_bytes part;
        if (bytes == NULL)
            exit(2);
        memcpy(bytes, whole.first, i);
        part.first = bytes;
        part.length = i;
        CHECK(read(part) == 0);
        free(bytes);
    }
}

static void check_short_parts(struct emulate_bytes made)
{
    struct emulate_bytes steps = emulate_body(made, EMULATE_BODY_STEPS);
    struct emulate_bytes questions = emulate_body(made, EMULATE_BODY_QUESTIONS);
    struct emulate_bytes cut = made, none = { NULL, 0 };
    now = "parts that are too short";
    check_short(stop_length, emulate_body(made, EMULATE_BODY_STOP), 39);
    check_short(counts_length, emulate_body(made, EMULATE_BODY_COUNTS), 12);
    check_short(step_length, steps, 63);
    check_short(step_length, emulate_after(steps, 126), 67);
    check_short(variable_length, emulate_body(made, EMULATE_BODY_VARIABLES), 16);
    check_short(written_length, emulate_body(made, EMULATE_BODY_MEMORY), 9);
    check_short(question_length, questions, 15);
    check_short(question_length, emulate_after(questions, 15), 12);
    check_short(question_length, emulate_after(questions, 63), 59);
    check_short(value_length, emulate_after(questions, 79), 14);
    cut.length--;
    CHECK(emulate_body(cut, EMULATE_BODY_MEMORY).length == 63);
    CHECK(emulate_body(cut, EMULATE_BODY_QUESTIONS).length == 0);
    cut.length = 47;
    CHECK(emulate_body(cut, EMULATE_BODY_STOP).length == 0);
    CHECK(emulate_body(none, EMULATE_BODY_STOP).length == 0);
    CHECK(emulate_after(none, 1).length == 0);
}

/* ---- Names and types of a routine file */

static bool is_text(struct emulate_bytes found, const char *text)
{
    return found.first != NULL && found.length == strlen(text)
        && memcmp(found.first, text, found.length) == 0;
}

/* How many names and types, from number 0 on, are there in the first `length` bytes of a file. The
 * bytes are a copy of their own, so that a look beyond them is seen by a sanitizer or valgrind. */
static unsigned texts_within(struct emulate_bytes whole, size_t length)
{
    uint8_t *bytes = malloc(length + (length == 0));
    struct emulate_bytes part;
    unsigned found = 0;
    uint16_t i;
    if (bytes == NULL)
        exit(2);
    memcpy(bytes, whole.first, length);
    part.first = bytes;
    part.length = length;
    for (i = 0; i < 10; i++)
        found += (emulate_name(part, i).first != NULL) + (emulate_type(part, i).first != NULL);
    free(bytes);
    return found;
}

/* A file of a table, the names `a` and `beta`, and the types `int` and one without letters. */
static const uint8_t listing_two[] = {
    6, 0, 26, 0, 7, 0, 33, 0, 5, 0, 38, 0, 0, 0, 38, 0, 0, 0, 38, 0, 0, 0, 38, 0, 0, 0,
    1, 'a', 4, 'b', 'e', 't', 'a', 3, 'i', 'n', 't', 0
};

static void test_names(void)
{
    struct emulate_bytes whole = { listing_two, sizeof listing_two }, none = { NULL, 0 };
    size_t i;
    now = "names and types";
    CHECK(is_text(emulate_name(whole, 0), "a") && is_text(emulate_name(whole, 1), "beta"));
    CHECK(is_text(emulate_type(whole, 0), "int") && is_text(emulate_type(whole, 1), ""));
    CHECK(emulate_name(whole, 2).first == NULL && emulate_name(whole, UINT16_MAX).first == NULL);
    CHECK(emulate_type(whole, 2).first == NULL && emulate_type(whole, 2).length == 0);
    CHECK(emulate_name(none, 0).first == NULL && emulate_type(none, 0).first == NULL);
    for (i = 0; i <= whole.length; i++)
        CHECK(texts_within(whole, i) == (i < 33 ? 0u : i < 38 ? 2u : 4u));
}

/* With any byte wrong nothing outside the file is looked at; a name whose letters are not all there
 * is none. */
static void test_faulty_names(void)
{
    uint8_t bytes[sizeof listing_two];
    struct emulate_bytes faulty = { bytes, sizeof bytes };
    size_t i;
    now = "names and types of a faulty file";
    for (i = 0; i < sizeof bytes; i++) {
        memcpy(bytes, listing_two, sizeof bytes);
        bytes[i] ^= 0xff;
        CHECK(texts_within(faulty, sizeof bytes) <= 4);
    }
    memcpy(bytes, listing_two, sizeof bytes);
    bytes[28] = 5;
    CHECK(is_text(emulate_name(faulty, 0), "a") && emulate_name(faulty, 1).first == NULL);
}

static void test_integers(void)
{
    const struct emulate_value values[7] = {
        { true, true, 8, 0x80 }, { true, true, 8, 0x7f }, { true, true, 24, 0xffffff },
        { true, true, 64, UINT64_MAX }, { true, true, 64, (uint64_t)1 << 63 },
        { true, true, 64, INT64_MAX }, { true, false, 8, 0x80 }
    };
    now = "integers";
    CHECK(emulate_integer(values[0]) == -128);
    CHECK(emulate_integer(values[1]) == 127);
    CHECK(emulate_integer(values[2]) == -1);
    CHECK(emulate_integer(values[3]) == -1);
    CHECK(emulate_integer(values[4]) == INT64_MIN);
    CHECK(emulate_integer(values[5]) == INT64_MAX);
    CHECK(emulate_integer(values[6]) == 128);
}

/* ---- Texts */

static bool always(uint32_t number)
{
    (void)number;
    return true;
}

static bool is_refusal(uint32_t number)
{
    return number < 10 || (number >= 20 && number < 23) || number >= 30;
}

static bool is_question(uint32_t number)
{
    return number > 0;
}

/* Below `count` each number of a sort has a text of its own. */
static void check_texts(const char *(*text)(uint32_t), uint32_t count, bool (*of_sort)(uint32_t))
{
    uint32_t i, j;
    for (i = 0; i < count; i++) {
        bool none = strcmp(text(i), "no such number") == 0;
        CHECK(none == !of_sort(i));
        for (j = 0; j < i && !none; j++)
            CHECK(strcmp(text(i), text(j)) != 0);
    }
    CHECK(strcmp(text(count), "no such number") == 0);
    CHECK(strcmp(text(UINT32_MAX), "no such number") == 0);
}

static void test_texts(void)
{
    now = "texts";
    check_texts(emulate_refusal_text, 32, is_refusal);
    check_texts(emulate_stop_text, 8, always);
    check_texts(emulate_reason_text, 10, always);
    check_texts(emulate_note_text, 6, always);
    check_texts(emulate_body_text, 6, always);
    check_texts(emulate_asked_text, 5, is_question);
    CHECK(strstr(emulate_refusal_text(5), "kind") != NULL);
    CHECK(strstr(emulate_refusal_text(30), "width") != NULL);
    CHECK(strstr(emulate_refusal_text(31), "not 0") != NULL);
    CHECK(strstr(emulate_refusal_text(9), "call file") != NULL);
    CHECK(strstr(emulate_refusal_text(9), "node") != NULL);
    CHECK(strcmp(emulate_body_text(EMULATE_BODY_MEMORY), "memory") == 0);
    CHECK(strstr(emulate_asked_text(EMULATE_ASKED_READ), "read") != NULL);
}

/* What an answer's second number is: the record's length, a node, or nothing. */
static void test_answers(void)
{
    struct emulate_answer answer = { 0, 257 };
    uint32_t number;
    now = "answers";
    CHECK(emulate_record(record.bytes, answer).length == 257);
    for (number = 1; number < 40; number++) {
        answer.number = number;
        CHECK(emulate_record(record.bytes, answer).length == 0);
        CHECK(emulate_tells_node(number) == (number == 5 || number == 30 || number == 31));
    }
    CHECK(!emulate_tells_node(0));
}

int main(void)
{
    struct emulate_bytes made;
    make_trim();
    check_trim_readers(ran("trim", 257, 1000, 65536));
    make_probe();
    made = ran("probe", 802, 1000, 65536);
    check_probe_readers(made);
    check_short_parts(made);
    test_integers();
    test_names();
    test_faulty_names();
    test_texts();
    test_answers();
    return outcome("readers");
}
