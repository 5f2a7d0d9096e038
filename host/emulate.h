/* The reader of lifted routines, as a host in C (C99) or C++ calls it.
 *
 * Link libemulate.a; the texts at the end of this header are in emulate_text.c (an installed library
 * has them inside). docs/FILES.md has the layout of the three files and of the record, docs/FORMS.md
 * the files as text.
 *
 * What it cannot know is unknown. Two things a host's author must know beside that:
 * - No call is followed. After one, memory and symbols are taken as unchanged, whatever it may have
 *   written, and only the locals and parameters that it was given as plain `&name` become unknown.
 * - What a run reckons is not always what C does: nothing is promoted to int, both arms of ?: are
 *   evaluated, a symbol is read as signed. docs/FORMS.md, "Where this is not C", has each point with
 *   an example.
 *
 * What holds for both entries:
 * - The host owns all memory. A call reads its files, writes nothing but the buffers lent to it,
 *   and keeps nothing: no pointer, no state. It allocates nothing and opens nothing.
 * - A slice is a pointer and its length in bytes. NULL with length 0 is an empty slice. Else the
 *   pointer has that many bytes behind it, for a buffer ones that may be written. Slices need no
 *   alignment, and what a buffer holds before the call does not matter.
 * - Record buffer and workspace overlap neither each other nor a file. Files may overlap.
 * - Any bytes may be given as files: what is not well formed is refused by a number.
 * - Every call returns. It needs at most EMULATE_STACK_NEEDED bytes of stack beside the caller's own
 *   frames. Give a thread 64 KiB: the thread library takes its share of a thread's stack.
 * - The call's steps bound the time: a unit evaluates at most one tree of the routine, and each node
 *   of it once. The costliest unit found takes 0.8 milliseconds (3,150 loads), and 1.3 in a run that
 *   goes over the routine twice (EMULATE_WORKSPACE_NEEDED); one of a counting loop takes 0.02
 *   microseconds. That is on an Intel Xeon at 2.5 GHz. A host that must go on in a given time gives
 *   no more steps than that allows.
 * - Threads may call at once, each with buffers of its own. They may share files.
 * - Equal files and equal lengths of the buffers give the same answer and the same record.
 */
#ifndef EMULATE_H
#define EMULATE_H

#include <stdbool.h>
#include <stddef.h>
#include <stdint.h>
#include <string.h>

#ifdef __cplusplus
extern "C" {
#endif

/* The first number grows where a host must be changed, the second where something is added. */
#define EMULATE_VERSION "1.0.0"

/* ---- Lengths */

/* The least workspace. A longer one does no harm; all of it is cleared. It keeps what a run asks
 * until the place in the record is known: up to 4,292 bytes of questions in the least one, and as
 * many more as it is longer. A run that asks more goes over the routine twice, with the same record. */
#define EMULATE_WORKSPACE_NEEDED 65536

/* The longest file of each of the three. */
#define EMULATE_FILE_LONGEST 65535

/* The addresses that a run may write. */
#define EMULATE_ADDRESSES_MOST 4096

/* The shortest record: a run without steps, variables, written bytes and questions. */
#define EMULATE_RECORD_LEAST 99

/* Bytes of stack that a call needs at most, on the calling thread, beside what is on it already:
 * 24,671 were measured with the deepest and the widest routines (stack.c). */
#define EMULATE_STACK_NEEDED 32768

/* ---- The numbers of an answer */

/* docs/FILES.md has the rules that each stands for.
 *
 * The first that applies is given, in this order: 1 to 4; 5, 30 and 31 node by node (a node is
 * tested for 5, then 30, then 31, and only then the next one); 6 to 9; 20 to 22.
 * What each leaves in the buffers:
 * - 0: the record stands at the start of its buffer, and the buffer beyond it is unchanged; the
 *   workspace is zero throughout.
 * - 1 to 9, 20, 30 and 31: both buffers are untouched.
 * - 21 and 22: both buffers are zero throughout.
 * "Throughout" is the whole lent length, also where the workspace is longer than needed. */
enum emulate_refusal {
    EMULATE_RAN = 0,             /* no refusal */
    EMULATE_REFUSED_TABLE = 1,   /* the routine's table, or a routine over 65,535 bytes */
    EMULATE_REFUSED_NAMES = 2,   /* the routine's names */
    EMULATE_REFUSED_TYPES = 3,   /* its types */
    EMULATE_REFUSED_HEAD = 4,    /* its head */
    EMULATE_REFUSED_KIND = 5,    /* a node's kind is unknown: 20 or more */
    EMULATE_REFUSED_TREES = 6,   /* the nodes' body length, spans, child counts, depth, fields */
    EMULATE_REFUSED_BLOCKS = 7,  /* statements, blocks, or a root that is no node or is a field */
    EMULATE_REFUSED_WORLD = 8,   /* the world file */
    EMULATE_REFUSED_CALL = 9,    /* the call file; in constant_value a node that is none or a field */
    EMULATE_WORKSPACE_SHORT = 20, /* the workspace is under 65,536 bytes */
    EMULATE_ADDRESSES_OVER = 21,  /* the run writes over 4,096 distinct addresses */
    EMULATE_RECORD_LONG = 22,     /* the record is longer than its buffer or than 2^32 - 1 bytes */
    EMULATE_REFUSED_BARRED = 30,  /* a Constant's width, a flag or a reference that the kind bars */
    EMULATE_REFUSED_UNUSED = 31   /* a field that the node's kind does not use is not 0 */
};

/* Whether a refusal tells a node beside its number: the lowest one that is not as it must be. */
static inline bool emulate_tells_node(uint32_t number)
{
    return number == EMULATE_REFUSED_KIND || number == EMULATE_REFUSED_BARRED
        || number == EMULATE_REFUSED_UNUSED;
}

/* ---- The entries
 *
 * A program that has a `run` or a `constant_value` of its own defines EMULATE_PREFIXED before this
 * header, and calls emulate_run and emulate_constant_value. libemulate.a has both under these names
 * too; where the linker says that `run` is defined twice, libemulate_prefixed.a has them alone.
 * Without EMULATE_PREFIXED a global `run` in another file of the program is called in the place of
 * the library's, and no tool says so. */

#ifdef EMULATE_PREFIXED
#define EMULATE_ENTRY(name) emulate_##name
#else
#define EMULATE_ENTRY(name) name
#endif

/* 0 and the record's length in bytes, or a refusal's number and, for 5, 30 and 31, the number of
 * the lowest faulty node, counted from 0 over the whole file, else 0. */
struct emulate_answer {
    uint32_t number;
    uint32_t length;
};

/* Runs a routine in a world, as a call asks, and writes the record of the run.
 *
 * routine, world, call: the three files, only read.
 * record: the buffer that the record is written to, of any length.
 * workspace: at least EMULATE_WORKSPACE_NEEDED bytes, used while the call lasts.
 *
 * After 22 a longer record buffer may help; its need is not told. "How long a record is", below, has
 * the formula, and emulate_record_most gives a length before the call that is enough. */
struct emulate_answer EMULATE_ENTRY(run)(const uint8_t *routine, size_t routine_length,
                                         const uint8_t *world, size_t world_length,
                                         const uint8_t *call, size_t call_length,
                                         uint8_t *record, size_t record_length,
                                         uint8_t *workspace, size_t workspace_length);

/* A refusal's number (0 for none), and the value: every other field is 0 (false) after a refusal
 * and where the node has no known value, but that after 5, 30 and 31 `number` is the number of the
 * lowest faulty node. */
struct emulate_constant {
    uint32_t refusal;
    bool known;
    bool is_signed;
    uint32_t bits;
    uint64_t number;
};

/* Evaluates one node of a routine by itself: no variable, no world, no call is known to it.
 *
 * routine: the routine file, only read.
 * node: a node's number, counted from 0 over the whole file, that is no field of a struct.
 * workspace: as for `run`. There is no record, so 22 is never given, nor is 8; the workspace is
 * left as `run` leaves it after the same number. */
struct emulate_constant EMULATE_ENTRY(constant_value)(const uint8_t *routine,
                                                      size_t routine_length, uint32_t node,
                                                      uint8_t *workspace,
                                                      size_t workspace_length);

/* ---- What the numbers in a record mean */

/* The bodies of a record, in their order. */
enum emulate_bodies {
    EMULATE_BODY_STOP = 0,
    EMULATE_BODY_COUNTS = 1,
    EMULATE_BODY_STEPS = 2,
    EMULATE_BODY_VARIABLES = 3, /* by name */
    EMULATE_BODY_MEMORY = 4,    /* by address */
    EMULATE_BODY_QUESTIONS = 5  /* in the order asked */
};

/* How a run ended. Fields of the stop that are not named here are 0. */
enum emulate_stop_kind {
    EMULATE_STOP_VALUE = 0,     /* returned with a value, which may be unknown: value */
    EMULATE_STOP_RETURNED = 1,  /* returned without one */
    EMULATE_STOP_STEPS = 2,     /* the step limit is spent: number is the limit */
    EMULATE_STOP_UNKNOWN = 3,   /* it cannot go on: reason, address if told, and by reason */
    EMULATE_STOP_NO_BLOCK = 4,  /* no such block: number is the block */
    EMULATE_STOP_NO_BLOCKS = 5, /* the routine has no blocks */
    EMULATE_STOP_NO_RETURN = 6, /* after a call that does not return: address if told */
    EMULATE_STOP_HALTED = 7     /* where the analysis ended: address if told, number the target */
};

/* Why a run cannot go on. */
enum emulate_reason {
    EMULATE_REASON_NONE = 0,
    EMULATE_REASON_BRANCH = 1,     /* branch unknown: node */
    EMULATE_REASON_SWITCH = 2,     /* switch unknown: node */
    EMULATE_REASON_NO_CASE = 3,    /* no case: number is the value, extended by sign to 64 bits */
    EMULATE_REASON_STRUCT = 4,     /* struct stored to a node that is no pointer's target: node */
    EMULATE_REASON_ADDRESS = 5,    /* store to an unknown address: node */
    EMULATE_REASON_VALUE = 6,      /* unknown value stored: number is the store's address */
    EMULATE_REASON_WIDTH = 7,      /* store to a symbol without width: name */
    EMULATE_REASON_STORE = 8,      /* store to a node that cannot be stored to: node */
    EMULATE_REASON_ZERO_DIVISOR = 9 /* division by zero */
};

/* The note of a step. Fields of the note that are not named here are 0. */
enum emulate_note {
    EMULATE_NOTE_NONE = 0,
    EMULATE_NOTE_FIELDS = 1,       /* fields written: address, count of fields */
    EMULATE_NOTE_VALUE = 2,        /* value written: address, value */
    EMULATE_NOTE_UNKNOWN = 3,      /* result unknown */
    EMULATE_NOTE_NOT_FOLLOWED = 4, /* a call not followed */
    EMULATE_NOTE_TAKEN = 5         /* a call not followed, with the names that it took */
};

/* What was asked of the world. */
enum emulate_asked {
    EMULATE_ASKED_ADDRESS_OF = 1,
    EMULATE_ASKED_SIZE_OF = 2,
    EMULATE_ASKED_READ = 3,
    EMULATE_ASKED_CALL = 4
};

/* ---- The layout of a record: little-endian, nothing aligned
 *
 * docs/FILES.md says what each field holds and when it is 0, with a record byte by byte. */

/* Six pairs: where a body starts, from the record's first byte, and its length, each u32. */
#define EMULATE_SIZE_PAIR 8
#define EMULATE_SIZE_PAIRS 48
#define EMULATE_AT_PAIR_OFFSET 0
#define EMULATE_AT_PAIR_LENGTH 4

#define EMULATE_SIZE_VALUE 14
#define EMULATE_AT_VALUE_KNOWN 0  /* u8 */
#define EMULATE_AT_VALUE_SIGNED 1 /* u8 */
#define EMULATE_AT_VALUE_BITS 2   /* u32 */
#define EMULATE_AT_VALUE_NUMBER 6 /* u64 */

#define EMULATE_SIZE_STOP 39
#define EMULATE_AT_STOP_KIND 0         /* u8 */
#define EMULATE_AT_STOP_REASON 1       /* u8 */
#define EMULATE_AT_STOP_ADDRESS_FLAG 2 /* u8 */
#define EMULATE_AT_STOP_ADDRESS 3      /* u64 */
#define EMULATE_AT_STOP_NUMBER 11      /* u64 */
#define EMULATE_AT_STOP_NODE 19        /* u32 */
#define EMULATE_AT_STOP_NAME 23        /* u16 */
#define EMULATE_AT_STOP_VALUE 25       /* value */

#define EMULATE_SIZE_COUNTS 12
#define EMULATE_AT_COUNTS_ENTERED 0  /* u32 */
#define EMULATE_AT_COUNTS_RECORDED 4 /* u32 */
#define EMULATE_AT_COUNTS_SPENT 8    /* u32 */

#define EMULATE_SIZE_STEP 63             /* and 2 for each taken name */
#define EMULATE_AT_STEP_ADDRESS_FLAG 0   /* u8 */
#define EMULATE_AT_STEP_ADDRESS 1        /* u64 */
#define EMULATE_AT_STEP_BLOCK 9          /* u32 */
#define EMULATE_AT_STEP_STATEMENT 13     /* u32 */
#define EMULATE_AT_STEP_WROTE_FLAG 17    /* u8 */
#define EMULATE_AT_STEP_NAME 18          /* u16 */
#define EMULATE_AT_STEP_VALUE 20         /* value */
#define EMULATE_AT_STEP_NOTE 34          /* u8 */
#define EMULATE_AT_STEP_NOTE_ADDRESS 35  /* u64 */
#define EMULATE_AT_STEP_NOTE_FIELDS 43   /* u32 */
#define EMULATE_AT_STEP_NOTE_VALUE 47    /* value */
#define EMULATE_AT_STEP_TAKEN_COUNT 61   /* u16 */
#define EMULATE_AT_STEP_TAKEN 63         /* u16 each */

#define EMULATE_SIZE_VARIABLE 16
#define EMULATE_AT_VARIABLE_NAME 0  /* u16 */
#define EMULATE_AT_VARIABLE_VALUE 2 /* value */

#define EMULATE_SIZE_WRITTEN 9
#define EMULATE_AT_WRITTEN_ADDRESS 0 /* u64 */
#define EMULATE_AT_WRITTEN_BYTE 8    /* u8 */

#define EMULATE_AT_QUESTION_KIND 0 /* u8 */

#define EMULATE_SIZE_TOLD 12      /* questions 1 and 2 */
#define EMULATE_AT_TOLD_NAME 1    /* u16 */
#define EMULATE_AT_TOLD_FLAG 3    /* u8 */
#define EMULATE_AT_TOLD_NUMBER 4  /* u64 */

#define EMULATE_SIZE_READ 11      /* question 3, and the answered bytes */
#define EMULATE_AT_READ_ADDRESS 1 /* u64 */
#define EMULATE_AT_READ_LENGTH 9  /* u8 */
#define EMULATE_AT_READ_COUNT 10  /* u8 */
#define EMULATE_AT_READ_BYTES 11

#define EMULATE_SIZE_CALL 17      /* question 4, and its values; the answer flag is the last byte */
#define EMULATE_AT_CALL_NAME 1    /* u16 */
#define EMULATE_AT_CALL_ADDRESS 3 /* u64 */
#define EMULATE_AT_CALL_DEPTH 11  /* u32 */
#define EMULATE_AT_CALL_COUNT 15  /* u8 */
#define EMULATE_AT_CALL_VALUES 16 /* value each */

/* ---- Reading a record
 *
 * A reader takes bytes that begin with what it reads, and gives the length of that, to go on by
 * (emulate_after). Where the bytes are too few it gives 0 and leaves its result as it was; so it
 * ends a loop, and no reader looks past the bytes it is given. Nothing is copied but numbers: a
 * result that has bytes points into the record. Names, statements, blocks and nodes are the
 * numbers that they have in the routine file. */

/* Bytes that the host owns: a record, a body of it, or the rest of one. */
struct emulate_bytes {
    const uint8_t *first;
    size_t length;
};

/* The little-endian number in `width` bytes, at most 8. */
static inline uint64_t emulate_number(const uint8_t *bytes, size_t width)
{
    uint64_t number = 0;
    while (width > 0) {
        width--;
        number = number << 8 | bytes[width];
    }
    return number;
}

/* What is left of `bytes` after the first `used` of them. */
static inline struct emulate_bytes emulate_after(struct emulate_bytes bytes, size_t used)
{
    if (used > bytes.length)
        used = bytes.length;
    if (used > 0)
        bytes.first += used;
    bytes.length -= used;
    return bytes;
}

/* The `length` bytes of `bytes` that begin at `offset`; where not all of them are there, no bytes,
 * and `first` is NULL. */
static inline struct emulate_bytes emulate_part(struct emulate_bytes bytes, uint64_t offset,
                                                uint64_t length)
{
    struct emulate_bytes part = { NULL, 0 };
    if (offset > bytes.length || length > bytes.length - offset)
        return part;
    part = emulate_after(bytes, (size_t)offset);
    part.length = (size_t)length;
    return part;
}

/* The record that a run left in its buffer; no bytes after a refusal, whose `length` may be a
 * node's number. */
static inline struct emulate_bytes emulate_record(const uint8_t *buffer,
                                                  struct emulate_answer answer)
{
    struct emulate_bytes record;
    record.first = buffer;
    record.length = answer.number == EMULATE_RAN ? answer.length : 0;
    return record;
}

/* A body of a record; no bytes where its pair lies outside the record or points there. */
static inline struct emulate_bytes emulate_body(struct emulate_bytes record,
                                                enum emulate_bodies which)
{
    const uint8_t *pair = record.first;
    if (record.length < EMULATE_SIZE_PAIRS || (unsigned)which > EMULATE_BODY_QUESTIONS)
        return emulate_after(record, record.length);
    pair += EMULATE_SIZE_PAIR * (size_t)which;
    return emulate_part(record, emulate_number(pair + EMULATE_AT_PAIR_OFFSET, 4),
                        emulate_number(pair + EMULATE_AT_PAIR_LENGTH, 4));
}

/* A value: `number` is below 2^bits where the value is known, and 0 where it is unknown. A value
 * that is not there has every field 0. A bool is 8 bits unsigned: 0 or 1 where a number was
 * converted to it, any byte where it was loaded. */
struct emulate_value {
    bool known;
    bool is_signed;
    uint32_t bits;
    uint64_t number;
};

/* The value in the 14 bytes from `bytes` on. */
static inline struct emulate_value emulate_value_at(const uint8_t *bytes)
{
    struct emulate_value value;
    value.known = bytes[EMULATE_AT_VALUE_KNOWN] != 0;
    value.is_signed = bytes[EMULATE_AT_VALUE_SIGNED] != 0;
    value.bits = (uint32_t)emulate_number(bytes + EMULATE_AT_VALUE_BITS, 4);
    value.number = emulate_number(bytes + EMULATE_AT_VALUE_NUMBER, 8);
    return value;
}

static inline size_t emulate_read_value(struct emulate_bytes from, struct emulate_value *value)
{
    if (from.length < EMULATE_SIZE_VALUE)
        return 0;
    *value = emulate_value_at(from.first);
    return EMULATE_SIZE_VALUE;
}

/* The integer that a known value stands for: its number, extended by sign where it is signed. An
 * unsigned number from 2^63 on does not fit here: take `number`. */
static inline int64_t emulate_integer(struct emulate_value value)
{
    uint64_t number = value.number;
    if (value.is_signed && value.bits > 0 && value.bits < 64 && number >> (value.bits - 1) & 1)
        number |= ~(uint64_t)0 << value.bits;
    return number >> 63 ? -1 - (int64_t)~number : (int64_t)number;
}

struct emulate_stop {
    uint8_t kind;   /* enum emulate_stop_kind */
    uint8_t reason; /* enum emulate_reason */
    bool has_address;
    uint64_t address;
    uint64_t number;
    uint32_t node;
    uint16_t name;
    struct emulate_value value;
};

static inline size_t emulate_read_stop(struct emulate_bytes from, struct emulate_stop *stop)
{
    const uint8_t *at = from.first;
    if (from.length < EMULATE_SIZE_STOP)
        return 0;
    stop->kind = at[EMULATE_AT_STOP_KIND];
    stop->reason = at[EMULATE_AT_STOP_REASON];
    stop->has_address = at[EMULATE_AT_STOP_ADDRESS_FLAG] != 0;
    stop->address = emulate_number(at + EMULATE_AT_STOP_ADDRESS, 8);
    stop->number = emulate_number(at + EMULATE_AT_STOP_NUMBER, 8);
    stop->node = (uint32_t)emulate_number(at + EMULATE_AT_STOP_NODE, 4);
    stop->name = (uint16_t)emulate_number(at + EMULATE_AT_STOP_NAME, 2);
    stop->value = emulate_value_at(at + EMULATE_AT_STOP_VALUE);
    return EMULATE_SIZE_STOP;
}

struct emulate_counts {
    uint32_t entered;  /* blocks */
    uint32_t recorded; /* steps */
    uint32_t spent;    /* units: the sum of the two others */
};

static inline size_t emulate_read_counts(struct emulate_bytes from, struct emulate_counts *counts)
{
    const uint8_t *at = from.first;
    if (from.length < EMULATE_SIZE_COUNTS)
        return 0;
    counts->entered = (uint32_t)emulate_number(at + EMULATE_AT_COUNTS_ENTERED, 4);
    counts->recorded = (uint32_t)emulate_number(at + EMULATE_AT_COUNTS_RECORDED, 4);
    counts->spent = (uint32_t)emulate_number(at + EMULATE_AT_COUNTS_SPENT, 4);
    return EMULATE_SIZE_COUNTS;
}

struct emulate_step {
    bool has_address;
    uint64_t address;
    uint32_t block;
    uint32_t statement;
    bool wrote; /* a variable or a symbol: name and value */
    uint16_t name;
    struct emulate_value value;
    uint8_t note; /* enum emulate_note */
    uint64_t note_address;
    uint32_t note_fields;
    struct emulate_value note_value;
    struct emulate_bytes taken; /* names: emulate_read_name */
};

static inline size_t emulate_read_step(struct emulate_bytes from, struct emulate_step *step)
{
    const uint8_t *at = from.first;
    size_t taken;
    if (from.length < EMULATE_SIZE_STEP)
        return 0;
    taken = 2 * (size_t)emulate_number(at + EMULATE_AT_STEP_TAKEN_COUNT, 2);
    if (from.length - EMULATE_SIZE_STEP < taken)
        return 0;
    step->has_address = at[EMULATE_AT_STEP_ADDRESS_FLAG] != 0;
    step->address = emulate_number(at + EMULATE_AT_STEP_ADDRESS, 8);
    step->block = (uint32_t)emulate_number(at + EMULATE_AT_STEP_BLOCK, 4);
    step->statement = (uint32_t)emulate_number(at + EMULATE_AT_STEP_STATEMENT, 4);
    step->wrote = at[EMULATE_AT_STEP_WROTE_FLAG] != 0;
    step->name = (uint16_t)emulate_number(at + EMULATE_AT_STEP_NAME, 2);
    step->value = emulate_value_at(at + EMULATE_AT_STEP_VALUE);
    step->note = at[EMULATE_AT_STEP_NOTE];
    step->note_address = emulate_number(at + EMULATE_AT_STEP_NOTE_ADDRESS, 8);
    step->note_fields = (uint32_t)emulate_number(at + EMULATE_AT_STEP_NOTE_FIELDS, 4);
    step->note_value = emulate_value_at(at + EMULATE_AT_STEP_NOTE_VALUE);
    step->taken.first = at + EMULATE_AT_STEP_TAKEN;
    step->taken.length = taken;
    return EMULATE_SIZE_STEP + taken;
}

/* A name among those that a step took. */
static inline size_t emulate_read_name(struct emulate_bytes from, uint16_t *name)
{
    if (from.length < 2)
        return 0;
    *name = (uint16_t)emulate_number(from.first, 2);
    return 2;
}

struct emulate_variable {
    uint16_t name;
    struct emulate_value value;
};

static inline size_t emulate_read_variable(struct emulate_bytes from,
                                           struct emulate_variable *variable)
{
    if (from.length < EMULATE_SIZE_VARIABLE)
        return 0;
    variable->name = (uint16_t)emulate_number(from.first + EMULATE_AT_VARIABLE_NAME, 2);
    variable->value = emulate_value_at(from.first + EMULATE_AT_VARIABLE_VALUE);
    return EMULATE_SIZE_VARIABLE;
}

/* A byte of memory that the run wrote. */
struct emulate_written {
    uint64_t address;
    uint8_t byte;
};

static inline size_t emulate_read_written(struct emulate_bytes from,
                                          struct emulate_written *written)
{
    if (from.length < EMULATE_SIZE_WRITTEN)
        return 0;
    written->address = emulate_number(from.first + EMULATE_AT_WRITTEN_ADDRESS, 8);
    written->byte = from.first[EMULATE_AT_WRITTEN_BYTE];
    return EMULATE_SIZE_WRITTEN;
}

/* A question with its answer. Fields that its kind does not name are 0. */
struct emulate_question {
    uint8_t kind;                /* enum emulate_asked */
    uint16_t name;               /* 1, 2, 4 */
    bool answered;               /* 1, 2: whether `number` is an answer; 4 */
    uint64_t number;             /* 1: the address; 2: the size in bytes */
    uint64_t address;            /* 3: read from there; 4: the function's */
    uint8_t asked;               /* 3: how many bytes were asked for */
    struct emulate_bytes bytes;  /* 3: those that were answered */
    uint32_t depth;              /* 4 */
    struct emulate_bytes values; /* 4: the arguments: emulate_read_value */
};

static inline size_t emulate_read_told(struct emulate_bytes from,
                                       struct emulate_question *question)
{
    if (from.length < EMULATE_SIZE_TOLD)
        return 0;
    question->name = (uint16_t)emulate_number(from.first + EMULATE_AT_TOLD_NAME, 2);
    question->answered = from.first[EMULATE_AT_TOLD_FLAG] != 0;
    question->number = emulate_number(from.first + EMULATE_AT_TOLD_NUMBER, 8);
    return EMULATE_SIZE_TOLD;
}

static inline size_t emulate_read_read(struct emulate_bytes from,
                                       struct emulate_question *question)
{
    size_t count;
    if (from.length < EMULATE_SIZE_READ)
        return 0;
    count = from.first[EMULATE_AT_READ_COUNT];
    if (from.length - EMULATE_SIZE_READ < count)
        return 0;
    question->address = emulate_number(from.first + EMULATE_AT_READ_ADDRESS, 8);
    question->asked = from.first[EMULATE_AT_READ_LENGTH];
    question->bytes.first = from.first + EMULATE_AT_READ_BYTES;
    question->bytes.length = count;
    return EMULATE_SIZE_READ + count;
}

static inline size_t emulate_read_call(struct emulate_bytes from,
                                       struct emulate_question *question)
{
    size_t values;
    if (from.length < EMULATE_SIZE_CALL)
        return 0;
    values = EMULATE_SIZE_VALUE * (size_t)from.first[EMULATE_AT_CALL_COUNT];
    if (from.length - EMULATE_SIZE_CALL < values)
        return 0;
    question->name = (uint16_t)emulate_number(from.first + EMULATE_AT_CALL_NAME, 2);
    question->address = emulate_number(from.first + EMULATE_AT_CALL_ADDRESS, 8);
    question->depth = (uint32_t)emulate_number(from.first + EMULATE_AT_CALL_DEPTH, 4);
    question->values.first = from.first + EMULATE_AT_CALL_VALUES;
    question->values.length = values;
    question->answered = from.first[EMULATE_AT_CALL_VALUES + values] != 0;
    return EMULATE_SIZE_CALL + values;
}

/* A question of any kind; 0 also where the bytes begin with no kind of question. */
static inline size_t emulate_read_question(struct emulate_bytes from,
                                           struct emulate_question *question)
{
    struct emulate_question read;
    size_t used = 0;
    if (from.length == 0)
        return 0;
    memset(&read, 0, sizeof read);
    read.kind = from.first[EMULATE_AT_QUESTION_KIND];
    if (read.kind == EMULATE_ASKED_ADDRESS_OF || read.kind == EMULATE_ASKED_SIZE_OF)
        used = emulate_read_told(from, &read);
    else if (read.kind == EMULATE_ASKED_READ)
        used = emulate_read_read(from, &read);
    else if (read.kind == EMULATE_ASKED_CALL)
        used = emulate_read_call(from, &read);
    if (used > 0)
        *question = read;
    return used;
}

/* ---- Names and types of a routine file
 *
 * A record tells names by their number in the routine file. What is given is its letters there,
 * without a zero after them; `first` is NULL where the file has no such number. Any bytes may be
 * given as the file: nothing beyond them is looked at. */

/* A text of a list in which a byte before each text tells its length. */
static inline struct emulate_bytes emulate_listed(struct emulate_bytes list, uint16_t number)
{
    while (number > 0 && list.length > 0) {
        list = emulate_after(list, 1 + (size_t)list.first[0]);
        number--;
    }
    return emulate_part(list, 1, list.length > 0 ? list.first[0] : 0);
}

/* A body of one of the three files, by its place in the file's table. */
static inline struct emulate_bytes emulate_file_body(struct emulate_bytes file, size_t which)
{
    struct emulate_bytes pair = emulate_part(file, 2 + 4 * which, 4);
    if (pair.length == 0)
        return pair;
    return emulate_part(file, emulate_number(pair.first, 2), emulate_number(pair.first + 2, 2));
}

/* A name: a variable's, a symbol's, a function's. */
static inline struct emulate_bytes emulate_name(struct emulate_bytes routine, uint16_t number)
{
    return emulate_listed(emulate_file_body(routine, 0), number);
}

/* A type, as the routine file spells it. */
static inline struct emulate_bytes emulate_type(struct emulate_bytes routine, uint16_t number)
{
    return emulate_listed(emulate_file_body(routine, 1), number);
}

/* ---- How long a record is
 *
 * EMULATE_RECORD_LEAST, which is 99, and
 *   63 for each step, and 2 for each name that it took;
 *   16 for each variable, of which there are at most 512;
 *   9 for each written byte, of which there are at most 4,096;
 *   12 for each question 1 or 2, 11 and its answered bytes (at most 8) for each question 3, 17 and
 *   14 for each argument (at most 16) for each question 4.
 * emulate_record_most gives, before the call, a length that the record does not exceed. */

/* The variables of a run. */
#define EMULATE_VARIABLES_MOST 512

/* A node of a routine file. Its span is the number of nodes that it has, with all under it. */
#define EMULATE_SIZE_NODE 20
#define EMULATE_AT_NODE_KIND 0   /* u8 */
#define EMULATE_AT_NODE_FLAG 1   /* u8 */
#define EMULATE_AT_NODE_REF 2    /* u16 */
#define EMULATE_AT_NODE_WIDTH 4  /* u32 */
#define EMULATE_AT_NODE_SPAN 8   /* u32 */
#define EMULATE_AT_NODE_VALUE 12 /* u64 */

/* The bytes that evaluating a node adds itself, at most: a variable that is not set asks its
 * symbol's address, its size and 8 bytes; a load asks 8 bytes; `&x` asks an address, and its name
 * may be taken; a call tells its arguments, which are fewer than the nodes under it. */
static inline uint64_t emulate_node_most(const uint8_t *node)
{
    const uint64_t span = emulate_number(node + EMULATE_AT_NODE_SPAN, 4);
    uint64_t arguments = span < 2 ? 0 : span - 2;
    if (arguments > 16)
        arguments = 16;
    switch (node[EMULATE_AT_NODE_KIND]) {
    case 1: /* Var */
        return 2 * EMULATE_SIZE_TOLD + EMULATE_SIZE_READ + 8;
    case 9: /* Deref */
        return EMULATE_SIZE_READ + 8;
    case 10: /* AddressOf */
        return EMULATE_SIZE_TOLD + 2;
    case 14: /* Call */
        return EMULATE_SIZE_CALL + EMULATE_SIZE_VALUE * arguments;
    }
    return 0;
}

/* The same of a tree, the one that adds most: they stand one after another. */
static inline uint64_t emulate_tree_most(struct emulate_bytes nodes)
{
    uint64_t most = 0, sum = 0, left = 0;
    while (nodes.length >= EMULATE_SIZE_NODE) {
        if (left == 0) {
            left = emulate_number(nodes.first + EMULATE_AT_NODE_SPAN, 4);
            sum = 0;
        }
        sum += emulate_node_most(nodes.first);
        if (sum > most)
            most = sum;
        left -= left > 0;
        nodes = emulate_after(nodes, EMULATE_SIZE_NODE);
    }
    return most;
}

/* A length that the record of a run of these files does not exceed, in any world; of files that
 * `run` refuses it says nothing. It is 45,155, and for each of the call's steps 63 and what the
 * largest tree adds: a unit evaluates one tree at most (a statement's is its own, a block's that of
 * its terminator), and each node of it once. Where it is at most 2^32 - 1, a record buffer of that
 * length is never too short. Most records are much shorter. */
static inline uint64_t emulate_record_most(const uint8_t *routine, size_t routine_length,
                                           const uint8_t *call, size_t call_length)
{
    struct emulate_bytes file, nodes, limits;
    uint64_t steps;
    file.first = routine;
    file.length = routine_length;
    nodes = emulate_file_body(file, 3);
    file.first = call;
    file.length = call_length;
    limits = emulate_file_body(file, 0);
    steps = limits.length < 4 ? 0 : emulate_number(limits.first, 4);
    return EMULATE_RECORD_LEAST + EMULATE_VARIABLES_MOST * EMULATE_SIZE_VARIABLE
        + EMULATE_ADDRESSES_MOST * EMULATE_SIZE_WRITTEN
        + steps * (EMULATE_SIZE_STEP + emulate_tree_most(nodes));
}

/* ---- Texts (emulate_text.c): constant, in English, never NULL
 *
 * A number that is none of its sort gives "no such number". */

const char *emulate_refusal_text(uint32_t number);
const char *emulate_body_text(uint32_t body);
const char *emulate_stop_text(uint32_t kind);
const char *emulate_reason_text(uint32_t reason);
const char *emulate_note_text(uint32_t note);
const char *emulate_asked_text(uint32_t kind);

#ifdef __cplusplus
}
#endif

#endif
