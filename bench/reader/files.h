/* The three files as they lie, for the check and for the walker. The machine is little-endian. */
#ifndef FILES_H
#define FILES_H

#include <stddef.h>
#include <stdint.h>
#include <string.h>

#define PACKED __attribute__((packed))

struct PACKED node {
    uint8_t kind, flag;
    uint16_t ref;
    uint32_t width, span;
    uint64_t value;
};

struct PACKED statement {
    uint8_t flag;
    uint64_t address;
    uint32_t root;
};

struct PACKED block {
    uint16_t statements;
    uint8_t terminator, flag;
    uint64_t address;
    uint32_t root, taken, next;
};

struct PACKED choice {
    int64_t value;
    uint32_t target;
};

struct PACKED symbol {
    uint16_t name;
    uint8_t size;
    uint64_t address;
};

enum kind {
    CONSTANT, VAR, REGISTER, STRING_LITERAL, FUNCTION_NAME, CONDITION_TRUE, CONDITION_FALSE,
    CONSTANT_CONDITION, CAST, DEREF, ADDRESS_OF, TERNARY, BINARY, ASSIGN, CALL, INTRINSIC, RETURN,
    STRUCT_INIT, FIELD, PLAIN, KINDS
};

enum terminator { ENDS, GOTO, BRANCH, SWITCH };

struct bytes {
    const uint8_t *first;
    size_t length;
};

static inline uint64_t number_at(const uint8_t *at, size_t width)
{
    uint64_t number = 0;
    memcpy(&number, at, width);
    return number;
}

#endif
