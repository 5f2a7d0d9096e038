/* The plain check of the three files. */
#ifndef CHECK_H
#define CHECK_H

#include <stddef.h>
#include <stdint.h>

/* A number, or 0, and the node that is refused by 5, 30 or 31, else 0. */
struct refusal {
    uint32_t number, node;
};

/* What the three files are refused by. Any bytes may be given. */
struct refusal files_check(const uint8_t *routine, size_t routine_length, const uint8_t *world,
                           size_t world_length, const uint8_t *call, size_t call_length);

#endif
