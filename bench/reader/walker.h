/* The plain walker: one entry, for one thread. */
#ifndef WALKER_H
#define WALKER_H

#include <stddef.h>
#include <stdint.h>

/* Runs a routine in a world, as a call asks; the files are taken for well formed. Gives 0, the
 * record of the run and its length; or 21 where the run writes too many addresses, else 22 where
 * the record has no room, and the buffer is cleared. */
uint32_t walker_run(const uint8_t *routine, const uint8_t *world, const uint8_t *call,
                    uint8_t *record, size_t capacity, uint32_t *length);

#endif
