/* What an open or a close may make of the stored number of open jobs. */
#ifndef STORED_H
#define STORED_H

#include <stdint.h>

/* A call: its code, the number before and after it, and the entries that were open then, by a walk. */
typedef struct counting {
    uint32_t code, before, after, walked_before, walked_after;
} counting;

/* Whether an open, or a close, takes this number. */
int open_takes(uint32_t number);
int close_takes(uint32_t number);

/* What doesn't hold, in words; NULL where all does. */
const char *open_fault(const counting *c);
const char *close_fault(const counting *c);

#endif
