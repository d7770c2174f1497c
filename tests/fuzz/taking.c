#include "taking.h"

#include <string.h>

#include "chance.h"

/* Where the record that begins at `at` ends, by its length; 0 where there is no step to take. */
static uint32_t next_end(const unsigned char *area, uint32_t used, uint32_t at) {
    if (used > HALVIRUSO_AREA || used - at < 16)
        return 0;
    uint32_t length = area[at] | (uint32_t)area[at + 1] << 8;
    return length >= 16 && length <= used - at ? at + length : 0;
}

/* Whether a record ends after so many bytes. */
static int ends_after(const unsigned char *area, uint32_t used, uint64_t bytes) {
    uint32_t at = 0, end;
    while (at < bytes && (end = next_end(area, used, at)) > 0)
        at = end;
    return at == bytes;
}

void an_area(unsigned char *area, uint32_t used) {
    static const uint32_t LENGTHS[] = {0, 1, 15, 16, 17, 255, 256, 4095, 4096, 65535};
    uint32_t most = once_in(3) ? 3000 : 100, end = used > HALVIRUSO_AREA ? HALVIRUSO_AREA : used;
    int spoiled = once_in(4);
    for (uint32_t at = 0; at < end; at++)
        area[at] = (unsigned char)any();
    for (uint32_t at = 0, left; once_in(12) == 0 && (left = end - at) >= 16;) {
        uint32_t length = once_in(3) ? 16 : 17 + below(most);
        /* the last one ends with the bytes used, or leaves one */
        if (left < length + 16)
            length = left - (uint32_t)(left > 16 && once_in(4));
        if (spoiled && once_in(8))
            length = PICK(LENGTHS);
        uint32_t kind = spoiled && once_in(8) ? any() : length == 16 ? 2 : 1;
        memcpy(area + at, (unsigned char[]){(unsigned char)length, (unsigned char)(length >> 8), (unsigned char)kind, (unsigned char)(kind >> 8)}, 4);
        at += length < 16 ? 16 : length < left ? length : left;
    }
}

uint64_t a_total(const unsigned char *area, const halviruso_entry *e) {
    uint32_t at = 0, end;
    while (!once_in(4) && (end = next_end(area, e->state.used, at)) > 0)
        at = end;
    uint64_t total = (uint64_t)e->taken + at;
    switch (below(12)) {
    case 0:
        return total + below(3) - 1;
    case 1:
        return e->taken - (uint64_t)below(3);
    case 2:
        return (uint64_t)e->taken + e->state.used + below(3);
    case 3:
        return total + ((uint64_t)(1 + below(3)) << 32);
    case 4:
        return (uint64_t)any() << 32 | any();
    case 5:
        return e->taken + (uint64_t)below(e->state.used + 20);
    case 6:
        return once_in(2) ? 0 : UINT32_MAX + (uint64_t)below(3) - 1;
    default:
        return total;
    }
}

int total_fits(const taking *t) {
    return t->total <= UINT32_MAX && t->total <= (uint64_t)t->before.taken + t->before.state.used;
}

static uint32_t code_of(const taking *t) {
    if (t->total <= t->before.taken)
        return HALVIRUSO_ALREADY_TAKEN;
    if (!total_fits(t) || !ends_after(t->area, t->before.state.used, t->total - t->before.taken))
        return HALVIRUSO_BAD_TOTAL;
    return HALVIRUSO_DONE;
}

const char *take_fault(const taking *t) {
    halviruso_entry left = t->before;
    if (t->code != code_of(t))
        return t->code == HALVIRUSO_DONE ? "a total taken that isn't at a record's end, or was taken before" : "a total refused with another code than its own";
    if (t->code != HALVIRUSO_DONE)
        return NULL;
    left.state.used -= (uint32_t)t->total - left.taken;
    left.taken = (uint32_t)t->total;
    if ((uint64_t)t->after.taken + t->after.state.used != (uint64_t)t->before.taken + t->before.state.used)
        return "a take that changed what was written in all";
    return memcmp(&t->after, &left, sizeof left) == 0 ? NULL : "an entry that doesn't say what was taken";
}
