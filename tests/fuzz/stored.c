#include "stored.h"

#include <stddef.h>

#include "halviruso.h"

int open_takes(uint32_t number) {
    return number <= 15;
}

int close_takes(uint32_t number) {
    return number >= 1 && number <= 16;
}

static const char *fault(const counting *c, int taken, uint32_t counted) {
    uint32_t left = c->code == HALVIRUSO_DONE ? counted : c->before;
    int was_right = c->before == c->walked_before;
    if (c->code == HALVIRUSO_DONE && !taken)
        return "a stored number taken that can't be right";
    if (c->code == HALVIRUSO_STORED_NUMBER && taken)
        return "a stored number refused that is in range";
    if (c->code == HALVIRUSO_STORED_NUMBER && was_right)
        return "a stored number refused that is right";
    if (c->after != left)
        return c->code == HALVIRUSO_DONE ? "a stored number that isn't counted on" : "a stored number that a refusal changed";
    return was_right && c->after != c->walked_after ? "a stored number that is right no more" : NULL;
}

const char *open_fault(const counting *c) {
    return fault(c, open_takes(c->before), c->before + 1);
}

const char *close_fault(const counting *c) {
    return fault(c, close_takes(c->before), c->before - 1);
}
