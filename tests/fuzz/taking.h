/* Areas and totals to take from them: as printers have them, nearly so, or any; and what a take may make of an entry. */
#ifndef TAKING_H
#define TAKING_H

#include <stdint.h>

#include "halviruso.h"

/* Fills an area up to the bytes used: with records one after the other, with some that are none among them, or with any bytes. */
void an_area(unsigned char *area, uint32_t used);
/* A total: at an end of a record, beside one, at what was taken or written, above 32 bits, or any. */
uint64_t a_total(const unsigned char *area, const halviruso_entry *e);

/* A take of an open job's records: its code, and the entry before and after it. */
typedef struct taking {
    uint32_t code;
    uint64_t total;
    halviruso_entry before, after;
    const unsigned char *area; /* before it */
} taking;

/* Whether the total is one that 32 bits hold, and not beyond what was written. */
int total_fits(const taking *t);
/* What doesn't hold of a take that was answered 0, 1 or 30, in words; NULL where all does. */
const char *take_fault(const taking *t);

#endif
