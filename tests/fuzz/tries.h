/* One call of each entry over guarded memory, and what must hold after it. */
#ifndef TRIES_H
#define TRIES_H

#include "lend.h"

/* Makes the slices. What is named is wrong on purpose: a slice (table, records, area, widths, part) or the stored number (stored) claims a byte that it
 * doesn't have; or, as if the library had done it, a byte changes around what is lent (around) or within it (within), an answer is another (answer), a
 * refusal points at the next byte (place) or past the part (beyond), a record has nothing to draw (empty), any increment is taken (increment), an open
 * that finds the slot busy counts (busy), a close doesn't (close), 32 comes before the other answers (early), or a take zeroes the bytes that it frees
 * (zeroes), leaves the total as it was (forgets), moves a byte too few (fewer), cuts its total to 32 bits (cut) or ends anywhere (boundary). */
void tries_start(enum side side, const char *wrong);

/* One call of some entry; leaves with status 1 if something doesn't hold. */
void try_one(void);

/* Calls so far. */
extern unsigned long calls_made;

/* What was called how often, with which answers. */
void tries_report(void);

#endif
