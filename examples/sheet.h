/* A job and its records as lines, in the form of replay's `show`, which tools/page draws. */
#ifndef SHEET_H
#define SHEET_H

#include "halviruso.h"

#include <inttypes.h>
#include <stdio.h>

/* Numbers in records are little-endian, and need not be aligned. */
static inline unsigned number_at(const uint8_t *bytes)
{
    return bytes[0] + 256u * bytes[1];
}

/* I, B and the adjustment are signed. */
static inline int signed_at(const uint8_t *bytes)
{
    unsigned number = number_at(bytes);

    return number < 32768u ? (int)number : (int)number - 65536;
}

static inline void print_text(const uint8_t *record, size_t length)
{
    printf("T %d %d %u %u %d %u ", signed_at(record + 4), signed_at(record + 6), number_at(record + 8), number_at(record + 10), signed_at(record + 12),
           number_at(record + 14));
    for (size_t at = 16; at < length; at++)
        printf("%02X", record[at]);
    printf(length > 16 ? "\n" : "-\n");
}

static inline void print_rule(const uint8_t *record)
{
    printf("R %d %d %u %u %u %u\n", signed_at(record + 4), signed_at(record + 6), number_at(record + 8), number_at(record + 10), number_at(record + 12),
           number_at(record + 14));
}

/* The hub writes whole records only, so there is nothing to check. */
static inline void print_records(const uint8_t *bytes, size_t used)
{
    for (size_t at = 0; at < used; at += number_at(bytes + at))
        if (number_at(bytes + at + 2) == 1)
            print_text(bytes + at, number_at(bytes + at));
        else
            print_rule(bytes + at);
}

/* The entry's numbers, in the order of replay's `set`. */
static inline void print_entry(const halviruso_entry *entry)
{
    const halviruso_descriptor *d = &entry->descriptor;
    const halviruso_state *s = &entry->state;
    const uint32_t opened[] = {entry->key, entry->mark, d->size.i, d->size.b, d->initial.i, d->initial.b, d->margin, d->increment, d->adjustment,
                               d->direction, d->font, d->colour, d->rule, d->hidden};
    const uint32_t stands[] = {s->margin, s->increment, s->adjustment, s->direction, s->font, s->colour, s->space, s->suppression, s->chain,
                               entry->next, s->used, entry->taken};

    printf("JOB");
    for (size_t at = 0; at < sizeof opened / sizeof opened[0]; at++)
        printf(" %" PRIu32, opened[at]);
    printf(" %" PRId64 " %" PRId64, (int64_t)s->at.i - HALVIRUSO_ORIGIN, (int64_t)s->at.b - HALVIRUSO_ORIGIN);
    for (size_t at = 0; at < sizeof stands / sizeof stands[0]; at++)
        printf(" %" PRIu32, stands[at]);
    printf("\n");
}

static inline void print_job(const halviruso_entry *entry, const uint8_t *bytes, size_t used)
{
    print_entry(entry);
    print_records(bytes, used);
    printf("END\n");
}

#endif
