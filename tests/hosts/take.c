/*
 * The take: every number arrives in its place, the total with all of its 64 bits; and against pages that fault, which the record buffer begins or ends at.
 */
#define _DEFAULT_SOURCE
#include "check.h"

#include <stdlib.h>
#include <string.h>
#include <sys/mman.h>
#include <unistd.h>

enum { MARK = 0xA5, KEY = 7, USED = 51 };

static const halviruso_descriptor SHEET = {.size = {12240, 15840}, .rule = 14};

/* C1 C2, a rule, C3: three records, which end at 18, 34 and 51. */
static const uint8_t PART[] = {0xC1, 0xC2, 0x2B, 0xD3, 0x04, 0xE4, 0x05, 0xA0, 0xC3};

static halviruso_table table, kept_table;
static uint8_t *span, *kept_span; /* the first is between two pages that fault, and a page longer than the buffer */
static size_t page_size, span_size;
static uint8_t *records; /* what is lent: the span's first 65,536 bytes, or its last */
static uint16_t widths[HALVIRUSO_WIDTHS];

static void make_span(void)
{
    uint8_t *all;

    page_size = (size_t)sysconf(_SC_PAGESIZE);
    span_size = HALVIRUSO_RECORDS + page_size;
    all = mmap(NULL, span_size + 2 * page_size, PROT_NONE, MAP_PRIVATE | MAP_ANONYMOUS, -1, 0);
    kept_span = malloc(span_size);
    if (all == MAP_FAILED || kept_span == NULL || mprotect(all + page_size, span_size, PROT_READ | PROT_WRITE) != 0) {
        perror("memory to lend");
        exit(2);
    }
    span = all + page_size;
}

static halviruso_answer take(uint32_t slot, uint32_t key, uint64_t total)
{
    return halviruso_take(table.entries, HALVIRUSO_SLOTS, records, HALVIRUSO_RECORDS, slot, key, total);
}

static halviruso_answer submit(uint32_t slot, uint32_t number, const uint8_t *part, size_t length)
{
    return halviruso_submit(table.entries, HALVIRUSO_SLOTS, records, HALVIRUSO_RECORDS, widths, HALVIRUSO_WIDTHS, slot, KEY + slot, number, part, length);
}

static uint8_t *area(uint32_t slot)
{
    return records + HALVIRUSO_AREA * slot;
}

static void keep(void)
{
    kept_table = table;
    memcpy(kept_span, span, span_size);
}

static int untouched(void)
{
    return memcmp(&table, &kept_table, sizeof table) == 0 && memcmp(span, kept_span, span_size) == 0;
}

/* Of what is kept: so many bytes are taken from a slot, one byte moved after the other. */
static void take_kept(uint32_t slot, uint32_t bytes)
{
    halviruso_entry *entry = &kept_table.entries[slot];
    uint8_t *from = kept_span + (area(slot) - span);

    entry->state.used -= bytes;
    entry->taken += bytes;
    for (uint32_t at = 0; at < entry->state.used; at++)
        from[at] = from[at + bytes];
}

/* Job KEY + slot in each slot, with three records; every other record byte is marked. */
static void start(void)
{
    uint32_t open_jobs = 0;

    memset(span, MARK, span_size);
    table = halviruso_fresh();
    for (uint32_t slot = 0; slot < HALVIRUSO_SLOTS; slot++) {
        CHECK(table.entries[slot].taken == 0);
        table.entries[slot].taken = UINT32_MAX - slot; /* whatever a slot's last job has left */
        CHECK(halviruso_open(table.entries, HALVIRUSO_SLOTS, &open_jobs, slot, KEY + slot, SHEET).code == HALVIRUSO_DONE);
        CHECK(is(submit(slot, 1, PART, sizeof PART), HALVIRUSO_DONE, 3, USED) && table.entries[slot].taken == 0);
    }
    keep();
}

/* Of each slot two records are taken, and then the third; all the rest stays as it was. */
static void numbers_and_neighbours(void)
{
    start();
    for (uint32_t slot = 0; slot < HALVIRUSO_SLOTS; slot++) {
        CHECK(is(take(slot, KEY + slot, 34), HALVIRUSO_DONE, 0, 0));
        take_kept(slot, 34);
        CHECK(untouched() && area(slot)[0] == 17 && area(slot)[16] == 0xC3 && area(slot)[USED] == MARK);
        CHECK(is(take(slot, KEY + slot, 34), HALVIRUSO_ALREADY_TAKEN, 0, 0));
        CHECK(untouched());
        CHECK(is(take(slot, KEY + slot, USED), HALVIRUSO_DONE, 0, 0));
        take_kept(slot, 17);
        CHECK(untouched() && table.entries[slot].taken == USED && table.entries[slot].state.used == 0);
    }
}

/* The rules alone: a total is taken where a record ends. */
static uint32_t code_of(uint64_t total)
{
    if (total == 0)
        return HALVIRUSO_ALREADY_TAKEN;
    return total == 18 || total == 34 || total == USED ? HALVIRUSO_DONE : HALVIRUSO_BAD_TOTAL;
}

static void totals(void)
{
    for (uint64_t total = 0; total < 100; total++) {
        start();
        CHECK(is(take(5, KEY + 5, total), code_of(total), 0, 0));
        if (code_of(total) == HALVIRUSO_DONE)
            take_kept(5, (uint32_t)total);
        CHECK(untouched());
    }
}

/* Cut to 32 bits, each of these would be a record's end, or 0. */
static void totals_are_not_cut(void)
{
    static const uint64_t lows[] = {0, 18, 34, USED, UINT32_MAX}, highs[] = {1, 2, 1u << 31, UINT32_MAX};

    start();
    for (size_t at = 0; at < 5; at++)
        for (size_t above = 0; above < 4; above++)
            CHECK(is(take(5, KEY + 5, highs[above] << 32 | lows[at]), HALVIRUSO_BAD_TOTAL, 0, 0));
    CHECK(untouched());
}

/* Up to the greatest number that the entry can keep, and not beyond it: 17 bytes are left, and wrapped round they would end at 16. */
static void the_greatest_total(void)
{
    start();
    table.entries[5].taken = UINT32_MAX - 34;
    keep();
    CHECK(is(take(5, KEY + 5, UINT32_MAX + UINT64_C(17)), HALVIRUSO_BAD_TOTAL, 0, 0));
    CHECK(is(take(5, KEY + 5, UINT32_MAX - 34), HALVIRUSO_ALREADY_TAKEN, 0, 0));
    CHECK(untouched());
    CHECK(is(take(5, KEY + 5, UINT32_MAX), HALVIRUSO_DONE, 0, 0));
    take_kept(5, 34);
    CHECK(untouched() && table.entries[5].taken == UINT32_MAX);
    CHECK(is(take(5, KEY + 5, UINT32_MAX + UINT64_C(17)), HALVIRUSO_BAD_TOTAL, 0, 0));
    CHECK(is(take(5, KEY + 5, 16), HALVIRUSO_ALREADY_TAKEN, 0, 0));
    CHECK(untouched());
}

/* An area to its last byte: rules, taken one by one; and one record with a byte behind it, whose length would be read past the area. */
static void full_areas(uint32_t slot)
{
    start();
    table.entries[slot].state.used = HALVIRUSO_AREA;
    for (size_t at = 0; at < HALVIRUSO_AREA; at++)
        area(slot)[at] = at % 16 == 0 ? 16 : at % 16 == 2 ? 2 : at % 16 > 3 ? (uint8_t)(at / 16) : 0;
    keep();
    for (uint32_t total = 16; total <= HALVIRUSO_AREA; total += 16) {
        CHECK(is(take(slot, KEY + slot, total), HALVIRUSO_DONE, 0, 0));
        take_kept(slot, 16);
        CHECK(untouched());
    }
    start();
    table.entries[slot].state.used = HALVIRUSO_AREA;
    memcpy(area(slot), "\xFF\x0F\x01\x00", 4);
    area(slot)[HALVIRUSO_AREA - 1] = 16;
    keep();
    CHECK(is(take(slot, KEY + slot, HALVIRUSO_AREA), HALVIRUSO_BAD_TOTAL, 0, 0));
    CHECK(untouched());
    CHECK(is(take(slot, KEY + slot, HALVIRUSO_AREA - 1), HALVIRUSO_DONE, 0, 0));
    take_kept(slot, HALVIRUSO_AREA - 1);
    CHECK(untouched() && area(slot)[0] == 16);
}

/* Each refusal with all that comes after it wrong as well, and with a total that would be 1, 0 and 30. */
static void refusals_in_their_order(uint64_t total)
{
    halviruso_entry *all = table.entries;

    start();
    table.entries[5].state.font = 4;
    table.entries[6].mark = 0;
    keep();
    CHECK(is(halviruso_take(all, 15, records, HALVIRUSO_RECORDS, 16, KEY, total), HALVIRUSO_LENT_LENGTH, 0, 0));
    CHECK(is(halviruso_take(all, 16, records, HALVIRUSO_RECORDS - 1, 16, KEY, total), HALVIRUSO_LENT_LENGTH, 0, 0));
    CHECK(is(halviruso_take(all, 16, records, HALVIRUSO_AREA, 0, KEY, total), HALVIRUSO_LENT_LENGTH, 0, 0));
    CHECK(is(halviruso_take(all, 16, NULL, 0, 0, KEY, total), HALVIRUSO_LENT_LENGTH, 0, 0));
    CHECK(is(halviruso_take(NULL, 0, records, HALVIRUSO_RECORDS, 0, KEY, total), HALVIRUSO_LENT_LENGTH, 0, 0));
    CHECK(is(halviruso_take(NULL, 0, NULL, 0, 0, KEY, total), HALVIRUSO_LENT_LENGTH, 0, 0));
    CHECK(is(take(16, KEY, total), HALVIRUSO_NO_SLOT, 0, 0) && is(take(UINT32_MAX, KEY, total), HALVIRUSO_NO_SLOT, 0, 0));
    CHECK(is(take(5, KEY + 5, total), HALVIRUSO_DAMAGED, 0, 0) && is(take(5, KEY, total), HALVIRUSO_DAMAGED, 0, 0));
    CHECK(is(take(6, KEY + 6, total), HALVIRUSO_NO_JOB, 0, 0) && is(take(7, KEY, total), HALVIRUSO_NO_JOB, 0, 0));
    CHECK(is(take(7, 0, total), HALVIRUSO_NO_JOB, 0, 0) && is(take(7, UINT32_MAX, total), HALVIRUSO_NO_JOB, 0, 0));
    CHECK(untouched());
}

/* A buffer of 4 GB and 65,536 bytes, hardly any of them ever touched: a length cut to 32 bits would be the right one. */
static void lengths_are_not_cut(void)
{
    size_t beyond = (size_t)1 << 32, bytes = beyond + HALVIRUSO_RECORDS;
    uint8_t *large = mmap(NULL, bytes, PROT_READ | PROT_WRITE, MAP_PRIVATE | MAP_ANONYMOUS | MAP_NORESERVE, -1, 0);

    if (large == MAP_FAILED) {
        printf("no addresses for 4 GB here: one check is left out\n");
        return;
    }
    start();
    memcpy(large, records, HALVIRUSO_RECORDS);
    CHECK(is(halviruso_take(table.entries, 16, large, bytes, 5, KEY + 5, 18), HALVIRUSO_LENT_LENGTH, 0, 0));
    CHECK(untouched() && memcmp(large, records, HALVIRUSO_RECORDS) == 0);
    CHECK(is(halviruso_take(table.entries, 16, large, HALVIRUSO_RECORDS, 5, KEY + 5, 18), HALVIRUSO_DONE, 0, 0));
    munmap(large, bytes);
}

/* Close leaves the total and what wasn't taken; the part that found no room is placed once there is some. */
static void from_full_to_closed(void)
{
    static uint8_t text[HALVIRUSO_AREA - USED - 16 + 1];
    uint32_t open_jobs = 16;

    start();
    memset(text, 0xC1, sizeof text);
    CHECK(submit(15, 2, text, sizeof text).code == HALVIRUSO_NO_ROOM && untouched());
    CHECK(take(15, KEY + 15, 18).code == HALVIRUSO_DONE);
    CHECK(is(submit(15, 2, text, sizeof text), HALVIRUSO_DONE, 1, sizeof text + 16));
    CHECK(table.entries[15].taken == 18 && table.entries[15].state.used == HALVIRUSO_AREA - 17);
    CHECK(halviruso_close(table.entries, HALVIRUSO_SLOTS, &open_jobs, 15, KEY + 15).code == HALVIRUSO_DONE);
    CHECK(table.entries[15].taken == 18 && table.entries[15].state.used == HALVIRUSO_AREA - 17);
    keep();
    CHECK(is(take(15, KEY + 15, 34), HALVIRUSO_NO_JOB, 0, 0) && is(take(15, KEY + 15, 18), HALVIRUSO_NO_JOB, 0, 0));
    CHECK(untouched());
}

int main(void)
{
    static const uint64_t any[] = {0, 18, 17, UINT64_MAX};

    make_span();
    for (int side = 0; side < 2; side++) {
        records = side == 0 ? span : span + page_size;
        numbers_and_neighbours();
        totals();
        totals_are_not_cut();
        the_greatest_total();
        full_areas(0);
        full_areas(HALVIRUSO_SLOTS - 1);
        for (size_t at = 0; at < 4; at++)
            refusals_in_their_order(any[at]);
        lengths_are_not_cut();
        from_full_to_closed();
    }
    return checked();
}
