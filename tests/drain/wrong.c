/*
 * Wrong on purpose: what stands between examples/drain.c and the library, compiled with halviruso_take and halviruso_submit named wrong_take and
 * wrong_submit. The variable WRONG chooses one fault, of a library, a printer or a tenant; without it nothing is wrong. The comparison must find each.
 */
#include "halviruso.h"

#include <stdlib.h>
#include <string.h>

halviruso_answer wrong_take(halviruso_entry *table, size_t table_length, uint8_t *records, size_t records_length, uint32_t slot, uint32_t key,
                            uint64_t total);
halviruso_answer wrong_submit(halviruso_entry *table, size_t table_length, uint8_t *records, size_t records_length, const uint16_t *widths,
                              size_t widths_length, uint32_t slot, uint32_t key, uint32_t number, const uint8_t *part, size_t part_length);

static int is(const char *fault)
{
    const char *chosen = getenv("WRONG");

    return chosen != NULL && strcmp(chosen, fault) == 0;
}

/* The length of the first record that would be left, if there is one. */
static uint32_t next_length(const halviruso_entry *entry, const uint8_t *area, uint64_t total)
{
    size_t at = (size_t)(total - entry->taken);

    return total >= entry->taken && at < entry->state.used ? area[at] + 256u * area[at + 1] : 0;
}

/* What a wrong printer says, or a library that takes a retry for another take. */
static uint64_t wrong_total(const halviruso_entry *entry, const uint8_t *area, uint64_t total)
{
    if (is("more"))
        return total + next_length(entry, area, total);
    if (is("again") && total == entry->taken)
        return total + next_length(entry, area, total);
    if (is("each") && total > entry->taken)
        return total - entry->taken;
    if (is("inside") && total > entry->taken)
        return total - 1;
    return total;
}

halviruso_answer wrong_take(halviruso_entry *table, size_t table_length, uint8_t *records, size_t records_length, uint32_t slot, uint32_t key,
                            uint64_t total)
{
    uint8_t before[HALVIRUSO_AREA], *area = records + HALVIRUSO_AREA * slot;
    halviruso_entry old = table[slot];
    halviruso_answer answer;

    memcpy(before, area, sizeof before);
    answer = halviruso_take(table, table_length, records, records_length, slot, key, wrong_total(&old, area, total));
    if (is("stay"))
        memcpy(area, before, sizeof before);
    if (is("byte") && old.taken == 0 && table[slot].state.used > 0)
        area[table[slot].state.used - 1] ^= 1;
    if (is("used") && old.taken == 0)
        table[slot].state.used = old.state.used;
    if (is("taken"))
        table[slot].taken = old.taken;
    return answer;
}

halviruso_answer wrong_submit(halviruso_entry *table, size_t table_length, uint8_t *records, size_t records_length, const uint16_t *widths,
                              size_t widths_length, uint32_t slot, uint32_t key, uint32_t number, const uint8_t *part, size_t part_length)
{
    static uint32_t skipped;
    uint32_t as = is("twice") && number < table[slot].next ? table[slot].next : number - skipped;
    halviruso_answer answer =
        halviruso_submit(table, table_length, records, records_length, widths, widths_length, slot, key, as, part, part_length);

    if (is("skip") && answer.code == HALVIRUSO_NO_ROOM) {
        skipped++;
        answer.code = HALVIRUSO_DONE;
    }
    return answer;
}
