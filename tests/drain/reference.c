/*
 * What an area without an end would hold: each element alone is interpreted from the state that the one before it left, into an area of its own, so
 * nothing here depends on takes, on numbers, or on where a part was cut.
 *
 *   reference PARTS WIDTHS DOCUMENT...
 *
 * The documents are the job's text before it was cut, and PARTS is how many parts it was sent in. Prints the job as examples/drain.c does, by the same
 * lines, which have every byte of a record. Status 0, or 1 where an element is refused.
 */
#include "files.h"
#include "halviruso.h"
#include "sheet.h"

#include <stdio.h>
#include <stdlib.h>

enum { KEY = 7, MOST = 1 << 20 };

static uint16_t widths[HALVIRUSO_WIDTHS];
static uint8_t paper[MOST];
static const halviruso_descriptor LETTER = {.size = {12240, 15840}, .increment = 180, .colour = 0xFF07, .rule = 14};

/* Where the element ends that begins at `at`, by its own LENGTH; a free run, at the next X'2B'. */
static size_t end_of(const uint8_t *part, size_t length, size_t at, uint32_t chain)
{
    size_t end = at;

    if (!chain && part[at] != 0x2B) {
        while (end < length && part[end] != 0x2B)
            end++;
        return end;
    }
    end += chain ? 0 : 2;
    end += end < length ? part[end] : 0;
    return end > at && end <= length ? end : length;
}

/* One element into an area of its own; its records go behind those that there are. */
static void place(halviruso_entry *entry, const uint8_t *element, size_t length)
{
    static uint8_t area[HALVIRUSO_AREA];
    halviruso_interpreted out;

    entry->state.used = 0;
    out = halviruso_interpret(element, length, widths, HALVIRUSO_WIDTHS, area, HALVIRUSO_AREA, entry->descriptor, entry->state);
    if (out.answer.code != HALVIRUSO_DONE || out.answer.first != 1 || out.state.used > MOST - entry->taken) {
        fprintf(stderr, "reference: %u at %u of an element\n", (unsigned)out.answer.code, (unsigned)out.answer.first);
        exit(1);
    }
    memcpy(paper + entry->taken, area, out.state.used);
    entry->taken += out.state.used;
    entry->state = out.state;
    entry->state.used = 0;
}

static void place_document(halviruso_entry *entry, const char *name)
{
    static uint8_t part[HALVIRUSO_PART + 1];
    size_t length = read_part(name, part);

    for (size_t at = 0, end; at < length; at = end) {
        end = end_of(part, length, at, entry->state.chain);
        place(entry, part + at, end - at);
    }
}

int main(int count, char **words)
{
    static halviruso_table table;
    halviruso_entry *entry = &table.entries[0];
    uint32_t open_jobs = 0;

    if (count < 4)
        return 1;
    read_widths(words[2], widths);
    table = halviruso_fresh();
    halviruso_open(table.entries, HALVIRUSO_SLOTS, &open_jobs, 0, KEY, LETTER);
    for (int at = 3; at < count; at++)
        place_document(entry, words[at]);
    entry->mark = 0;
    entry->next = (uint32_t)atoi(words[1]) + 1;
    print_job(entry, paper, entry->taken);
    return 0;
}
