/*
 * A table that the edition without takes has saved, 108 bytes to an entry, is read as docs/HOSTS.md says, and its job goes on: the next part, and a take
 * of what was printed before. Put back as it stands, without that, it isn't the table. Status 0 where all of this holds.
 */
#include "halviruso.h"

#include <stdio.h>
#include <string.h>

enum { SLOT = 9, KEY = 4, OLDER = 108 };

static halviruso_table table, kept, raw;
static uint32_t open_jobs;
static uint8_t records[HALVIRUSO_RECORDS], image[HALVIRUSO_SLOTS * OLDER];
static uint16_t widths[HALVIRUSO_WIDTHS];
static const halviruso_descriptor LETTER = {.size = {12240, 15840}, .increment = 180, .colour = 0xFF07, .rule = 14};
static const uint8_t TEXT[] = {0xC1, 0xC2}; /* a record of 18 bytes */

static uint32_t submit(uint32_t number)
{
    return halviruso_submit(table.entries, HALVIRUSO_SLOTS, records, HALVIRUSO_RECORDS, widths, HALVIRUSO_WIDTHS, SLOT, KEY, number, TEXT, sizeof TEXT).code;
}

static uint32_t take(uint64_t total)
{
    return halviruso_take(table.entries, HALVIRUSO_SLOTS, records, HALVIRUSO_RECORDS, SLOT, KEY, total).code;
}

/* What the edition before would have saved. */
static void save(FILE *file)
{
    for (size_t s = 0; s < HALVIRUSO_SLOTS; s++)
        fwrite(&table.entries[s], OLDER, 1, file);
    kept = table;
    rewind(file);
}

static int put_back(FILE *file)
{
    size_t whole = 0;

    memset(&table, 0xA5, sizeof table);
    for (size_t s = 0; s < HALVIRUSO_SLOTS; s++) {
        whole += fread(&table.entries[s], 108, 1, file);
        table.entries[s].taken = 0;
    }
    rewind(file);
    return whole == HALVIRUSO_SLOTS && memcmp(&table, &kept, sizeof table) == 0;
}

static int tried(FILE *file)
{
    table = halviruso_fresh();
    if (halviruso_open(table.entries, HALVIRUSO_SLOTS, &open_jobs, SLOT, KEY, LETTER).code != HALVIRUSO_DONE || submit(1) != HALVIRUSO_DONE)
        return 0;
    save(file);
    if (!put_back(file) || submit(1) != HALVIRUSO_ALREADY_TAKEN || submit(2) != HALVIRUSO_DONE || take(18) != HALVIRUSO_DONE || take(36) != HALVIRUSO_DONE)
        return 0;
    memcpy(&raw, image, fread(image, 1, sizeof image, file));
    return memcmp(&raw, &kept, sizeof kept) != 0;
}

int main(void)
{
    FILE *file = tmpfile();
    int right = file != NULL && tried(file);

    if (!right)
        fprintf(stderr, "older: a table of the edition before does not go on\n");
    return !right;
}
