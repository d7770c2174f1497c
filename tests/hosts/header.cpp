// The header in C++17: it compiles, and every function links and answers. Status 0 when all codes are the expected ones.
#include "halviruso.h"

static_assert(sizeof(halviruso_entry) == 112, "layout");
static_assert(sizeof(halviruso_table) == 1792, "layout");
static_assert(sizeof(halviruso_interpreted) == 60, "layout");

static halviruso_table table;
static uint32_t open_jobs;
static uint8_t records[HALVIRUSO_RECORDS];
static uint16_t widths[HALVIRUSO_WIDTHS];

static halviruso_descriptor sheet()
{
    halviruso_descriptor d{};
    d.size = {12240, 15840};
    return d;
}

int main()
{
    const uint8_t part[] = {0xC1};
    unsigned wrong = 0;

    table = halviruso_fresh();
    wrong += halviruso_open(table.entries, HALVIRUSO_SLOTS, &open_jobs, 0, 1, sheet()).code != HALVIRUSO_DONE;
    wrong += halviruso_interpret(part, sizeof part, widths, HALVIRUSO_WIDTHS, records, HALVIRUSO_AREA, sheet(), table.entries[0].state).answer.second != 17;
    wrong += halviruso_submit(table.entries, HALVIRUSO_SLOTS, records, HALVIRUSO_RECORDS, widths, HALVIRUSO_WIDTHS, 0, 1, 1, part, sizeof part).second != 17;
    wrong += halviruso_count(table.entries, HALVIRUSO_SLOTS) != 1 || open_jobs != 1;
    wrong += halviruso_take(table.entries, HALVIRUSO_SLOTS, records, HALVIRUSO_RECORDS, 0, 1, (UINT64_C(1) << 32) + 17).code != HALVIRUSO_BAD_TOTAL;
    wrong += halviruso_take(table.entries, HALVIRUSO_SLOTS, records, HALVIRUSO_RECORDS, 0, 1, 17).code != HALVIRUSO_DONE || table.entries[0].taken != 17;
    open_jobs = 17;
    wrong += halviruso_close(table.entries, HALVIRUSO_SLOTS, &open_jobs, 0, 1).code != HALVIRUSO_STORED_NUMBER || open_jobs != 17;
    open_jobs = 1;
    wrong += halviruso_close(table.entries, HALVIRUSO_SLOTS, &open_jobs, 0, 1).code != HALVIRUSO_DONE || open_jobs != 0;
    wrong += halviruso_check(part, sizeof part) != HALVIRUSO_DONE;
    wrong += halviruso_check_at(part, sizeof part, 32768) != HALVIRUSO_BAD_DESCRIPTOR;
    return wrong == 0 ? 0 : 1;
}
