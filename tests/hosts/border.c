/*
 * The border between C and the library: numbers arrive in their places, lengths are not cut, memory outside what is lent stays.
 * The proofs speak of the library's side of it; that C's side is the same is tested here.
 */
#define _DEFAULT_SOURCE
#include "check.h"

#include <string.h>
#include <sys/mman.h>

/* What is lent stands between guards, which no call may touch. */
static struct {
    uint8_t before[256];
    halviruso_table table;
    uint8_t between[256];
    uint32_t open_jobs;
    uint8_t beside[256];
    uint8_t records[HALVIRUSO_RECORDS];
    uint8_t behind[256];
} lent, kept;

static uint16_t widths[HALVIRUSO_WIDTHS + 1];

/* Numbers that differ, so that none can stand in another's place unseen. */
static const halviruso_descriptor UNLIKE = {{12001, 12002}, {103, 104}, 105, 106, 107, 1, 2, 0xFF00, 111, 112};
static const halviruso_state BEGUN = {{32768 + 103, 32768 + 104}, 105, 106, 107, 1, 2, 0xFF00, HALVIRUSO_ABSENT, 0, 0, 0};
static const halviruso_state ELSEWHERE = {{32768 + 201, 32768 + 202}, 203, 204, 205, 1, 3, 0, 209, 110, 0, 212};

/* Fills all that is lent with numbers that are no entry, then makes the table fresh. */
static void start(void)
{
    memset(&lent, 0xA5, sizeof lent);
    lent.table = halviruso_fresh();
    lent.open_jobs = 0;
    for (size_t at = 0; at <= HALVIRUSO_WIDTHS; at++)
        widths[at] = 10;
    kept = lent;
}

static int untouched(void)
{
    return memcmp(&lent, &kept, sizeof lent) == 0;
}

static halviruso_answer open_job(uint32_t slot, uint32_t key, halviruso_descriptor descriptor)
{
    return halviruso_open(lent.table.entries, HALVIRUSO_SLOTS, &lent.open_jobs, slot, key, descriptor);
}

static halviruso_answer close_job(uint32_t slot, uint32_t key)
{
    return halviruso_close(lent.table.entries, HALVIRUSO_SLOTS, &lent.open_jobs, slot, key);
}

static halviruso_answer submit(uint32_t slot, uint32_t key, uint32_t number, const uint8_t *part, size_t length)
{
    return halviruso_submit(lent.table.entries, HALVIRUSO_SLOTS, lent.records, HALVIRUSO_RECORDS, widths, HALVIRUSO_WIDTHS, slot, key, number, part, length);
}

static void fresh_tables(void)
{
    start();
    for (size_t slot = 0; slot < HALVIRUSO_SLOTS; slot++) {
        CHECK(lent.table.entries[slot].key == 0);
        CHECK(lent.table.entries[slot].mark == 0);
    }
    CHECK(halviruso_count(lent.table.entries, HALVIRUSO_SLOTS) == 0);
}

/* Each slot is opened and filled in turn; all the rest stays as it was. */
static void numbers_and_neighbours(void)
{
    static const uint8_t part[] = {0xC1, 0xC2};
    static const uint8_t record[] = {18, 0, 1, 0, 103, 0, 104, 0, 2, 0, 0, 0xFF, 0x95, 0xFF, 0xFF, 0xFF, 0xC1, 0xC2};

    start();
    for (uint32_t slot = 0; slot < HALVIRUSO_SLOTS; slot++) {
        halviruso_entry expected = {UINT32_MAX - slot, 1, UNLIKE, BEGUN, 1, 0};

        CHECK(is(open_job(slot, UINT32_MAX - slot, UNLIKE), HALVIRUSO_DONE, 0, 0));
        kept.table.entries[slot] = expected;
        kept.open_jobs = slot + 1;
        CHECK(untouched());
        CHECK(halviruso_count(lent.table.entries, HALVIRUSO_SLOTS) == slot + 1);
        /* one character is 10 wide and 107 are taken off: the second would start at 6, and I ends at -91 */
        CHECK(is(submit(slot, UINT32_MAX - slot, 1, part, sizeof part), HALVIRUSO_DONE, 1, 18));
        kept.table.entries[slot].state.at.i = 32768 + 103 - 2 * 97;
        kept.table.entries[slot].state.used = 18;
        kept.table.entries[slot].next = 2;
        memcpy(kept.records + HALVIRUSO_AREA * slot, record, sizeof record);
        CHECK(untouched());
        CHECK(is(close_job(slot, UINT32_MAX - slot), HALVIRUSO_DONE, 0, 0));
        kept.table.entries[slot].mark = 0;
        kept.open_jobs = slot;
        CHECK(untouched());
        kept.table.entries[slot].mark = lent.table.entries[slot].mark = 1; /* open again by hand, so that the count goes on growing */
        kept.open_jobs = lent.open_jobs = slot + 1;
    }
}

static void wrong_lengths(void)
{
    static const size_t tables[] = {0, 1, 15};
    halviruso_entry *table = lent.table.entries;

    start();
    for (size_t at = 0; at < 3; at++) {
        CHECK(is(halviruso_open(table, tables[at], &lent.open_jobs, 0, 1, UNLIKE), HALVIRUSO_LENT_LENGTH, 0, 0));
        CHECK(is(halviruso_close(table, tables[at], &lent.open_jobs, 0, 1), HALVIRUSO_LENT_LENGTH, 0, 0));
        CHECK(halviruso_count(table, tables[at]) == 0);
    }
    CHECK(is(halviruso_submit(table, 15, lent.records, HALVIRUSO_RECORDS, widths, HALVIRUSO_WIDTHS, 0, 1, 1, lent.before, 1), HALVIRUSO_LENT_LENGTH, 0, 0));
    CHECK(is(halviruso_submit(table, 16, lent.records, HALVIRUSO_RECORDS - 1, widths, HALVIRUSO_WIDTHS, 0, 1, 1, lent.before, 1), HALVIRUSO_LENT_LENGTH, 0, 0));
    CHECK(is(halviruso_submit(table, 16, lent.records, HALVIRUSO_RECORDS + 1, widths, HALVIRUSO_WIDTHS, 0, 1, 1, lent.before, 1), HALVIRUSO_LENT_LENGTH, 0, 0));
    CHECK(is(halviruso_submit(table, 16, lent.records, HALVIRUSO_RECORDS, widths, HALVIRUSO_WIDTHS - 1, 0, 1, 1, lent.before, 1), HALVIRUSO_LENT_LENGTH, 0, 0));
    CHECK(is(halviruso_submit(table, 16, lent.records, HALVIRUSO_RECORDS, widths, HALVIRUSO_WIDTHS + 1, 99, 1, 1, lent.before, 1), HALVIRUSO_LENT_LENGTH, 0, 0));
    CHECK(untouched());
}

static void greatest_numbers(void)
{
    start();
    CHECK(is(open_job(16, 1, UNLIKE), HALVIRUSO_NO_SLOT, 0, 0));
    CHECK(is(close_job(UINT32_MAX, 1), HALVIRUSO_NO_SLOT, 0, 0));
    CHECK(is(submit(UINT32_MAX, 1, 1, lent.before, 1), HALVIRUSO_NO_SLOT, 0, 0));
    CHECK(untouched());
    CHECK(is(open_job(0, 1, UNLIKE), HALVIRUSO_DONE, 0, 0));
    kept = lent;
    CHECK(is(submit(0, 1, UINT32_MAX, lent.before, 1), HALVIRUSO_BAD_NUMBER, 0, 0));
    CHECK(is(submit(0, 1, 65536 + 1, lent.before, 1), HALVIRUSO_BAD_NUMBER, 0, 0));
    CHECK(is(submit(0, UINT32_MAX, 1, lent.before, 1), HALVIRUSO_NO_JOB, 0, 0));
    CHECK(untouched());
}

/* No bytes need no memory, and bytes need no alignment. */
static void pointers(void)
{
    start();
    CHECK(is(halviruso_open(NULL, 0, &lent.open_jobs, 0, 1, UNLIKE), HALVIRUSO_LENT_LENGTH, 0, 0));
    CHECK(is(halviruso_close(NULL, 0, &lent.open_jobs, 0, 1), HALVIRUSO_LENT_LENGTH, 0, 0));
    CHECK(halviruso_count(NULL, 0) == 0);
    CHECK(halviruso_check(NULL, 0) == HALVIRUSO_DONE);
    CHECK(halviruso_check_at(NULL, 0, 0) == HALVIRUSO_DONE);
    CHECK(halviruso_check_at(NULL, 0, 32768) == HALVIRUSO_BAD_DESCRIPTOR);
    CHECK(is(open_job(0, 1, UNLIKE), HALVIRUSO_DONE, 0, 0));
    CHECK(is(submit(0, 1, 1, NULL, 0), HALVIRUSO_DONE, 0, 0));
    CHECK(is(submit(0, 1, 2, (const uint8_t *)"\xC1\xC2" + 1, 1), HALVIRUSO_DONE, 1, 17));
}

static void a_state_goes_in_and_comes_out(void)
{
    static const uint8_t cut[] = {0x2B}, begin_line[] = {0x2B, 0xD3, 0x02, 0xD9}, text[] = {0xC1};
    halviruso_interpreted out;
    halviruso_state after = ELSEWHERE;

    start();
    out = halviruso_interpret(cut, sizeof cut, widths, HALVIRUSO_WIDTHS, lent.records + 1, HALVIRUSO_AREA, UNLIKE, ELSEWHERE);
    CHECK(is(out.answer, HALVIRUSO_CUT, 0, 0) && memcmp(&out.state, &ELSEWHERE, sizeof ELSEWHERE) == 0);
    out = halviruso_interpret(begin_line, sizeof begin_line, widths, HALVIRUSO_WIDTHS, lent.records + 1, HALVIRUSO_AREA, UNLIKE, ELSEWHERE);
    after.at.i = 32768 + 203;
    after.at.b = 32768 + 202 + 204;
    after.chain = 1;
    CHECK(is(out.answer, HALVIRUSO_DONE, 1, 0) && memcmp(&out.state, &after, sizeof after) == 0);
    CHECK(untouched());
    out = halviruso_interpret(text, sizeof text, widths, HALVIRUSO_WIDTHS, lent.records + 1, HALVIRUSO_AREA, UNLIKE, ELSEWHERE);
    CHECK(is(out.answer, HALVIRUSO_DONE, 1, 17) && out.state.used == 212 + 17 && lent.records[1 + 212] == 17 && lent.records[1 + 212 + 16] == 0xC1);
    memcpy(kept.records + 1 + 212, lent.records + 1 + 212, 17);
    CHECK(untouched());
}

static void refusals_of_the_direct_call(void)
{
    halviruso_descriptor no_sheet = UNLIKE;
    halviruso_state astray = ELSEWHERE;
    halviruso_interpreted out;

    start();
    no_sheet.size.b = 0;
    astray.chain = 2;
    CHECK(halviruso_interpret(NULL, 0, widths, HALVIRUSO_WIDTHS - 1, lent.records, HALVIRUSO_AREA, UNLIKE, ELSEWHERE).answer.code == HALVIRUSO_LENT_LENGTH);
    CHECK(halviruso_interpret(NULL, 0, widths, HALVIRUSO_WIDTHS, lent.records, HALVIRUSO_AREA + 1, UNLIKE, ELSEWHERE).answer.code == HALVIRUSO_LENT_LENGTH);
    CHECK(halviruso_interpret(NULL, 0, widths, HALVIRUSO_WIDTHS, lent.records, HALVIRUSO_AREA, no_sheet, ELSEWHERE).answer.code == HALVIRUSO_BAD_DESCRIPTOR);
    out = halviruso_interpret(NULL, 0, widths, HALVIRUSO_WIDTHS, lent.records, HALVIRUSO_AREA, no_sheet, astray);
    CHECK(is(out.answer, HALVIRUSO_DAMAGED, 0, 0) && memcmp(&out.state, &astray, sizeof astray) == 0);
    CHECK(untouched());
}

#define BYTES(bytes) bytes, sizeof(bytes) - 1

/* docs/HOSTS.md, "Finding the byte": parts, in a chain that is open already or not, with the code and the offset that each gets. */
static const struct {
    uint32_t chain;
    const char *part;
    size_t length;
    uint32_t code, first;
} FAULTS[] = {
    {0, BYTES("\x2B"), HALVIRUSO_CUT, 0},
    {0, BYTES("\xC1\x2B\xC1"), HALVIRUSO_PREFIX, 2},
    {0, BYTES("\x2B\xD3\x01\xD8"), HALVIRUSO_LENGTH, 2},
    {0, BYTES("\x2B\xD3\x02\x72"), HALVIRUSO_TYPE, 3},
    {0, BYTES("\x2B\xD3\x04\xC6\x80\x00"), HALVIRUSO_VALUE, 4},
    {0, BYTES("\xC1\xC2\x2B\xD3\x04\xC7\x00\x64\x05\xC2\x00\x0A\x02"), HALVIRUSO_VALUE, 12},
    {0, BYTES("\xC1\xC2\x2B\xD3\x04\xC7\x00\x64\x05\xC2\x10\x00\x02"), HALVIRUSO_VALUE, 10},
    {0, BYTES("\xC1\xC2\x2B\xD3\x04\xC7\x00\x64\x06\xC2\x00\x0A\x02"), HALVIRUSO_LENGTH, 8},
    {0, BYTES("\x2B\xD3\x07\xE6\x00\x01\x00\x01\x01"), HALVIRUSO_VALUE, 6},
    {0, BYTES("\x2B\xD3\x04\xEE\x00\x01"), HALVIRUSO_VALUE, 4},
    {0, BYTES("\x2B\xD3\x03\xF0\x04"), HALVIRUSO_FONT, 4},
    {0, BYTES("\xC1\x2B\xD3\x03\xF4\x05"), HALVIRUSO_SUPPRESSION, 1},
    {0, BYTES("\x2B\xD3\x04\xC6\x7F\xFF\xC1"), HALVIRUSO_OUTSIDE, 6},
    {0, BYTES("\x2B\xD3\x04\xC9\x80\x00\x04\xC8\x80\x00"), HALVIRUSO_POSITION, 6},
    {0, BYTES("\x2B\xD3\x05\xC2\x00\x0A\x01\x2B\xD3\x05\xEE\x0F\xF1\xC1"), HALVIRUSO_NO_ROOM, 7}, /* 4,081 characters in one place */
    {1, BYTES("\x02"), HALVIRUSO_CUT, 0},
    {1, BYTES("\x2B\xD3\x02\xD8"), HALVIRUSO_LENGTH, 0},
    {1, BYTES("\x02\x72"), HALVIRUSO_TYPE, 1},
    {1, BYTES("\x06\xF6\x00\x00\x00\x00"), HALVIRUSO_VALUE, 4},
    {1, BYTES("\x03\xF0\x04"), HALVIRUSO_FONT, 2},
    {1, BYTES("\x03\xF4\x05"), HALVIRUSO_SUPPRESSION, 0},
};

/* Slot 0 has no chain open and awaits part 1, slot 1 has one and awaits part 2; a submit and a direct call point at the same byte. */
static void refusals_point_at_a_byte(void)
{
    static const uint8_t begin_line[] = {0x2B, 0xD3, 0x02, 0xD9};
    halviruso_state state = ELSEWHERE;

    start();
    CHECK(open_job(0, 1, UNLIKE).code == HALVIRUSO_DONE);
    CHECK(open_job(1, 1, UNLIKE).code == HALVIRUSO_DONE);
    CHECK(submit(1, 1, 1, begin_line, sizeof begin_line).code == HALVIRUSO_DONE);
    kept = lent;
    for (size_t at = 0; at < sizeof FAULTS / sizeof FAULTS[0]; at++) {
        const uint8_t *part = (const uint8_t *)FAULTS[at].part;
        size_t length = FAULTS[at].length;
        unsigned before = wrong;

        CHECK(is(submit(FAULTS[at].chain, 1, 1 + FAULTS[at].chain, part, length), FAULTS[at].code, FAULTS[at].first, 0));
        state.chain = FAULTS[at].chain;
        CHECK(is(halviruso_interpret(part, length, widths, HALVIRUSO_WIDTHS, lent.records, HALVIRUSO_AREA, UNLIKE, state).answer, FAULTS[at].code,
                 FAULTS[at].first, 0));
        if (wrong > before)
            printf("  of part %zu, which gets %u at %u\n", at, (unsigned)FAULTS[at].code, (unsigned)FAULTS[at].first);
    }
    CHECK(untouched());
}

static halviruso_answer take(uint32_t slot, uint32_t key, uint64_t total)
{
    return halviruso_take(lent.table.entries, HALVIRUSO_SLOTS, lent.records, HALVIRUSO_RECORDS, slot, key, total);
}

/* docs/HOSTS.md, "When a reply is late": accepted requests that come again change nothing, and what they are answered. */
static void late_requests(void)
{
    static const uint32_t codes[4][3] = {{1, 1, 0}, {14, 16, 1}, {13, 16, 16}, {14, 16, 16}}; /* open, submit and take, close */

    start();
    CHECK(open_job(5, 7, UNLIKE).code == HALVIRUSO_DONE);
    CHECK(submit(5, 7, 1, (const uint8_t *)"\xC1", 1).code == HALVIRUSO_DONE);
    CHECK(take(5, 7, 17).code == HALVIRUSO_DONE);
    for (size_t at = 0; at < 4; at++) {
        kept = lent;
        CHECK(open_job(5, 7, UNLIKE).code == codes[at][0]);
        CHECK(submit(5, 7, 1, (const uint8_t *)"\xC1", 1).code == codes[at][1]);
        CHECK(take(5, 7, 17).code == codes[at][1]);
        CHECK(untouched());
        /* while the job is open this is its first close; then the next job is opened, and closed */
        CHECK(close_job(5, 7).code == codes[at][2]);
        CHECK(at == 0 || untouched());
        if (at == 1)
            CHECK(open_job(5, 8, UNLIKE).code == HALVIRUSO_DONE);
        if (at == 2)
            CHECK(close_job(5, 8).code == HALVIRUSO_DONE);
    }
}

/* A rule of no length, or whose width, given or the descriptor's, is 0: an element that leaves no byte, in a full area too. */
static void rules_with_no_ink(void)
{
    static const uint8_t BARE[] = {0x2B, 0xD3, 0x04, 0xE5, 0, 0, 0x07, 0xE6, 0, 9, 0, 0, 0}, PLAIN[] = {0x2B, 0xD3, 0x04, 0xE4, 0, 9};
    static const uint32_t FILLED[] = {0, HALVIRUSO_AREA};
    halviruso_descriptor thin = UNLIKE;
    halviruso_entry *entry = &lent.table.entries[9];

    thin.rule = 0;
    for (size_t at = 0; at < 2; at++) {
        start();
        CHECK(open_job(9, 1, thin).code == HALVIRUSO_DONE);
        entry->state.used = FILLED[at];
        kept = lent;
        CHECK(is(submit(9, 1, 1, BARE, sizeof BARE), HALVIRUSO_DONE, 2, 0));
        CHECK(is(submit(9, 1, 2, PLAIN, sizeof PLAIN), HALVIRUSO_DONE, 1, 0));
        CHECK(entry->next == 3);
        entry->next = 1;
        CHECK(untouched());
        entry->descriptor.rule = 1;
        CHECK(submit(9, 1, 1, PLAIN, sizeof PLAIN).code == (at == 0 ? HALVIRUSO_DONE : HALVIRUSO_NO_ROOM));
    }
}

/* A part of 4 GB and one byte, none of them ever touched: a length cut to 32 bits would be 1, and the part a character. */
static void lengths_are_not_cut(void)
{
    size_t length = ((size_t)1 << 32) + 1;
    void *part = mmap(NULL, length, PROT_READ, MAP_PRIVATE | MAP_ANONYMOUS | MAP_NORESERVE, -1, 0);

    if (part == MAP_FAILED) {
        printf("no addresses for 4 GB here: one check is left out\n");
        return;
    }
    CHECK(halviruso_check(part, length) == HALVIRUSO_LONG_PART);
    CHECK(halviruso_check_at(part, length, 32767) == HALVIRUSO_LONG_PART);
    CHECK(halviruso_check_at(part, length, 32768) == HALVIRUSO_BAD_DESCRIPTOR);
    munmap(part, length);
}

int main(void)
{
    fresh_tables();
    numbers_and_neighbours();
    wrong_lengths();
    greatest_numbers();
    pointers();
    a_state_goes_in_and_comes_out();
    refusals_of_the_direct_call();
    refusals_point_at_a_byte();
    late_requests();
    rules_with_no_ink();
    lengths_are_not_cut();
    return checked();
}
