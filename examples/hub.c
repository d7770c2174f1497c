/*
 * A job from open to close: what a host lends, what it sends, how it sends again, how a printer reads the records, and what the desk is told.
 */
#include "halviruso.h"
#include "meaning.h"

#include <inttypes.h>
#include <stdio.h>
#include <string.h>

/* What this host lends. It is the host's from first to last: the library looks at it during a call only, and keeps nothing of its own. */
static halviruso_table table;
static uint32_t open_jobs; /* the number beside the table: open and close keep it */
static uint8_t records[HALVIRUSO_RECORDS];
static uint16_t widths[HALVIRUSO_WIDTHS];

enum { SLOT = 3, KEY = 7 };

/* US letter, six lines to the inch. Members that aren't named are 0. */
static const halviruso_descriptor LETTER = {
    .size = {12240, 15840},
    .increment = 240,
    .colour = 0xFF07,
    .rule = 14,
};

/* AMI 720 and AMB 480 in a chain, the text C1 C2, then DIR of length 1,440. */
static const uint8_t HEADING[] = {0x2B, 0xD3, 0x04, 0xC7, 0x02, 0xD0, 0x04, 0xD2, 0x01, 0xE0, 0xC1, 0xC2, 0x2B, 0xD3, 0x04, 0xE4, 0x05, 0xA0};

/* AMI 12,097 and a character: one unit past the sheet's edge. */
static const uint8_t TOO_FAR[] = {0x2B, 0xD3, 0x04, 0xC6, 0x2F, 0x41, 0xC1};

/* The text C1 C2, AMI 100, and in its chain SIA by 10 in direction 02, which there isn't. */
static const uint8_t NO_DIRECTION[] = {0xC1, 0xC2, 0x2B, 0xD3, 0x04, 0xC7, 0x00, 0x64, 0x05, 0xC2, 0x00, 0x0A, 0x02};

/* BLN and a character: the next line. */
static const uint8_t NEXT_LINE[] = {0x2B, 0xD3, 0x02, 0xD8, 0xC1};

static void say(const char *what, halviruso_answer answer)
{
    printf("%s: %" PRIu32 ", %s; %" PRIu32 ", %" PRIu32 "\n", what, answer.code, meaning(answer.code), answer.first, answer.second);
}

static void start(void)
{
    table = halviruso_fresh();
    open_jobs = 0;
    memset(records, 0, sizeof records);
    for (size_t at = 0; at < HALVIRUSO_WIDTHS; at++)
        widths[at] = 144; /* every character of every font is a tenth of an inch wide */
}

static halviruso_answer open_job(void)
{
    return halviruso_open(table.entries, HALVIRUSO_SLOTS, &open_jobs, SLOT, KEY, LETTER);
}

static halviruso_answer close_job(void)
{
    return halviruso_close(table.entries, HALVIRUSO_SLOTS, &open_jobs, SLOT, KEY);
}

static halviruso_answer submit(uint32_t number, const uint8_t *part, size_t length)
{
    return halviruso_submit(table.entries, HALVIRUSO_SLOTS, records, HALVIRUSO_RECORDS, widths, HALVIRUSO_WIDTHS, SLOT, KEY, number, part, length);
}

/* Numbers in records are little-endian, and need not be aligned. */
static unsigned number_at(const uint8_t *bytes)
{
    return bytes[0] + 256u * bytes[1];
}

/* I, B and the adjustment are signed. */
static int signed_at(const uint8_t *bytes)
{
    unsigned number = number_at(bytes);

    return number < 32768u ? (int)number : (int)number - 65536;
}

static void print_text(const uint8_t *record, size_t length)
{
    printf("  text at %d, %d: font %u, colour %04X, adjustment %d", signed_at(record + 4), signed_at(record + 6), number_at(record + 8),
           number_at(record + 10), signed_at(record + 12));
    if (number_at(record + 14) != HALVIRUSO_ABSENT)
        printf(", variable space %u", number_at(record + 14));
    printf(", characters ");
    for (size_t at = 16; at < length; at++)
        printf("%02X", record[at]);
    printf("\n");
}

static void print_rule(const uint8_t *record)
{
    printf("  rule at %d, %d: along %s, colour %04X, length %u, width %u\n", signed_at(record + 4), signed_at(record + 6),
           number_at(record + 8) == 0 ? "I" : "B", number_at(record + 10), number_at(record + 12), number_at(record + 14));
}

/* Walks a slot's records from the start of its area to the bytes used. The hub writes whole records only; a copy from elsewhere may not be so kind. */
static void print_records(uint32_t slot)
{
    const uint8_t *area = records + HALVIRUSO_AREA * slot;
    size_t used = table.entries[slot].state.used;
    size_t at = 0;

    printf("records, %zu bytes:\n", used);
    while (used <= HALVIRUSO_AREA && used - at >= 16) {
        size_t length = number_at(area + at);
        unsigned kind = number_at(area + at + 2);

        if (length < 16 || length > used - at)
            break;
        if (kind == 1)
            print_text(area + at, length);
        else if (kind == 2 && length == 16)
            print_rule(area + at);
        else
            break;
        at += length;
    }
}

/* 20 to 29 point at the byte at fault. It is always one of the part's, so there is nothing to test. */
static void show_byte(halviruso_answer answer, const uint8_t *part)
{
    if (answer.code >= HALVIRUSO_CUT && answer.code <= HALVIRUSO_NO_ROOM)
        printf("  at byte %" PRIu32 ": X'%02X'\n", answer.first, part[answer.first]);
}

/* A refusal leaves all that was lent as it was, so nothing has to be undone: the part is mended and sent under the same number. */
static void send_a_bad_part(const char *what, const uint8_t *part, size_t length)
{
    static halviruso_table table_before;
    static uint8_t records_before[HALVIRUSO_RECORDS];
    halviruso_answer answer;
    int same;

    table_before = table;
    memcpy(records_before, records, sizeof records);
    answer = submit(2, part, length);
    say(what, answer);
    show_byte(answer, part);
    same = memcmp(&table_before, &table, sizeof table) == 0 && memcmp(records_before, records, sizeof records) == 0;
    printf("memory: %s\n", same ? "unchanged" : "CHANGED");
}

/* The desk asks many times a second. The number is there: no walk, no call. */
static void tell_the_desk(void)
{
    printf("open jobs: %" PRIu32 "\n", open_jobs);
}

/* 32: the number beside the table can't be right. Nothing was changed, so it is set to what the walk says, and the request is sent again. */
static void close_with_the_number_lost(void)
{
    open_jobs = 0;
    say("close, the number lost", close_job());
    open_jobs = halviruso_count(table.entries, HALVIRUSO_SLOTS);
    tell_the_desk();
    say("close", close_job());
}

int main(void)
{
    start();
    say("open", open_job());
    say("part 1", submit(1, HEADING, sizeof HEADING));
    /* No reply in time? The same request again is safe: 1 says that it was taken, and nothing is placed twice. */
    say("part 1 again", submit(1, HEADING, sizeof HEADING));
    print_records(SLOT);
    send_a_bad_part("part 2, too far to the right", TOO_FAR, sizeof TOO_FAR);
    send_a_bad_part("part 2, in a direction that there isn't", NO_DIRECTION, sizeof NO_DIRECTION);
    say("part 2, mended", submit(2, NEXT_LINE, sizeof NEXT_LINE));
    print_records(SLOT);
    tell_the_desk();
    close_with_the_number_lost();
    say("close again", close_job());
    say("part 1 after the close", submit(1, HEADING, sizeof HEADING));
    /* Keys only rise: the slot's next job needs one above 7. */
    say("open again under the same key", open_job());
    tell_the_desk();
    return 0;
}
