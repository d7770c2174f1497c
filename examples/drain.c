/*
 * A long job through one area: a tenant sends numbered parts, and a printer prints their records and takes them, so that later parts have the room.
 *
 *   drain [-w WIDTHS] [-i INCREMENT] [-t odd|record|part|full] PART...
 *
 * The files are parts 1, 2, 3 .. of the job, in their order; tools/cut makes such files of parts that are too much for an area. WIDTHS has 1,024 numbers,
 * every width is 144 without it. -t says when the printer takes: at odd moments, after each record, after each part, or only when the area is full. On
 * standard output stands the job with all that was printed, as replay's `show` has it, so that tools/page can draw it; on standard error what was sent.
 * Status 0: all of it is on paper. 1: a request was refused. 2: the words or a file are wrong.
 */
#include "files.h"
#include "halviruso.h"
#include "meaning.h"
#include "sheet.h"

#include <inttypes.h>
#include <stdio.h>
#include <stdlib.h>
#include <string.h>

/* What this host lends. */
static halviruso_table table;
static uint32_t open_jobs;
static uint8_t records[HALVIRUSO_RECORDS];
static uint16_t widths[HALVIRUSO_WIDTHS];

enum { SLOT = 3, KEY = 7 };

/* The entry says how many bytes of the area are in use, and how many were taken. */
static const halviruso_entry *const job = &table.entries[SLOT];
static const uint8_t *const area = records + HALVIRUSO_AREA * SLOT;

/* US letter, eight lines to the inch. */
static halviruso_descriptor letter = {.size = {12240, 15840}, .increment = 180, .colour = 0xFF07, .rule = 14};

/* When the printer takes. */
enum pattern { ODD, RECORD, PART, FULL };
static const char *const PATTERNS[] = {"odd", "record", "part", "full"};
static enum pattern pattern = ODD;

/* What became of the requests of one kind. */
struct tally {
    unsigned sent, done, again, no_room;
};
static struct tally submits, takes;

static void give_up(const char *what, halviruso_answer answer)
{
    fprintf(stderr, "drain: %s: %" PRIu32 ", %s; %" PRIu32 ", %" PRIu32 "\n", what, answer.code, meaning(answer.code), answer.first, answer.second);
    exit(1);
}

static void note(struct tally *tally, halviruso_answer answer)
{
    tally->sent++;
    tally->done += answer.code == HALVIRUSO_DONE;
    tally->again += answer.code == HALVIRUSO_ALREADY_TAKEN;
    tally->no_room += answer.code == HALVIRUSO_NO_ROOM;
}

/* A network in small: of seven replies three are lost. Who gets none sends the same request again. */
static int arrives(void)
{
    static unsigned replies;

    return "0110011"[replies++ % 7] == '1';
}

/* The printer. What it has printed since the job was opened, and how many bytes that is: the total that its next take says. */
static uint8_t *paper;
static size_t printed, room;

static void put_on_paper(const uint8_t *record, size_t length)
{
    if (room - printed < length) {
        room = 2 * room + length;
        paper = realloc(paper, room);
        if (paper == NULL) {
            perror("drain");
            exit(2);
        }
    }
    memcpy(paper + printed, record, length);
    printed += length;
}

/* The next record is the first one that is not on paper: before it stands what was printed and not taken yet. The hub leaves whole records only. */
static int print_record(void)
{
    size_t at = printed - job->taken;
    size_t length;

    if (at >= job->state.used)
        return 0;
    length = number_at(area + at);
    if (length < 16 || length > job->state.used - at) {
        fprintf(stderr, "drain: no whole record behind byte %zu\n", printed);
        exit(1);
    }
    put_on_paper(area + at, length);
    return 1;
}

static halviruso_answer take(uint64_t total)
{
    halviruso_answer answer = halviruso_take(table.entries, HALVIRUSO_SLOTS, records, HALVIRUSO_RECORDS, SLOT, KEY, total);

    note(&takes, answer);
    return answer;
}

/* Takes what is on paper, and says so until a reply arrives: 0 and 1 both mean that it is taken, and it is taken once. */
static void take_printed(void)
{
    static uint64_t before;
    halviruso_answer answer;

    if (printed == job->taken)
        return;
    do {
        answer = take(printed);
        if (answer.code > HALVIRUSO_ALREADY_TAKEN)
            give_up("take", answer);
    } while (!arrives());
    /* the take before this one comes a second time, late: it is answered 1, and nothing is changed */
    answer = take(before);
    if (answer.code != HALVIRUSO_ALREADY_TAKEN)
        give_up("a late take", answer);
    before = printed;
}

/* Its count is lost, and the sheet in its tray. The entry knows what was taken: behind that it begins again. */
static unsigned restarts;
static void restart_printer(void)
{
    printed = job->taken;
    restarts++;
}

/* The printer's turn, while no other call runs. At odd moments it prints some records, and takes or doesn't; else it prints them all. */
static void let_it_print(int area_is_full)
{
    static unsigned turns;
    unsigned most;

    turns++;
    most = pattern == ODD ? 7 * turns % 40 : HALVIRUSO_AREA;
    if (pattern == ODD && turns % 4 == 0)
        restart_printer();
    for (unsigned some = 0; some < most && print_record(); some++)
        if (pattern == RECORD)
            take_printed();
    if (pattern == ODD ? turns % 2 == 0 : pattern == PART || area_is_full)
        take_printed();
}

/* The tenant. It sends a part until a reply arrives: 0 and 1 both mean that the part is placed, and it is placed once. */
static halviruso_answer send_part(uint32_t number, const uint8_t *part, size_t length)
{
    halviruso_answer answer;

    do {
        answer = halviruso_submit(table.entries, HALVIRUSO_SLOTS, records, HALVIRUSO_RECORDS, widths, HALVIRUSO_WIDTHS, SLOT, KEY, number, part, length);
        note(&submits, answer);
    } while (!arrives());
    return answer;
}

/* 29: what was printed is taken, and the same part is sent again, under the same number. Beside an empty area it would be 29 for ever. */
static void place(uint32_t number, const char *name, const uint8_t *part, size_t length)
{
    halviruso_answer answer = send_part(number, part, length);

    while (answer.code == HALVIRUSO_NO_ROOM && job->state.used > 0) {
        let_it_print(1);
        answer = send_part(number, part, length);
    }
    if (answer.code == HALVIRUSO_NO_ROOM)
        fprintf(stderr, "drain: %s: its own records pass an area: cut it, by tools/cut\n", name);
    if (answer.code > HALVIRUSO_ALREADY_TAKEN)
        give_up(name, answer);
}

static void usage(void)
{
    fprintf(stderr, "drain: [-w WIDTHS] [-i INCREMENT] [-t odd|record|part|full] PART...\n");
    exit(2);
}

/* Which increments there are, the library says. */
static uint32_t number_of(const char *word)
{
    char *end;
    unsigned long long value = strtoull(word, &end, 10);

    if (*word < '0' || *word > '9' || *end != '\0' || value > UINT32_MAX)
        usage();
    return (uint32_t)value;
}

static enum pattern pattern_of(const char *word)
{
    for (int at = ODD; at <= FULL; at++)
        if (strcmp(word, PATTERNS[at]) == 0)
            return (enum pattern)at;
    usage();
    return ODD;
}

/* The options; and where the files begin. */
static int options(int count, char **words)
{
    int at = 1;

    for (; at + 1 < count && words[at][0] == '-'; at += 2) {
        if (strcmp(words[at], "-w") == 0)
            read_widths(words[at + 1], widths);
        else if (strcmp(words[at], "-i") == 0)
            letter.increment = number_of(words[at + 1]);
        else if (strcmp(words[at], "-t") == 0)
            pattern = pattern_of(words[at + 1]);
        else
            usage();
    }
    if (at >= count || words[at][0] == '-')
        usage();
    return at;
}

static void open_job(void)
{
    halviruso_answer answer;

    table = halviruso_fresh();
    answer = halviruso_open(table.entries, HALVIRUSO_SLOTS, &open_jobs, SLOT, KEY, letter);
    if (answer.code != HALVIRUSO_DONE)
        give_up("open", answer);
}

/* Nothing is taken of a closed job, so the last take comes before the close. */
static void close_job(void)
{
    halviruso_answer answer;

    while (print_record())
        ;
    take_printed();
    answer = halviruso_close(table.entries, HALVIRUSO_SLOTS, &open_jobs, SLOT, KEY);
    if (answer.code != HALVIRUSO_DONE)
        give_up("close", answer);
}

/* What was sent, and how often; and that a take that comes after the close does no harm. */
static void tell(void)
{
    halviruso_answer late;

    fprintf(stderr, "parts: %u, sent %u times: %u already taken, %u no room\n", submits.done, submits.sent, submits.again, submits.no_room);
    fprintf(stderr, "takes: %u, sent %u times: %u already taken\n", takes.done, takes.sent, takes.again);
    fprintf(stderr, "records: %zu bytes through an area of %u, the printer restarted %u times\n", printed, HALVIRUSO_AREA, restarts);
    late = take(printed);
    fprintf(stderr, "a take after the close: %" PRIu32 ", %s\n", late.code, meaning(late.code));
}

int main(int count, char **words)
{
    static uint8_t part[HALVIRUSO_PART + 1];
    int first;

    for (size_t at = 0; at < HALVIRUSO_WIDTHS; at++)
        widths[at] = 144;
    first = options(count, words);
    open_job();
    for (int at = first; at < count; at++) {
        place((uint32_t)(at - first + 1), words[at], part, read_part(words[at], part));
        let_it_print(0);
    }
    close_job();
    tell();
    print_job(job, paper, printed);
    free(paper);
    return 0;
}
