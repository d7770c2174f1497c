/*
 * The tenant and the printer in threads of their own, with one lock, as docs/HOSTS.md says: the printer copies the unread bytes under the lock, prints
 * from the copy without it, and takes under it.
 *
 *   threads WIDTHS PART...
 *
 * Prints the job as examples/drain.c does. However the threads' turns fall, it must be the same. Status 1 where a request is refused.
 */
#include "files.h"
#include "halviruso.h"
#include "sheet.h"

#include <pthread.h>
#include <stdio.h>
#include <stdlib.h>
#include <string.h>

enum { SLOT = 3, KEY = 7, MOST = 1 << 20 };

static pthread_mutex_t lock = PTHREAD_MUTEX_INITIALIZER;
static pthread_cond_t changed = PTHREAD_COND_INITIALIZER;
static halviruso_table table;
static uint32_t open_jobs;
static uint8_t records[HALVIRUSO_RECORDS], paper[MOST];
static uint16_t widths[HALVIRUSO_WIDTHS];
static const halviruso_descriptor LETTER = {.size = {12240, 15840}, .increment = 180, .colour = 0xFF07, .rule = 14};

static int all_sent;   /* under the lock, as the table and the records are */
static size_t printed; /* the printer's own */

static void expect(int right, const char *what, halviruso_answer answer)
{
    if (right)
        return;
    fprintf(stderr, "threads: %s: %u\n", what, (unsigned)answer.code);
    exit(1);
}

/* The unread bytes, as many as there are, into a copy; 0 when there will be no more. */
static size_t copied(uint8_t copy[HALVIRUSO_AREA])
{
    const halviruso_entry *job = &table.entries[SLOT];
    size_t used;

    pthread_mutex_lock(&lock);
    while (job->state.used == 0 && !all_sent)
        pthread_cond_wait(&changed, &lock);
    used = job->state.used;
    memcpy(copy, records + HALVIRUSO_AREA * SLOT, used);
    pthread_mutex_unlock(&lock);
    return used;
}

static void take(uint64_t total)
{
    halviruso_answer answer;

    pthread_mutex_lock(&lock);
    answer = halviruso_take(table.entries, HALVIRUSO_SLOTS, records, HALVIRUSO_RECORDS, SLOT, KEY, total);
    pthread_cond_signal(&changed);
    pthread_mutex_unlock(&lock);
    expect(answer.code == HALVIRUSO_DONE, "take", answer);
}

/* It prints all that it copied, and takes after every third record and at the end: parts arrive while unread records stand in the area. */
static void *print(void *unused)
{
    uint8_t copy[HALVIRUSO_AREA];
    size_t used;

    while ((used = copied(copy)) > 0)
        for (size_t at = 0, count = 1; at < used; count++) {
            size_t length = number_at(copy + at);

            memcpy(paper + printed, copy + at, length);
            at += length;
            printed += length;
            if (count % 3 == 0 || at == used)
                take(printed);
        }
    return unused;
}

static halviruso_answer submit(uint32_t number, const uint8_t *part, size_t length)
{
    halviruso_answer answer =
        halviruso_submit(table.entries, HALVIRUSO_SLOTS, records, HALVIRUSO_RECORDS, widths, HALVIRUSO_WIDTHS, SLOT, KEY, number, part, length);

    pthread_cond_signal(&changed);
    return answer;
}

/* 29: it waits for a take, and sends the same part again. */
static void send_part(uint32_t number, const uint8_t *part, size_t length)
{
    halviruso_answer answer;

    pthread_mutex_lock(&lock);
    answer = submit(number, part, length);
    while (answer.code == HALVIRUSO_NO_ROOM && table.entries[SLOT].state.used > 0) {
        pthread_cond_wait(&changed, &lock);
        answer = submit(number, part, length);
    }
    pthread_mutex_unlock(&lock);
    expect(answer.code == HALVIRUSO_DONE, "a part", answer);
}

static void send_all(int count, char **names)
{
    static uint8_t part[HALVIRUSO_PART + 1];

    for (int at = 0; at < count; at++)
        send_part((uint32_t)at + 1, part, read_part(names[at], part));
    pthread_mutex_lock(&lock);
    all_sent = 1;
    pthread_cond_signal(&changed);
    pthread_mutex_unlock(&lock);
}

int main(int count, char **words)
{
    pthread_t printer;
    halviruso_answer answer;

    if (count < 3)
        return 2;
    read_widths(words[1], widths);
    table = halviruso_fresh();
    answer = halviruso_open(table.entries, HALVIRUSO_SLOTS, &open_jobs, SLOT, KEY, LETTER);
    expect(answer.code == HALVIRUSO_DONE, "open", answer);
    if (pthread_create(&printer, NULL, print, NULL) != 0)
        return 2;
    send_all(count - 2, words + 2);
    pthread_join(printer, NULL);
    answer = halviruso_close(table.entries, HALVIRUSO_SLOTS, &open_jobs, SLOT, KEY);
    expect(answer.code == HALVIRUSO_DONE, "close", answer);
    print_job(&table.entries[SLOT], paper, printed);
    return 0;
}
