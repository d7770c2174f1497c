/*
 * The stored number of open jobs, which open and close are lent: against a page that faults, at the borders of what is taken, and last of all tests.
 */
#define _DEFAULT_SOURCE
#include "check.h"

#include <stdlib.h>
#include <string.h>
#include <sys/mman.h>
#include <unistd.h>

enum { MARK = 0xA5 };

/* Slots of the table: one open, one open and damaged, one closed again, each under the key; the others had no job yet. */
enum { OPENED = 0, HURT = 1, CLOSED = 2, FREE = 3, KEY = 7 };

static const halviruso_descriptor SHEET = {.size = {12240, 15840}}, NO_SHEET = {.size = {0, 15840}};

static halviruso_table table, kept_table;
static uint8_t *page, *kept_page; /* the first is between two that fault */
static size_t page_size;
static uint32_t *number; /* what is lent: the page's first four bytes, or its last */

static void make_pages(void)
{
    uint8_t *span;

    page_size = (size_t)sysconf(_SC_PAGESIZE);
    span = mmap(NULL, 3 * page_size, PROT_NONE, MAP_PRIVATE | MAP_ANONYMOUS, -1, 0);
    kept_page = malloc(page_size);
    if (span == MAP_FAILED || kept_page == NULL || mprotect(span + page_size, page_size, PROT_READ | PROT_WRITE) != 0) {
        perror("memory to lend");
        exit(2);
    }
    page = span + page_size;
}

/* Lends a number, with marks on all the rest of its page, and keeps what is lent. */
static void lend(uint32_t lent)
{
    memset(page, MARK, page_size);
    *number = lent;
    memcpy(kept_page, page, page_size);
    kept_table = table;
}

/* The number is this one now, and no other byte of its page has changed. */
static int left_with(uint32_t left)
{
    memcpy(kept_page + ((uint8_t *)number - page), &left, sizeof left);
    return memcmp(page, kept_page, page_size) == 0;
}

static int same_table(void)
{
    return memcmp(&table, &kept_table, sizeof table) == 0;
}

static halviruso_answer opened(uint32_t slot, uint32_t key, halviruso_descriptor descriptor)
{
    return halviruso_open(table.entries, HALVIRUSO_SLOTS, number, slot, key, descriptor);
}

static halviruso_answer closed(uint32_t slot, uint32_t key)
{
    return halviruso_close(table.entries, HALVIRUSO_SLOTS, number, slot, key);
}

static uint32_t walked(void)
{
    return halviruso_count(table.entries, HALVIRUSO_SLOTS);
}

static void fill_table(void)
{
    table = halviruso_fresh();
    *number = 0;
    for (uint32_t slot = OPENED; slot <= CLOSED; slot++)
        CHECK(opened(slot, KEY, SHEET).code == HALVIRUSO_DONE);
    CHECK(closed(CLOSED, KEY).code == HALVIRUSO_DONE);
    table.entries[HURT].next = 0;
    CHECK(*number == 2 && walked() == 2);
}

/* From a fresh table and 0 it is the count after every request. */
static void sixteen_jobs(void)
{
    table = halviruso_fresh();
    lend(0);
    for (uint32_t jobs = 0; jobs < HALVIRUSO_SLOTS; jobs++) {
        CHECK(is(opened(jobs, KEY, SHEET), HALVIRUSO_DONE, 0, 0) && left_with(jobs + 1));
        CHECK(opened(jobs, KEY, SHEET).code == HALVIRUSO_ALREADY_TAKEN && opened(jobs, KEY + 1, SHEET).code == HALVIRUSO_BUSY);
        CHECK(left_with(jobs + 1) && walked() == jobs + 1);
    }
    for (uint32_t jobs = HALVIRUSO_SLOTS; jobs-- > 0;) {
        CHECK(is(closed(jobs, KEY), HALVIRUSO_DONE, 0, 0) && left_with(jobs));
        CHECK(closed(jobs, KEY).code == HALVIRUSO_ALREADY_TAKEN && closed(jobs, KEY + 1).code == HALVIRUSO_NO_JOB);
        CHECK(left_with(jobs) && walked() == jobs);
    }
}

/* What other tests refuse, or answer 1, they do so whatever the number is, and it stays. */
static void before_the_number_is_looked_at(uint32_t any)
{
    lend(any);
    CHECK(is(halviruso_open(table.entries, 15, number, FREE, KEY, SHEET), HALVIRUSO_LENT_LENGTH, 0, 0));
    CHECK(is(halviruso_open(NULL, 0, number, FREE, KEY, SHEET), HALVIRUSO_LENT_LENGTH, 0, 0));
    CHECK(is(opened(16, KEY, SHEET), HALVIRUSO_NO_SLOT, 0, 0));
    CHECK(is(opened(HURT, KEY + 1, SHEET), HALVIRUSO_DAMAGED, 0, 0));
    CHECK(is(opened(OPENED, KEY, SHEET), HALVIRUSO_ALREADY_TAKEN, 0, 0));
    CHECK(is(opened(OPENED, KEY + 1, SHEET), HALVIRUSO_BUSY, 0, 0));
    CHECK(is(opened(CLOSED, KEY, SHEET), HALVIRUSO_OLD_KEY, 0, 0));
    CHECK(is(opened(FREE, KEY, NO_SHEET), HALVIRUSO_BAD_DESCRIPTOR, 0, 0));
    CHECK(is(halviruso_close(table.entries, 15, number, OPENED, KEY), HALVIRUSO_LENT_LENGTH, 0, 0));
    CHECK(is(halviruso_close(NULL, 0, number, OPENED, KEY), HALVIRUSO_LENT_LENGTH, 0, 0));
    CHECK(is(closed(16, KEY), HALVIRUSO_NO_SLOT, 0, 0));
    CHECK(is(closed(HURT, KEY), HALVIRUSO_DAMAGED, 0, 0));
    CHECK(is(closed(CLOSED, KEY), HALVIRUSO_ALREADY_TAKEN, 0, 0));
    CHECK(is(closed(OPENED, KEY + 1), HALVIRUSO_NO_JOB, 0, 0));
    CHECK(is(closed(FREE, 0), HALVIRUSO_NO_JOB, 0, 0));
    CHECK(left_with(any) && same_table());
}

/* Requests that pass all else: the number alone decides. */
static void the_number_decides(uint32_t any)
{
    int opens = any <= 15, closes = any >= 1 && any <= 16;

    fill_table();
    lend(any);
    CHECK(is(opened(FREE, KEY, SHEET), opens ? HALVIRUSO_DONE : HALVIRUSO_STORED_NUMBER, 0, 0));
    CHECK(same_table() == !opens && left_with(any + (uint32_t)opens) && walked() == 2u + (uint32_t)opens);
    fill_table();
    lend(any);
    CHECK(is(closed(OPENED, KEY), closes ? HALVIRUSO_DONE : HALVIRUSO_STORED_NUMBER, 0, 0));
    CHECK(same_table() == !closes && left_with(any - (uint32_t)closes) && walked() == 2u - (uint32_t)closes);
}

/* docs/HOSTS.md: after 32 the number is set to the count, and the same request is done. */
static void set_right_and_sent_again(void)
{
    fill_table();
    *number = 16;
    CHECK(opened(FREE, KEY, SHEET).code == HALVIRUSO_STORED_NUMBER);
    *number = walked();
    CHECK(opened(FREE, KEY, SHEET).code == HALVIRUSO_DONE && *number == 3 && walked() == 3);
    *number = 0;
    CHECK(closed(FREE, KEY).code == HALVIRUSO_STORED_NUMBER);
    *number = walked();
    CHECK(closed(FREE, KEY).code == HALVIRUSO_DONE && *number == 2 && walked() == 2);
}

int main(void)
{
    static const uint32_t numbers[] = {0, 1, 2, 14, 15, 16, 17, 18, 255, 256, 65536, 1u << 31, UINT32_MAX - 1, UINT32_MAX};

    make_pages();
    for (int side = 0; side < 2; side++) {
        number = (uint32_t *)(void *)(side == 0 ? page : page + page_size - sizeof *number);
        sixteen_jobs();
        for (size_t at = 0; at < sizeof numbers / sizeof numbers[0]; at++) {
            fill_table();
            before_the_number_is_looked_at(numbers[at]);
            the_number_decides(numbers[at]);
        }
        set_right_and_sent_again();
    }
    return checked();
}
