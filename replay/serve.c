/* The proved library behind two pipes: one question in, one reply out, and the memory that it is lent in a file that both sides have. */
#include <fcntl.h>
#include <stdint.h>
#include <sys/mman.h>
#include <unistd.h>

#include "halviruso.h"

/* Where each lent slice, and the stored number of open jobs, stands in the file; src/proved.rs has the same numbers. */
enum { TABLE = 0, RECORDS = 4096, NUMBER = 73728, WIDTHS = 77824, PART = 81920, SPAN = 1 << 28 };

enum { FRESH, OPEN, SUBMIT, TAKE, CLOSE, COUNT, INTERPRET, CHECK, CHECK_AT };

typedef struct question {
    uint32_t what, slot, key, number;
    uint32_t table, records, widths, part; /* lengths lent */
    halviruso_descriptor descriptor;
    halviruso_state state;
    uint64_t total;
} question;

static halviruso_interpreted answer(unsigned char *at, const question *q) {
    halviruso_interpreted reply = {0};
    halviruso_entry *table = (halviruso_entry *)(at + TABLE);
    uint32_t *open_jobs = (uint32_t *)(at + NUMBER);
    const uint16_t *widths = (const uint16_t *)(at + WIDTHS);
    switch (q->what) {
    case FRESH:
        *(halviruso_table *)table = halviruso_fresh();
        break;
    case OPEN:
        reply.answer = halviruso_open(table, q->table, open_jobs, q->slot, q->key, q->descriptor);
        break;
    case SUBMIT:
        reply.answer = halviruso_submit(table, q->table, at + RECORDS, q->records, widths, q->widths, q->slot, q->key, q->number, at + PART, q->part);
        break;
    case TAKE:
        reply.answer = halviruso_take(table, q->table, at + RECORDS, q->records, q->slot, q->key, q->total);
        break;
    case CLOSE:
        reply.answer = halviruso_close(table, q->table, open_jobs, q->slot, q->key);
        break;
    case COUNT:
        reply.answer.code = halviruso_count(table, q->table);
        break;
    case INTERPRET:
        reply = halviruso_interpret(at + PART, q->part, widths, q->widths, at + RECORDS, q->records, q->descriptor, q->state);
        break;
    case CHECK:
        reply.answer.code = halviruso_check(at + PART, q->part);
        break;
    case CHECK_AT:
        reply.answer.code = halviruso_check_at(at + PART, q->part, q->descriptor.increment);
        break;
    }
    return reply;
}

/* Both ends send whole messages far below a pipe's room, so each comes in one piece. */
int main(int argc, char **argv) {
    int file = argc == 2 ? open(argv[1], O_RDWR) : -1;
    if (file < 0)
        return 2;
    void *at = mmap(0, SPAN, PROT_READ | PROT_WRITE, MAP_SHARED, file, 0);
    if (at == MAP_FAILED)
        return 2;
    question q;
    while (read(0, &q, sizeof q) == sizeof q) {
        halviruso_interpreted reply = answer(at, &q);
        if (write(1, &reply, sizeof reply) != sizeof reply)
            return 1;
    }
    return 0;
}
