/*
 * The library behind two pipes, for tools/elements and tools/cut: the library is compiled for x86-64, and Python may not be.
 *
 * Requests on standard input, answers on standard output, every number little-endian as it stands in memory:
 *   'o' descriptor                               -> halviruso_interpreted: the answer to an open, and the state of the job
 *   'i' descriptor state widths area length part -> halviruso_interpreted, area: what halviruso_interpret answers and leaves
 */
#include "halviruso.h"

#include <stdio.h>
#include <stdlib.h>
#include <string.h>

static halviruso_table table;
static uint16_t widths[HALVIRUSO_WIDTHS];
static uint8_t area[HALVIRUSO_AREA];

static void take(void *to, size_t size) {
    if (fread(to, 1, size, stdin) != size) exit(1);
}

/* A part of any length: which are too long, the library says. */
static uint8_t *taken_part(uint32_t length) {
    uint8_t *part = malloc(length > 0 ? length : 1);
    if (part == NULL) {
        fprintf(stderr, "no memory for a part of %lu bytes\n", (unsigned long)length);
        exit(1);
    }
    take(part, length);
    return part;
}

static void give(const void *from, size_t size) {
    if (fwrite(from, 1, size, stdout) != size) exit(1);
}

static void answer_open(void) {
    halviruso_descriptor descriptor;
    halviruso_interpreted out;
    uint32_t open_jobs = 0;
    take(&descriptor, sizeof descriptor);
    table = halviruso_fresh();
    out.answer = halviruso_open(table.entries, HALVIRUSO_SLOTS, &open_jobs, 0, 1, descriptor);
    out.state = table.entries[0].state;
    give(&out, sizeof out);
}

static void answer_interpret(void) {
    halviruso_descriptor descriptor;
    halviruso_state state;
    halviruso_interpreted out;
    uint32_t length;
    uint8_t *part;
    take(&descriptor, sizeof descriptor);
    take(&state, sizeof state);
    take(widths, sizeof widths);
    take(area, sizeof area);
    take(&length, sizeof length);
    part = taken_part(length);
    out = halviruso_interpret(part, length, widths, HALVIRUSO_WIDTHS, area, HALVIRUSO_AREA, descriptor, state);
    free(part);
    give(&out, sizeof out);
    give(area, sizeof area);
}

int main(void) {
    for (;;) {
        int kind = getchar();
        if (kind == EOF) return 0;
        if (kind == 'o') {
            answer_open();
        } else if (kind == 'i') {
            answer_interpret();
        } else {
            return 1;
        }
        fflush(stdout);
    }
}
