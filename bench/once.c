/* once WHO TIMES CASE: interprets the case of a file so many times, or takes from it where its name ends in .take, by the proved library or by plain C.
 * For counting instructions. */
#include <stdio.h>
#include <stdlib.h>
#include <string.h>

#include "halviruso.h"

typedef halviruso_interpreted interpreting(const uint8_t *, size_t, const uint16_t *, size_t, uint8_t *, size_t, halviruso_descriptor, halviruso_state);
typedef halviruso_answer taking(halviruso_entry *, size_t, uint8_t *, size_t, uint32_t, uint32_t, uint64_t);

interpreting plain_interpret;
taking plain_take;

/* As src/case.rs writes it. */
static struct {
    halviruso_descriptor descriptor;
    halviruso_state state;
    uint16_t widths[HALVIRUSO_WIDTHS];
    uint8_t part[HALVIRUSO_PART];
} given;

/* As src/takes.rs writes it. */
static struct {
    halviruso_entry entry;
    uint8_t area[HALVIRUSO_AREA];
    uint64_t total;
} drained;

/* The answer is said, so that both can be seen to do the same. */
static int interpret_case(FILE *file, int proved, long times) {
    static uint8_t area[HALVIRUSO_AREA];
    size_t head = offsetof(__typeof__(given), part), size = fread(&given, 1, sizeof given, file);
    if (size < head)
        return 2;
    interpreting *interpret = proved ? halviruso_interpret : plain_interpret;
    halviruso_interpreted last = {0};
    for (; times > 0; times--)
        last = interpret(given.part, size - head, given.widths, HALVIRUSO_WIDTHS, area, sizeof area, given.descriptor, given.state);
    fprintf(stderr, "%u %u %u\n", last.answer.code, last.answer.first, last.answer.second);
    return 0;
}

/* After the answer the bytes that were moved. */
static int take_case(FILE *file, int proved, long times) {
    static halviruso_table table;
    static uint8_t records[HALVIRUSO_RECORDS];
    if (fread(&drained, sizeof drained, 1, file) != 1)
        return 2;
    memcpy(records, drained.area, sizeof drained.area);
    taking *take = proved ? halviruso_take : plain_take;
    halviruso_answer last = {0};
    for (; times > 0; times--) {
        table.entries[0] = drained.entry;
        last = take(table.entries, HALVIRUSO_SLOTS, records, HALVIRUSO_RECORDS, 0, drained.entry.key, drained.total);
    }
    fprintf(stderr, "%u %u %u %u\n", last.code, last.first, last.second, table.entries[0].state.used);
    return 0;
}

int main(int argc, char **argv) {
    FILE *file = argc == 4 ? fopen(argv[3], "rb") : NULL;
    if (file == NULL)
        return 2;
    int proved = strcmp(argv[1], "proved") == 0;
    const char *end = strrchr(argv[3], '.');
    long times = strtol(argv[2], NULL, 10);
    return end != NULL && strcmp(end, ".take") == 0 ? take_case(file, proved, times) : interpret_case(file, proved, times);
}
