#include "things.h"

#include <stdio.h>
#include <string.h>

#include "chance.h"

static const uint32_t COLOURS[] = {0x0000, 0xFF00, 0xFF07};

static void spoil(uint32_t *numbers, size_t count) {
    static const uint32_t ODD[] = {0, 2, 4, 128, 193, 4096, 4097, 32768, 65534, 65536, 65537, 0x80000000u, 0xFFFFFFFFu};
    numbers[below((uint32_t)count)] = once_in(2) ? PICK(ODD) : any();
}

halviruso_descriptor a_descriptor(void) {
    halviruso_descriptor d = {
        .size = {between(1, 32767), between(1, 32767)},
        .initial = {below(600), below(600)},
        .margin = below(600),
        .increment = between(0, 300),
        .adjustment = once_in(3) ? between(0, 4095) : 0,
        .direction = below(2),
        .font = below(4),
        .colour = PICK(COLOURS),
        .rule = between(0, 192),
        .hidden = below(4),
    };
    if (once_in(24))
        spoil((uint32_t *)&d, sizeof d / sizeof(uint32_t));
    return d;
}

halviruso_state a_state(const halviruso_descriptor *d) {
    static const uint32_t USED[] = {0, 0, 0, 16, 4062, 4063, 4079, 4080, 4080, 4081, 4095, 4096};
    halviruso_state s = {
        .at = {HALVIRUSO_ORIGIN + below(d->size.i + 1), HALVIRUSO_ORIGIN + below(d->size.b + 1)},
        .margin = below(600),
        .increment = below(300),
        .adjustment = once_in(4) ? between(0, 4095) : below(20),
        .direction = below(2),
        .font = below(4),
        .colour = PICK(COLOURS),
        .space = once_in(3) ? between(0, 4095) : HALVIRUSO_ABSENT,
        .suppression = below(3),
        .chain = once_in(3),
        .used = once_in(3) ? below(4097) : PICK(USED),
    };
    if (once_in(24))
        spoil((uint32_t *)&s, sizeof s / sizeof(uint32_t));
    return s;
}

halviruso_entry an_entry(void) {
    static const uint32_t NEXT[] = {1, 1, 1, 2, 65535, 65536}, TAKEN[] = {0, 0, 17, 4096, 65536, UINT32_MAX - 4096, UINT32_MAX - 17, UINT32_MAX};
    halviruso_entry e;
    if (once_in(16)) {
        for (size_t at = 0; at < sizeof e / sizeof(uint32_t); at++)
            ((uint32_t *)&e)[at] = any();
        return e;
    }
    e.key = once_in(8) ? any() : below(5);
    e.mark = once_in(16) ? any() : !once_in(4);
    e.descriptor = a_descriptor();
    e.state = a_state(&e.descriptor);
    e.next = once_in(20) ? any() : PICK(NEXT);
    e.taken = once_in(4) ? any() : PICK(TAKEN);
    return e;
}

uint32_t a_number(uint32_t walked) {
    static const uint32_t EDGE[] = {0, 0, 1, 15, 16, 16, 17, 17, 256, 65536, 0x80000000u, 0xFFFFFFFFu};
    switch (below(5)) {
    case 0:
        return PICK(EDGE);
    case 1:
        return walked + below(3) - 1;
    case 2:
        return once_in(2) ? any() : below(17);
    default:
        return walked;
    }
}

enum { SEQUENCES = 19 };

/* The nineteen types and one that there isn't, with a usual number of parameters. */
static const struct {
    unsigned char type, parameters;
} TYPES[SEQUENCES + 1] = {{0xC6, 2}, {0xD2, 2}, {0xC8, 2}, {0xD4, 2}, {0xD8, 0}, {0xC0, 2}, {0xD0, 2}, {0xC2, 3}, {0xC4, 2}, {0xF0, 1},
                          {0x74, 2}, {0xF6, 4}, {0xF2, 1}, {0xF4, 1}, {0xE4, 5}, {0xE6, 2}, {0xDA, 9}, {0xEE, 9}, {0xF8, 9}, {0x72, 2}};

int is_type(unsigned char byte) {
    size_t at = 0;
    while (at < SEQUENCES && TYPES[at].type != (byte & 0xFE))
        at++;
    return at < SEQUENCES;
}

/* Parameters that often pass: small numbers, and the edges. */
static void parameters(unsigned char *p, size_t count, unsigned char type) {
    static const unsigned char EDGE[] = {0x00, 0x00, 0x00, 0x01, 0x02, 0x03, 0x0F, 0x7F, 0x80, 0xFF, 0xFF, 0xC0};
    for (size_t at = 0; at < count; at++)
        p[at] = once_in(3) ? PICK(EDGE) : (unsigned char)any();
    if (count > 1 && !once_in(6))
        p[0] &= 0x03;
    if (type == 0xF6 && !once_in(4))
        memcpy(p, "\x00\x00\x2D\x00", 4);
    if (type == 0x74 && !once_in(4))
        memcpy(p, "\xFF\x07", 2);
    if ((type & 0xFD) == 0xE4 && count == 5 && !once_in(4))
        memcpy(p + 2, once_in(2) ? "\x00\x0E\x00" : "\xFF\xFF\xFF", 3);
    if ((type & 0xF9) == 0xF0 && count == 1 && !once_in(4))
        p[0] = (unsigned char)below(4);
}

/* One sequence, or some text, at `bytes`; gives its size, at most 300. */
static size_t an_element(unsigned char *bytes, int *chained) {
    size_t size = 0, which = below(sizeof TYPES / sizeof *TYPES);
    if (!*chained && once_in(3)) {
        for (size = 0; size < 1 + below(once_in(8) ? 200 : 12); size++)
            bytes[size] = once_in(4) ? 0x40 : (unsigned char)(0xC0 + below(64));
        return size;
    }
    unsigned char type = TYPES[which].type;
    size_t count = type == 0xDA || type == 0xEE || type == 0xF8 ? 2 + below(once_in(8) ? 252 : 10) : TYPES[which].parameters;
    if (!*chained) {
        bytes[size++] = 0x2B;
        bytes[size++] = 0xD3;
    }
    *chained = once_in(2);
    bytes[size++] = (unsigned char)(count + 2 + (once_in(40) ? between(0, 2) : 0));
    bytes[size++] = (unsigned char)(type | *chained);
    parameters(bytes + size, count, type);
    return size + count;
}

static struct {
    unsigned char bytes[8192];
    size_t size;
} samples[16];
static uint32_t sample_count;

void keep_sample(const char *path) {
    FILE *file = fopen(path, "rb");
    if (file == NULL || sample_count == sizeof samples / sizeof *samples)
        return;
    samples[sample_count].size = fread(samples[sample_count].bytes, 1, sizeof samples->bytes, file);
    sample_count++;
    fclose(file);
}

static void mutate(unsigned char *bytes, size_t size) {
    static const unsigned char EDGE[] = {0x2B, 0xD3, 0x00, 0x02, 0x7F, 0x80, 0xFF};
    for (uint32_t times = 1 + below(4); size > 0 && times > 0; times--) {
        size_t at = below((uint32_t)size);
        bytes[at] = once_in(2) ? PICK(EDGE) : once_in(2) ? bytes[at] ^ (unsigned char)(1u << below(8)) : (unsigned char)any();
    }
}

/* A rule alone: where 16 bytes are left, the record of one with ink ends with the area; one with no ink has none. */
static size_t a_rule(unsigned char *bytes, int chained) {
    unsigned char length = !once_in(16), width = !once_in(16);
    const unsigned char rule[] = {0x2B, 0xD3, 0x07, 0xE4, 0x00, length, 0x00, width, 0x00};
    size_t from = chained ? 2 : 0;
    memcpy(bytes, rule + from, sizeof rule - from);
    return sizeof rule - from;
}

static size_t grown(unsigned char *bytes, size_t size, int chained) {
    size_t at = 0;
    while (at + 300 <= size)
        at += an_element(bytes + at, &chained);
    /* what is left for the last ones is cut, at any byte */
    unsigned char last[300];
    while (at < size) {
        size_t more = an_element(last, &chained), left = size - at;
        memcpy(bytes + at, last, more < left ? more : left);
        at += more < left ? more : left;
    }
    return size;
}

size_t a_part(unsigned char *bytes, int chained) {
    static const size_t LIMIT[] = {0, 1, 2, 3, 4, 8191, 8192, 8193, LONGEST};
    size_t size = once_in(12) ? PICK(LIMIT) : once_in(16) ? below(LONGEST) : below(once_in(2) ? 24 : 120);
    if (sample_count > 0 && once_in(6)) {
        size_t which = below(sample_count);
        size = samples[which].size;
        memcpy(bytes, samples[which].bytes, size);
        mutate(bytes, size);
        return once_in(4) ? below((uint32_t)size + 1) : size;
    }
    if (once_in(8))
        return a_rule(bytes, chained);
    if (once_in(10)) {
        for (size_t at = 0; at < size; at++)
            bytes[at] = (unsigned char)any();
        return size;
    }
    grown(bytes, size, chained);
    if (once_in(5))
        mutate(bytes, size);
    return size;
}
