/* The layout that the library is compiled for: this file compiles, or the header is wrong. Nothing of it runs. */
#include "halviruso.h"

#define SIZE(type, bytes) _Static_assert(sizeof(halviruso_##type) == (bytes), "size of " #type)
#define AT(type, member, bytes) _Static_assert(offsetof(halviruso_##type, member) == (bytes), "offset of " #type "." #member)

SIZE(point, 8);
AT(point, i, 0);
AT(point, b, 4);

SIZE(descriptor, 48);
AT(descriptor, size, 0);
AT(descriptor, initial, 8);
AT(descriptor, margin, 16);
AT(descriptor, increment, 20);
AT(descriptor, adjustment, 24);
AT(descriptor, direction, 28);
AT(descriptor, font, 32);
AT(descriptor, colour, 36);
AT(descriptor, rule, 40);
AT(descriptor, hidden, 44);

SIZE(state, 48);
AT(state, at, 0);
AT(state, margin, 8);
AT(state, increment, 12);
AT(state, adjustment, 16);
AT(state, direction, 20);
AT(state, font, 24);
AT(state, colour, 28);
AT(state, space, 32);
AT(state, suppression, 36);
AT(state, chain, 40);
AT(state, used, 44);

SIZE(entry, 112);
AT(entry, key, 0);
AT(entry, mark, 4);
AT(entry, descriptor, 8);
AT(entry, state, 56);
AT(entry, next, 104);
AT(entry, taken, 108);

SIZE(table, 1792);
AT(table, entries, 0);

SIZE(answer, 12);
AT(answer, code, 0);
AT(answer, first, 4);
AT(answer, second, 8);

SIZE(interpreted, 60);
AT(interpreted, answer, 0);
AT(interpreted, state, 12);

_Static_assert(_Alignof(halviruso_table) == 4, "alignment of a table");
_Static_assert(HALVIRUSO_RECORDS == HALVIRUSO_SLOTS * HALVIRUSO_AREA, "an area for each slot");

/* What open, close and take are given, in their order; the number is lent by its address, the total has 64 bits. */
#define TAKES(function, ...) _Static_assert(_Generic(&halviruso_##function, halviruso_answer (*)(__VA_ARGS__): 1, default: 0), "arguments of " #function)

TAKES(open, halviruso_entry *, size_t, uint32_t *, uint32_t, uint32_t, halviruso_descriptor);
TAKES(close, halviruso_entry *, size_t, uint32_t *, uint32_t, uint32_t);
TAKES(take, halviruso_entry *, size_t, uint8_t *, size_t, uint32_t, uint32_t, uint64_t);
