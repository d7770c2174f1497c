/* The same interpreting and taking in plain C, to measure against: one pass, the state in locals, the types in a table by index, the records in scratch
 * bytes until every element has passed. The order of the tests is the paper's. Little-endian machines, as the records are. */
#include <limits.h>
#include <string.h>

#include "halviruso.h"

typedef struct row {
    uint8_t least, greatest, hole_from, hole_to; /* LENGTHs; least 0: no type */
} row;

#define ALL(least, greatest) {least, greatest, 255, 0}

static const row ROWS[128] = {
    [0xC6 / 2] = ALL(4, 4), [0xD2 / 2] = ALL(4, 4), [0xC8 / 2] = ALL(4, 4), [0xD4 / 2] = ALL(4, 4),   [0xD8 / 2] = ALL(2, 2),
    [0xC0 / 2] = ALL(4, 4), [0xD0 / 2] = ALL(4, 4), [0xC2 / 2] = ALL(4, 5), [0xC4 / 2] = ALL(4, 4),   [0xF0 / 2] = ALL(3, 3),
    [0x74 / 2] = ALL(4, 5), [0xF6 / 2] = ALL(6, 6), [0xF2 / 2] = ALL(3, 3), [0xF4 / 2] = ALL(3, 3),   [0xE4 / 2] = {4, 7, 5, 6},
    [0xE6 / 2] = {4, 7, 5, 6}, [0xDA / 2] = ALL(2, 255), [0xEE / 2] = ALL(4, 255), [0xF8 / 2] = ALL(2, 255),
};

typedef struct work {
    const halviruso_descriptor *d;
    const uint16_t *widths;
    uint8_t *records;
    halviruso_state s;
    int32_t i, b;
    const uint8_t *fault; /* the byte at fault; null: the element's first */
} work;

static inline uint32_t two(const uint8_t *p) {
    return (uint32_t)p[0] << 8 | p[1];
}

static inline uint32_t wrong(work *w, uint32_t code, const uint8_t *byte) {
    w->fault = byte;
    return code;
}

/* A value up to `greatest`, or all ones for `other`; 24 if neither. */
static inline uint32_t set(work *w, uint32_t *to, const uint8_t *p, uint32_t greatest, uint32_t other) {
    uint32_t value = two(p);
    if (value > greatest && value != 0xFFFF)
        return wrong(w, 24, p);
    *to = value == 0xFFFF ? other : value;
    return 0;
}

static inline uint32_t move(int32_t *to, int32_t place) {
    if (place < -32768 || place > 32767)
        return 28;
    *to = place;
    return 0;
}

static inline int hides(const work *w) {
    return w->s.suppression != 0 && w->s.suppression == w->d->hidden;
}

static inline void head(uint8_t *at, uint32_t length, uint32_t kind, const work *w, uint32_t c, uint32_t d, uint32_t e, uint32_t f) {
    const uint16_t numbers[8] = {(uint16_t)length, (uint16_t)kind, (uint16_t)w->i, (uint16_t)w->b, (uint16_t)c, (uint16_t)d, (uint16_t)e, (uint16_t)f};
    memcpy(at, numbers, sizeof numbers);
}

/* The sum of the widths of some text. */
static inline int64_t span(const uint16_t *font, uint32_t space, const uint8_t *text, uint32_t length) {
    uint32_t sum = 0, spaces = 0;
    for (uint32_t k = 0; k < length; k++)
        sum += font[text[k]];
    if (space == HALVIRUSO_ABSENT)
        return sum;
    for (uint32_t k = 0; k < length; k++)
        spaces += text[k] == 0x40;
    return sum + (int64_t)spaces * ((int32_t)space - font[0x40]);
}

/* One character after the other; the text is gone over in slices, so that no character asks where it ends. */
static uint32_t walk(work *w, const uint16_t *font, const uint8_t *text, uint32_t length, uint32_t count, int32_t adjust, int32_t least, int32_t most) {
    int32_t i = w->i, extra = w->s.space == HALVIRUSO_ABSENT ? 0 : (int32_t)w->s.space - font[0x40];
    for (uint32_t left = count, some; left > 0; left -= some) {
        some = left < length ? left : length;
        for (uint32_t k = 0; k < some; k++) {
            int32_t width = font[text[k]] + (extra & -(text[k] == 0x40));
            if (i < least || i + width > most)
                return 27;
            i += width + adjust;
            if (i < -32768 || i > 32767)
                return 28;
        }
    }
    w->i = i;
    return 0;
}

/* Moves I by `count` characters of the text, taken round and round. */
static inline uint32_t advance(work *w, const uint8_t *text, uint32_t length, uint32_t count, int hidden) {
    const uint16_t *font = w->widths + 256 * w->s.font;
    int32_t adjust = w->s.direction ? -(int32_t)w->s.adjustment : (int32_t)w->s.adjustment;
    int32_t least = hidden ? INT_MIN : 0, most = hidden ? INT_MAX : (int32_t)w->d->size.i;
    if (adjust >= 0 && w->i >= least) { /* no character goes back, so the last one decides */
        int64_t sum = count == length ? span(font, w->s.space, text, length)
                                      : (count / length) * span(font, w->s.space, text, length) + span(font, w->s.space, text, count % length);
        int64_t end = w->i + sum + (int64_t)count * adjust;
        if (end <= 32767 && end - adjust <= most) {
            w->i = (int32_t)end;
            return 0;
        }
    }
    return walk(w, font, text, length, count, adjust, least, most);
}

static inline void copy_round(uint8_t *to, const uint8_t *text, uint32_t length, uint32_t count) {
    uint32_t done = length < count ? length : count;
    memcpy(to, text, done);
    while (done < count) {
        uint32_t more = done < count - done ? done : count - done;
        memcpy(to + done, to, more);
        done += more;
    }
}

static inline uint32_t show(work *w, const uint8_t *text, uint32_t length, uint32_t count) {
    if (count == 0)
        return 0;
    int hidden = hides(w);
    if (!hidden && (w->b < 0 || w->b > (int32_t)w->d->size.b))
        return 27;
    int32_t before = w->i;
    uint32_t code = advance(w, text, length, count, hidden);
    if (code != 0 || hidden)
        return code;
    if (w->s.used + 16 + count > HALVIRUSO_AREA)
        return 29;
    int32_t after = w->i;
    uint8_t *at = w->records + w->s.used;
    w->i = before;
    head(at, 16 + count, 1, w, w->s.font, w->s.colour, w->s.direction ? 0u - w->s.adjustment : w->s.adjustment, w->s.space);
    w->i = after;
    copy_round(at + 16, text, length, count);
    w->s.used += 16 + count;
    return 0;
}

static inline int on_sheet(int32_t start, uint32_t extent, uint32_t size) {
    return start >= 0 && (uint32_t)start + extent <= size;
}

static inline uint32_t draw(work *w, const uint8_t *p, uint32_t n, uint32_t axis) {
    uint32_t length = two(p), width = w->d->rule;
    if (length > 0x7FFF)
        return wrong(w, 24, p);
    if (n == 5 && !(p[2] == 0xFF && p[3] == 0xFF && p[4] == 0xFF)) {
        width = two(p + 2);
        if (width > 0xC0 || p[4] != 0)
            return wrong(w, 24, p + 2);
    }
    if (hides(w))
        return 0;
    if (!on_sheet(w->i, axis ? width : length, w->d->size.i) || !on_sheet(w->b, axis ? length : width, w->d->size.b))
        return 27;
    if (length == 0 || width == 0) /* no ink */
        return 0;
    if (w->s.used + 16 > HALVIRUSO_AREA)
        return 29;
    head(w->records + w->s.used, 16, 2, w, axis, w->s.colour, length, width);
    w->s.used += 16;
    return 0;
}

static inline uint32_t adjust(work *w, const uint8_t *p, uint32_t n) {
    uint32_t direction = n == 3 ? p[2] : 0;
    uint32_t code = set(w, &w->s.adjustment, p, 0x0FFF, w->d->adjustment);
    if (code != 0)
        return code;
    if (direction > 1 && direction != 0xFF)
        return wrong(w, 24, p + 2);
    w->s.direction = direction == 0xFF ? w->d->direction : direction;
    return 0;
}

static inline uint32_t colour(work *w, const uint8_t *p) {
    uint32_t value = two(p);
    if (value != 0x0000 && value != 0xFF00 && value != 0xFF07 && value != 0xFFFF)
        return wrong(w, 24, p);
    w->s.colour = value == 0xFFFF ? w->d->colour : value;
    return 0;
}

static inline uint32_t font(work *w, const uint8_t *p) {
    uint32_t value = p[0];
    if (value > 3 && value != 0xFF)
        return wrong(w, 25, p);
    w->s.font = value == 0xFF ? w->d->font : value;
    return 0;
}

static inline uint32_t suppress(work *w, const uint8_t *p, uint32_t now, uint32_t then) {
    if (p[0] < 1 || p[0] > 0x7F)
        return wrong(w, 24, p);
    if (w->s.suppression != now)
        return 26;
    w->s.suppression = then;
    return 0;
}

static inline uint32_t orient(work *w, const uint8_t *p) {
    uint32_t i_axis = two(p), b_axis = two(p + 2);
    if (i_axis != 0x0000 && i_axis != 0xFFFF)
        return wrong(w, 24, p);
    if (b_axis != 0x2D00 && b_axis != 0xFFFF)
        return wrong(w, 24, p + 2);
    return 0;
}

static inline uint32_t repeat(work *w, const uint8_t *p, uint32_t n) {
    uint32_t count = two(p);
    if (count > 0x7FFF || (count > 0 && n == 2))
        return wrong(w, 24, p);
    return show(w, p + 2, n - 2, count);
}

static inline uint32_t absolute(work *w, int32_t *to, const uint8_t *p) {
    uint32_t value = two(p);
    if (value > 0x7FFF)
        return wrong(w, 24, p);
    *to = (int32_t)value;
    return 0;
}

static inline uint32_t line(work *w) {
    uint32_t code = move(&w->b, w->b + (int32_t)w->s.increment);
    if (code == 0)
        w->i = (int32_t)w->s.margin;
    return code;
}

static inline __attribute__((always_inline)) uint32_t perform(work *w, uint32_t type, const uint8_t *p, uint32_t n) {
    switch (type) {
    case 0xC6: return absolute(w, &w->i, p);
    case 0xD2: return absolute(w, &w->b, p);
    case 0xC8: return move(&w->i, w->i + (int16_t)two(p));
    case 0xD4: return move(&w->b, w->b + (int16_t)two(p));
    case 0xD8: return line(w);
    case 0xC0: return set(w, &w->s.margin, p, 0x7FFF, w->d->margin);
    case 0xD0: return set(w, &w->s.increment, p, 0x7FFF, w->d->increment);
    case 0xC2: return adjust(w, p, n);
    case 0xC4: return set(w, &w->s.space, p, 0x0FFF, HALVIRUSO_ABSENT);
    case 0xF0: return font(w, p);
    case 0x74: return colour(w, p);
    case 0xF6: return orient(w, p);
    case 0xF2: return suppress(w, p, 0, p[0]);
    case 0xF4: return suppress(w, p, p[0], 0);
    case 0xE4: return draw(w, p, n, 0);
    case 0xE6: return draw(w, p, n, 1);
    case 0xDA: return show(w, p, n, n);
    case 0xEE: return repeat(w, p, n);
    default: return 0; /* NOP */
    }
}

/* The element at `rest`, of `left` bytes, placed; its size in *size. */
static inline __attribute__((always_inline)) uint32_t element(work *w, const uint8_t *rest, size_t left, size_t *size) {
    size_t start = 0;
    if (!w->s.chain) {
        if (rest[0] != 0x2B) {
            const uint8_t *end = memchr(rest, 0x2B, left);
            *size = end == NULL ? left : (size_t)(end - rest);
            return show(w, rest, (uint32_t)*size, (uint32_t)*size);
        }
        if (left > 1 && rest[1] != 0xD3)
            return wrong(w, 21, rest + 1);
        start = 2;
    }
    if (left < start + 2)
        return 20;
    uint32_t length = rest[start], type = rest[start + 1];
    row r = ROWS[type >> 1];
    if (length < 2)
        return wrong(w, 22, rest + start);
    if (r.least == 0)
        return wrong(w, 23, rest + start + 1);
    if (length < r.least || length > r.greatest || (r.hole_from <= length && length <= r.hole_to))
        return wrong(w, 22, rest + start);
    if (left < start + length)
        return 20;
    *size = start + length;
    w->s.chain = type & 1;
    return perform(w, type & 0xFE, rest + start + 2, length - 2);
}

static int is_colour(uint32_t c) {
    return c == 0x0000 || c == 0xFF00 || c == 0xFF07;
}

static int is_state(const halviruso_state *s) {
    return s->at.i <= 65535 && s->at.b <= 65535 && s->margin <= 32767 && s->increment <= 32767 && s->adjustment <= 4095 && s->direction <= 1 &&
           s->font <= 3 && is_colour(s->colour) && (s->space <= 4095 || s->space == HALVIRUSO_ABSENT) && s->suppression <= 127 && s->chain <= 1 &&
           s->used <= HALVIRUSO_AREA;
}

static int is_descriptor(const halviruso_descriptor *d) {
    return d->size.i - 1 < 32767 && d->size.b - 1 < 32767 && d->initial.i <= 32767 && d->initial.b <= 32767 && d->margin <= 32767 &&
           d->increment <= 32767 && d->adjustment <= 4095 && d->direction <= 1 && d->font <= 3 && is_colour(d->colour) && d->rule <= 192 &&
           d->hidden <= 127;
}

static halviruso_interpreted refused(uint32_t code, size_t first, halviruso_state state) {
    return (halviruso_interpreted){{code, (uint32_t)first, 0}, state};
}

halviruso_interpreted plain_interpret(const uint8_t *part, size_t part_length, const uint16_t *widths, size_t widths_length, uint8_t *area,
                                      size_t area_length, halviruso_descriptor descriptor, halviruso_state state) {
    if (area_length != HALVIRUSO_AREA || widths_length != HALVIRUSO_WIDTHS)
        return refused(10, 0, state);
    if (!is_state(&state))
        return refused(12, 0, state);
    if (!is_descriptor(&descriptor))
        return refused(15, 0, state);
    if (part_length > HALVIRUSO_PART)
        return refused(19, 0, state);
    uint8_t records[HALVIRUSO_AREA];
    work w = {&descriptor, widths, records, state, (int32_t)state.at.i - 32768, (int32_t)state.at.b - 32768, NULL};
    uint32_t elements = 0;
    for (size_t at = 0, size = 0; at < part_length; at += size, elements++) {
        uint32_t code = element(&w, part + at, part_length - at, &size);
        if (code != 0)
            return refused(code, w.fault == NULL ? at : (size_t)(w.fault - part), state);
    }
    memcpy(area + state.used, records + state.used, w.s.used - state.used);
    w.s.at.i = (uint32_t)(w.i + 32768);
    w.s.at.b = (uint32_t)(w.b + 32768);
    return (halviruso_interpreted){{0, elements, w.s.used - state.used}, w.s};
}

static int is_damaged(const halviruso_entry *entry) {
    return entry->mark != 0 && !(entry->mark == 1 && is_descriptor(&entry->descriptor) && is_state(&entry->state) && entry->next - 1 < 65536);
}

/* Whether steps from record to record, by their lengths, meet this many bytes. */
static inline int ends_after(const uint8_t *area, uint32_t used, uint32_t bytes) {
    uint32_t at = 0;
    while (at < bytes && used - at >= 16) {
        uint16_t length;
        memcpy(&length, area + at, sizeof length);
        if (length < 16 || length > used - at)
            break;
        at += length;
    }
    return at == bytes;
}

static uint32_t taking(halviruso_entry *entry, uint8_t *area, uint64_t total) {
    uint32_t used = entry->state.used;
    if (total <= entry->taken)
        return 1;
    if (total > UINT32_MAX || total - entry->taken > used)
        return 30;
    uint32_t bytes = (uint32_t)total - entry->taken;
    if (!ends_after(area, used, bytes))
        return 30;
    memmove(area, area + bytes, used - bytes);
    entry->state.used = used - bytes;
    entry->taken = (uint32_t)total;
    return 0;
}

halviruso_answer plain_take(halviruso_entry *table, size_t table_length, uint8_t *records, size_t records_length, uint32_t slot, uint32_t key,
                            uint64_t total) {
    if (table_length != HALVIRUSO_SLOTS || records_length != HALVIRUSO_RECORDS)
        return (halviruso_answer){10, 0, 0};
    if (slot >= HALVIRUSO_SLOTS)
        return (halviruso_answer){11, 0, 0};
    halviruso_entry *entry = table + slot;
    if (is_damaged(entry))
        return (halviruso_answer){12, 0, 0};
    if (entry->mark == 0 || entry->key != key)
        return (halviruso_answer){16, 0, 0};
    return (halviruso_answer){taking(entry, records + (size_t)HALVIRUSO_AREA * slot, total), 0, 0};
}
