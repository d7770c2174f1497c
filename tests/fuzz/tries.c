#include "tries.h"

#include <signal.h>
#include <stdio.h>
#include <stdlib.h>
#include <string.h>
#include <unistd.h>

#include "chance.h"
#include "stored.h"
#include "taking.h"
#include "things.h"

enum { ENTRY = sizeof(halviruso_entry), MOST_ENTRIES = 24, MOST_RECORDS = 70000, MOST_AREA = 4400, MOST_WIDTHS = 1200 };
enum { OPEN, SUBMIT, TAKE, CLOSE, COUNT, INTERPRET, CHECK, CHECK_AT, FRESH, ENTRIES };
enum { CODES = 33 };

static const char *const NAMES[] = {"open", "submit", "take", "close", "count", "interpret", "check", "check_at", "fresh"};

static lend table, records, area, stored, widths, part;
static enum side guarded;
static int around_changes, within_changes, answer_changes, place_changes, place_leaves, record_empties, increment_passes, busy_counts, close_stays,
    stored_first, take_zeroes, take_forgets, take_moves_fewer, total_cut, boundary_passes; /* wrong on purpose */

/* What was lent, as it must be after the call. */
static halviruso_entry old_table[MOST_ENTRIES];
static unsigned char old_records[MOST_RECORDS], old_area[MOST_AREA], old_part[LONGEST];
static uint16_t old_widths[MOST_WIDTHS];
static uint32_t old_stored;
static taking asked; /* the take at hand */

static size_t entries, width_count, part_bytes;

unsigned long calls_made;
static int entry;
static volatile sig_atomic_t inside; /* 1 while the library is at work */
static unsigned long met[ENTRIES][CODES];

static void expect(int holds, const char *what) {
    if (!holds) {
        printf("call %lu, %s: %s\n", calls_made, NAMES[entry], what);
        exit(1);
    }
}

static void on_fault(int number) {
    char line[120];
    const char *where = inside ? "the library" : "the harness";
    int size = snprintf(line, sizeof line, "call %lu, %s: fault in %s, signal %d\n", calls_made, NAMES[entry], where, number);
    _exit(write(1, line, (size_t)size) == size && inside ? 3 : 4);
}

void tries_start(enum side side, const char *wrong) {
    static const char *const called[] = {"table", "records", "area", "stored", "widths", "part"};
    static const size_t most[] = {sizeof old_table, sizeof old_records, sizeof old_area, sizeof old_stored, sizeof old_widths, sizeof old_part};
    lend *const slices[] = {&table, &records, &area, &stored, &widths, &part};
    guarded = side;
    for (size_t which = 0; which < 6; which++) {
        *slices[which] = lend_new(most[which], which > 3);
        slices[which]->overdrawn = strcmp(wrong, called[which]) == 0;
        lend_place(slices[which], 0, side);
    }
    around_changes = strcmp(wrong, "around") == 0;
    within_changes = strcmp(wrong, "within") == 0;
    answer_changes = strcmp(wrong, "answer") == 0;
    place_changes = strcmp(wrong, "place") == 0;
    place_leaves = strcmp(wrong, "beyond") == 0;
    record_empties = strcmp(wrong, "empty") == 0;
    increment_passes = strcmp(wrong, "increment") == 0;
    busy_counts = strcmp(wrong, "busy") == 0;
    close_stays = strcmp(wrong, "close") == 0;
    stored_first = strcmp(wrong, "early") == 0;
    take_zeroes = strcmp(wrong, "zeroes") == 0;
    take_forgets = strcmp(wrong, "forgets") == 0;
    take_moves_fewer = strcmp(wrong, "fewer") == 0;
    total_cut = strcmp(wrong, "cut") == 0;
    boundary_passes = strcmp(wrong, "boundary") == 0;
    signal(SIGSEGV, on_fault);
    signal(SIGBUS, on_fault);
}

/* An empty slice may be anywhere, and nowhere. */
static void *at(const lend *l) {
    return l->size == 0 && calls_made % 2 == 0 ? NULL : l->at;
}

static void lend_table(void) {
    entries = length_near(HALVIRUSO_SLOTS);
    for (size_t slot = 0; slot < entries; slot++)
        old_table[slot] = an_entry();
    lend_place(&table, entries * ENTRY, guarded);
    lend_put(&table, old_table);
}

/* How many entries of the table are open, as a count says it. */
static uint32_t walked(void) {
    uint32_t open = 0;
    for (size_t slot = 0; slot < entries && entries == HALVIRUSO_SLOTS; slot++)
        open += old_table[slot].mark != 0;
    return open;
}

static void lend_stored(uint32_t number) {
    old_stored = number;
    lend_place(&stored, sizeof old_stored, guarded);
    lend_put(&stored, &old_stored);
}

/* Record bytes; most calls get those that the one before has left. */
static void lend_records(lend *l, unsigned char *old, size_t right) {
    if (l->size == right && !once_in(12))
        return;
    lend_place(l, length_near(right), guarded);
    memset(old, (int)below(256), l->size);
    lend_put(l, old);
}

static void lend_widths(void) {
    static const uint32_t WIDEST[] = {1, 1, 30, 30, 300, 65536};
    uint32_t widest = PICK(WIDEST);
    if (width_count == HALVIRUSO_WIDTHS && !once_in(4))
        return;
    width_count = length_near(HALVIRUSO_WIDTHS);
    for (size_t place = 0; place < width_count; place++)
        old_widths[place] = (uint16_t)below(widest);
    lend_place(&widths, 2 * width_count, guarded);
    lend_put(&widths, old_widths);
}

static void lend_part(int chained) {
    part_bytes = a_part(old_part, chained);
    lend_place(&part, part_bytes, guarded);
    lend_put(&part, old_part);
}

#define BITS(from, to) (((2ull << ((to) - (from))) - 1) << (from))

/* Whether LENGTH and a TYPE that there is stand right before this byte of the part. */
static int introduced(size_t first) {
    return first >= 2 && old_part[first - 2] >= 2 && is_type(old_part[first - 1]);
}

/* Whether a refusal with this code can point at this byte of the part. */
static int pointed_at(uint32_t code, size_t first) {
    unsigned char byte = old_part[first];
    switch (code) {
    case HALVIRUSO_PREFIX: return first >= 1 && old_part[first - 1] == 0x2B && byte != 0xD3;
    case HALVIRUSO_LENGTH: return first + 1 < part_bytes && (byte < 2 || is_type(old_part[first + 1]));
    case HALVIRUSO_TYPE: return first >= 1 && old_part[first - 1] >= 2 && !is_type(byte);
    case HALVIRUSO_VALUE: return introduced(first) || (first >= 4 && introduced(first - 2)); /* before a second parameter stand two bytes */
    case HALVIRUSO_FONT: return introduced(first) && (old_part[first - 1] & 0xFE) == 0xF0 && byte > 3 && byte < 0xFF;
    default: return 1;
    }
}

/* Whether a refusal with this code points at a byte at all. */
static int points(uint32_t code) {
    return code >= HALVIRUSO_CUT && code <= HALVIRUSO_NO_ROOM;
}

/* The answer as it would be if what is wrong on purpose were so. */
static halviruso_answer spoiled(halviruso_answer a) {
    a.code += (uint32_t)answer_changes;
    if (place_changes && points(a.code) && a.first + 1 < part_bytes)
        a.first++;
    if (place_leaves && points(a.code))
        a.first = (uint32_t)part_bytes;
    if (stored_first && ((entry == OPEN && !open_takes(old_stored)) || (entry == CLOSE && !close_takes(old_stored))))
        a.code = HALVIRUSO_STORED_NUMBER;
    if (boundary_passes && a.code == HALVIRUSO_BAD_TOTAL && total_fits(&asked))
        a.code = HALVIRUSO_DONE;
    return a;
}

/* The code is one of the entry's, and the two numbers are those that go with it; gives the code. */
static uint32_t expect_answer(halviruso_answer given, uint64_t codes) {
    halviruso_answer a = spoiled(given);
    expect(a.code < CODES && (codes >> a.code & 1), "a code that isn't the entry's");
    expect(a.code == 0 || a.second == 0, "a second number with a refusal");
    expect(a.code == 0 || points(a.code) || a.first == 0, "a first number without an element");
    expect(!points(a.code) || a.first < part_bytes, "a refusal that points beyond the part");
    expect(!points(a.code) || pointed_at(a.code, a.first), "a refusal that points at another byte");
    met[entry][a.code]++;
    return a.code;
}

/* This entry of the table may be another now. */
static void allow_entry(size_t slot) {
    memcpy(&old_table[slot], table.at + slot * ENTRY, ENTRY);
}

static uint32_t two(const unsigned char *bytes) {
    return bytes[0] | (uint32_t)bytes[1] << 8;
}

/* How long the record is that these bytes begin with; 0 where it isn't whole, or has nothing to draw: no character, or no ink. */
static size_t drawn(const unsigned char *bytes, size_t left) {
    size_t length = left < 16 ? 0 : two(bytes);
    int is_text = length > 16 && two(bytes + 2) == 1;
    int is_rule = length == 16 && two(bytes + 2) == 2 && two(bytes + 12) > 0 && two(bytes + 14) > 0;
    return length <= left && (is_text || is_rule) ? length : 0;
}

/* These record bytes may be others now: records, each with something to draw. */
static void allow_records(const lend *l, unsigned char *old, size_t from, size_t added) {
    memcpy(old + from, l->at + from, added);
    if (record_empties && added > 0)
        memcpy(old + from, (unsigned char[]){16, 0, 2, 0, 0, 0, 0, 0, 0, 0, 0, 0, 0, 0, 14, 0}, 16);
    for (size_t at = 0, size; at < added; at += size) {
        size = drawn(old + from + at, added - at);
        expect(size > 0, "a record that isn't whole, or is empty");
    }
}

/* Nothing else of what was lent changed, nor the bytes around it. */
static void expect_kept(const lend *l, const void *old) {
    if (around_changes)
        l->own[guarded == RIGHT ? 0 : l->most - 1] ^= 1;
    if (within_changes && l->size > 0)
        l->own[l->at - l->span] ^= 1;
    expect(lend_kept(l), "a byte that wasn't lent changed");
    expect(lend_holds(l, old), "something lent changed that shouldn't");
}

/* Often the last one, whose records end with the buffer. */
static uint32_t a_slot(void) {
    return once_in(12) ? any() : once_in(4) ? HALVIRUSO_SLOTS - 1 : below(17);
}

static uint32_t key_of(uint32_t slot) {
    return slot < entries && !once_in(6) ? old_table[slot].key : below(6);
}

/* The number as it would be if what is wrong on purpose were so. */
static void spoil_stored(uint32_t code) {
    uint32_t one_more = old_stored + 1;
    if (busy_counts && code == HALVIRUSO_BUSY)
        lend_put(&stored, &one_more);
    if (close_stays && entry == CLOSE)
        lend_put(&stored, &old_stored);
}

/* The number is what an open or a close that was answered so leaves; so many entries were open before. */
static void expect_stored(uint32_t code, uint32_t walked_before, const char *(*fault)(const counting *)) {
    counting c = {.code = code, .before = old_stored, .after = old_stored, .walked_before = walked_before, .walked_after = walked()};
    spoil_stored(code);
    lend_get(&stored, &c.after);
    const char *what = fault(&c);
    expect(what == NULL, what);
    old_stored = c.after;
    expect_kept(&stored, &old_stored);
}

static uint32_t opened(uint32_t slot, uint32_t key, halviruso_descriptor d) {
    uint32_t walked_before = walked();
    inside = 1;
    halviruso_answer a = halviruso_open(at(&table), entries, (uint32_t *)stored.at, slot, key, d);
    inside = 0;
    uint32_t code = expect_answer(a, BITS(0, 1) | BITS(10, 15) | BITS(32, 32));
    if (code == 0) {
        allow_entry(slot);
        expect(old_table[slot].key == key && old_table[slot].mark == 1 && old_table[slot].next == 1, "what was opened isn't open");
    }
    expect_kept(&table, old_table);
    expect_stored(code, walked_before, open_fault);
    return code;
}

static void try_open(void) {
    lend_table();
    lend_stored(a_number(walked()));
    uint32_t slot = a_slot(), key = key_of(slot) + below(3);
    halviruso_descriptor d = a_descriptor();
    if (opened(slot, key, d) != HALVIRUSO_STORED_NUMBER)
        return;
    /* 32 is the last of all tests: with the count in its place the same request is done */
    lend_stored(walked());
    expect(opened(slot, key, d) == 0, "32 before another answer");
}

static void try_submit(void) {
    lend_table();
    uint32_t slot = a_slot(), key = key_of(slot);
    halviruso_entry e = slot < entries ? old_table[slot] : (halviruso_entry){0};
    uint32_t number = once_in(8) ? any() : e.next + (once_in(8) ? below(3) - 1 : 0);
    lend_records(&records, old_records, HALVIRUSO_RECORDS);
    lend_widths();
    lend_part(e.state.chain == 1);
    inside = 1;
    halviruso_answer a =
        halviruso_submit(at(&table), entries, at(&records), records.size, at(&widths), width_count, slot, key, number, at(&part), part_bytes);
    inside = 0;
    expect_answer(a, BITS(0, 1) | BITS(10, 12) | BITS(16, 29));
    if (a.code == 0) {
        expect(e.state.used + a.second <= HALVIRUSO_AREA, "records beyond the slot's area");
        allow_entry(slot);
        allow_records(&records, old_records, (size_t)slot * HALVIRUSO_AREA + e.state.used, a.second);
        expect(old_table[slot].next == e.next + 1 && old_table[slot].state.used == e.state.used + a.second, "the entry doesn't say what was added");
    }
    expect_kept(&table, old_table);
    expect_kept(&records, old_records);
}

/* Where the harness writes to a byte that is lent. */
static unsigned char *own(const lend *l, size_t from) {
    return l->own + (l->at - l->span) + from;
}

/* The slot's memory as it would be if what is wrong on purpose were so. */
static void spoil_take(uint32_t slot) {
    uint32_t bytes = (uint32_t)asked.total - asked.before.taken, left = asked.before.state.used - bytes;
    unsigned char *area_now = own(&records, (size_t)slot * HALVIRUSO_AREA);
    if (take_zeroes)
        memset(area_now + left, 0, bytes);
    if (take_moves_fewer && left > 0)
        area_now[left - 1] = asked.area[left - 1];
    if (take_forgets)
        ((halviruso_entry *)(void *)own(&table, slot * ENTRY))->taken = asked.before.taken;
}

/* Of what was lent, the slot's entry says what was taken, and its unread bytes have moved; the bytes past them are as they were. */
static void allow_take(uint32_t slot) {
    unsigned char *area_then = old_records + (size_t)slot * HALVIRUSO_AREA;
    uint32_t bytes = (uint32_t)asked.total - asked.before.taken;
    memmove(area_then, area_then + bytes, asked.before.state.used - bytes);
    old_table[slot] = asked.after;
}

static uint32_t taken(uint32_t slot, uint32_t key, uint64_t total) {
    int is_slot = slot < entries && slot < HALVIRUSO_SLOTS;
    asked = (taking){.total = total, .before = is_slot ? old_table[slot] : (halviruso_entry){0}};
    asked.area = old_records + (is_slot ? (size_t)slot * HALVIRUSO_AREA : 0);
    inside = 1;
    halviruso_answer a = halviruso_take(at(&table), entries, at(&records), records.size, slot, key, total_cut ? (uint32_t)total : total);
    inside = 0;
    asked.code = expect_answer(a, BITS(0, 1) | BITS(10, 12) | BITS(16, 16) | BITS(30, 30));
    int heard = asked.code <= 1 || asked.code == HALVIRUSO_BAD_TOTAL;
    expect(!heard || (is_slot && asked.before.mark == 1 && asked.before.key == key), "a take from a job that isn't there");
    if (a.code == HALVIRUSO_DONE) {
        spoil_take(slot);
        memcpy(&asked.after, table.at + slot * ENTRY, ENTRY);
    }
    const char *what = heard ? take_fault(&asked) : NULL;
    expect(what == NULL, what);
    if (asked.code == HALVIRUSO_DONE)
        allow_take(slot);
    expect_kept(&table, old_table);
    expect_kept(&records, old_records);
    return asked.code;
}

static void try_take(void) {
    lend_table();
    lend_records(&records, old_records, HALVIRUSO_RECORDS);
    uint32_t slot = a_slot(), key = key_of(slot);
    size_t from = (size_t)slot * HALVIRUSO_AREA;
    int is_slot = slot < entries && from + HALVIRUSO_AREA <= records.size;
    halviruso_entry e = is_slot ? old_table[slot] : (halviruso_entry){0};
    if (is_slot) {
        an_area(old_records + from, e.state.used);
        lend_put(&records, old_records);
    }
    uint64_t total = a_total(old_records + (is_slot ? from : 0), &e);
    if (taken(slot, key, total) == HALVIRUSO_DONE)
        expect(taken(slot, key, total) == HALVIRUSO_ALREADY_TAKEN, "a take sent again that isn't answered 1");
}

static uint32_t closed(uint32_t slot, uint32_t key) {
    uint32_t walked_before = walked();
    inside = 1;
    halviruso_answer a = halviruso_close(at(&table), entries, (uint32_t *)stored.at, slot, key);
    inside = 0;
    uint32_t code = expect_answer(a, BITS(0, 1) | BITS(10, 12) | BITS(16, 16) | BITS(32, 32));
    if (code == 0)
        old_table[slot].mark = 0;
    expect_kept(&table, old_table);
    expect_stored(code, walked_before, close_fault);
    return code;
}

static void try_close(void) {
    lend_table();
    lend_stored(a_number(walked()));
    uint32_t slot = a_slot(), key = key_of(slot);
    if (closed(slot, key) != HALVIRUSO_STORED_NUMBER)
        return;
    lend_stored(walked());
    expect(closed(slot, key) == 0, "32 before another answer");
}

static void try_count(void) {
    lend_table();
    inside = 1;
    uint32_t count = halviruso_count(at(&table), entries);
    inside = 0;
    expect(count == walked(), "a wrong count");
    met[COUNT][0]++;
    expect_kept(&table, old_table);
}

static void try_interpret(void) {
    halviruso_descriptor d = a_descriptor();
    halviruso_state s = a_state(&d);
    lend_records(&area, old_area, HALVIRUSO_AREA);
    lend_widths();
    lend_part(s.chain == 1);
    inside = 1;
    halviruso_interpreted r = halviruso_interpret(at(&part), part_bytes, at(&widths), width_count, at(&area), area.size, d, s);
    inside = 0;
    expect_answer(r.answer, BITS(0, 0) | BITS(10, 10) | BITS(12, 12) | BITS(15, 15) | BITS(19, 29));
    if (r.answer.code == 0) {
        expect(r.state.used == s.used + r.answer.second && r.state.used <= HALVIRUSO_AREA, "the state doesn't say what was added");
        allow_records(&area, old_area, s.used, r.answer.second);
    } else {
        expect(memcmp(&r.state, &s, sizeof s) == 0, "a refusal with another state");
    }
    expect_kept(&area, old_area);
}

static void try_check(void) {
    lend_part(0);
    inside = 1;
    uint32_t code = halviruso_check(at(&part), part_bytes);
    inside = 0;
    expect(code < CODES && ((BITS(0, 0) | BITS(19, 29)) >> code & 1), "a code that isn't the entry's");
    expect(code < 20 || part_bytes > 0, "an element at fault in an empty part");
    met[CHECK][code]++;
}

/* In range and not, often at its ends. */
static uint32_t any_increment(void) {
    static const uint32_t ENDS[] = {0, 1, 180, 240, 15840, 32766, 32767, 32768, 65535, 65716, 1u << 31, UINT32_MAX};
    return once_in(4) ? any() : once_in(4) ? between(0, 32767) : PICK(ENDS);
}

static void try_check_at(void) {
    uint32_t increment = any_increment();
    lend_part(0);
    inside = 1;
    uint32_t code = halviruso_check_at(at(&part), part_bytes, increment);
    uint32_t eight = halviruso_check_at(at(&part), part_bytes, 180), plain = halviruso_check(at(&part), part_bytes);
    inside = 0;
    if (increment_passes && increment > 32767)
        code = eight;
    expect(code < CODES && ((increment > 32767 ? BITS(15, 15) : BITS(0, 0) | BITS(19, 29)) >> code & 1), "a code that isn't the increment's");
    expect(code < 20 || part_bytes > 0, "an element at fault in an empty part");
    expect(eight == plain, "the check isn't the one at 180");
    met[CHECK_AT][code]++;
}

static void try_fresh(void) {
    inside = 1;
    halviruso_table t = halviruso_fresh();
    inside = 0;
    for (size_t slot = 0; slot < HALVIRUSO_SLOTS; slot++)
        expect(t.entries[slot].key == 0 && t.entries[slot].mark == 0, "a fresh entry that isn't");
    met[FRESH][0]++;
}

void try_one(void) {
    static void (*const TRIES[])(void) = {try_open, try_submit, try_take, try_close, try_count, try_interpret, try_check, try_check_at, try_fresh};
    static const unsigned char TURNS[] = {OPEN,  OPEN,  SUBMIT,    SUBMIT,    SUBMIT,    SUBMIT,    TAKE,  TAKE,  CLOSE,
                                          CLOSE, COUNT, INTERPRET, INTERPRET, INTERPRET, INTERPRET, CHECK, CHECK, CHECK_AT};
    entry = once_in(50) ? FRESH : PICK(TURNS);
    TRIES[entry]();
    calls_made++;
}

void tries_report(void) {
    for (size_t which = 0; which < ENTRIES; which++) {
        printf("  %-9s", NAMES[which]);
        for (size_t code = 0; code < CODES; code++)
            if (met[which][code] > 0)
                printf(" %zu:%lu", code, met[which][code]);
        printf("\n");
    }
}
