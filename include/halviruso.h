/*
 * Halviruso for C and C++ hosts: a text hub whose every answer is proved.
 *
 * The host lends the memory, the library keeps none of its own and calls nothing back. Every function below takes any numbers, any bytes and any
 * lengths, always ends, and answers by the table of codes; every code but 0 leaves all that was lent as it was. A slice is a pointer and a length,
 * counted in elements. What a pointer points to must be aligned for its type and readable (and writable, where it is not const) for that length; with
 * a length of 0 it may be null. Two slices lent to one call must not overlap. `open_jobs` points to one number: never null, and no part of the table.
 * The library takes no lock: two calls that are lent the same table must not run at the same time. docs/HOSTS.md says what to do about each answer.
 *
 * Link with build/libhalviruso.a, which `make lib` leaves. x86-64 Linux.
 */
#ifndef HALVIRUSO_H
#define HALVIRUSO_H

#include <stddef.h>
#include <stdint.h>

#ifdef __cplusplus
extern "C" {
#endif

/* What is lent: the only lengths that are not answered with 10. */
#define HALVIRUSO_SLOTS 16u      /* entries of the table */
#define HALVIRUSO_AREA 4096u     /* bytes of one job's record area */
#define HALVIRUSO_RECORDS 65536u /* bytes of the record buffer; slot s owns the 4,096 from 4,096 * s */
#define HALVIRUSO_WIDTHS 1024u   /* numbers of the width table; font f's code point c stands at 256 * f + c */
#define HALVIRUSO_PART 8192u     /* bytes of the longest part */

/* A position I or B of a state is kept as its number plus this one, so that it is never negative. A descriptor's positions are plain. */
#define HALVIRUSO_ORIGIN 32768u

/* The variable space of a state that has none. */
#define HALVIRUSO_ABSENT 65535u

/* The answers. */
enum {
    HALVIRUSO_DONE = 0,              /* for a submit: elements, record bytes added */
    HALVIRUSO_ALREADY_TAKEN = 1,     /* accepted before; a retry is answered so and changes nothing. For a take: as many bytes were taken already */
    HALVIRUSO_LENT_LENGTH = 10,      /* a lent length is wrong */
    HALVIRUSO_NO_SLOT = 11,          /* the slot is above 15 */
    HALVIRUSO_DAMAGED = 12,          /* the entry, or the state given, is out of range */
    HALVIRUSO_BUSY = 13,             /* the slot is open under another key */
    HALVIRUSO_OLD_KEY = 14,          /* the key is not above the slot's last */
    HALVIRUSO_BAD_DESCRIPTOR = 15,   /* the descriptor is out of range */
    HALVIRUSO_NO_JOB = 16,           /* no job is open there under this key */
    HALVIRUSO_BAD_NUMBER = 17,       /* part numbers are 1 to 65,535 */
    HALVIRUSO_GAP = 18,              /* a part before this one is missing */
    HALVIRUSO_LONG_PART = 19,        /* above 8,192 bytes */
    /* 20 to 29 point at a byte: `first` is its offset, always inside the part. It is the byte said below, else the first one of the element at fault:
     * X'2B', in a chain LENGTH, of a free run the first character. */
    HALVIRUSO_CUT = 20,              /* an element is cut by the part's end */
    HALVIRUSO_PREFIX = 21,           /* X'2B' is not followed by X'D3': at the byte after X'2B' */
    HALVIRUSO_LENGTH = 22,           /* LENGTH under 2 or not the type's: at LENGTH */
    HALVIRUSO_TYPE = 23,             /* the type is unknown: at TYPE */
    HALVIRUSO_VALUE = 24,            /* a value is out of range: at the first byte of the first parameter at fault; RPS without text: the count */
    HALVIRUSO_FONT = 25,             /* font 04 to FE: at the font */
    HALVIRUSO_SUPPRESSION = 26,      /* BSU and ESU do not pair */
    HALVIRUSO_OUTSIDE = 27,          /* text or rule off the sheet */
    HALVIRUSO_POSITION = 28,         /* I or B past -32,768..32,767 */
    HALVIRUSO_NO_ROOM = 29,          /* the record area is full: take what was printed, and send the part again */
    HALVIRUSO_BAD_TOTAL = 30,        /* a take beyond what was written, or that ends inside a record */
    HALVIRUSO_STORED_NUMBER = 32     /* the number of open jobs beside the table cannot be the table's: set it to halviruso_count's, and send again */
};

/* Every number is 32 bits and there is no padding: whatever bytes the lent memory holds, they are a value that the promises speak of. */

typedef struct halviruso_point {
    uint32_t i; /* along the lines */
    uint32_t b; /* down the page */
} halviruso_point;

/* What a job is opened with. Distances are 1/1440 inch. */
typedef struct halviruso_descriptor {
    halviruso_point size;    /* each 1..32,767 */
    halviruso_point initial; /* each 0..32,767 */
    uint32_t margin;         /* inline margin, 0..32,767 */
    uint32_t increment;      /* baseline increment, 0..32,767 */
    uint32_t adjustment;     /* intercharacter adjustment, 0..4,095 */
    uint32_t direction;      /* of the adjustment: 0 added, 1 taken off */
    uint32_t font;           /* 0..3 */
    uint32_t colour;         /* 0x0000, 0xFF00 or 0xFF07 */
    uint32_t rule;           /* rule width, 0..192; with 0 a rule that gives none of its own has no ink, and no record */
    uint32_t hidden;         /* suppression that hides, 1..127; 0: none */
} halviruso_descriptor;

/* Where a job stands. Hosts read it; they need not make one but for halviruso_interpret. */
typedef struct halviruso_state {
    halviruso_point at;   /* each plus HALVIRUSO_ORIGIN */
    uint32_t margin;
    uint32_t increment;
    uint32_t adjustment;
    uint32_t direction;
    uint32_t font;
    uint32_t colour;
    uint32_t space;       /* variable space, or HALVIRUSO_ABSENT */
    uint32_t suppression; /* the open one; 0: none */
    uint32_t chain;       /* 1 while a chain is open */
    uint32_t used;        /* bytes of the record area in use: written and not taken */
} halviruso_state;

/* One slot of the table: 112 bytes. */
typedef struct halviruso_entry {
    uint32_t key;   /* the last key */
    uint32_t mark;  /* 0: closed, 1: open */
    halviruso_descriptor descriptor;
    halviruso_state state;
    uint32_t next;  /* the next part's number */
    uint32_t taken; /* record bytes taken since the job was opened */
} halviruso_entry;

typedef struct halviruso_table {
    halviruso_entry entries[HALVIRUSO_SLOTS];
} halviruso_table;

typedef struct halviruso_answer {
    uint32_t code;
    uint32_t first;  /* submit or interpret done: elements; 20 to 29: the offset of the byte at fault, so that part[first] can be looked at; else 0 */
    uint32_t second; /* submit or interpret done: record bytes added; else 0 */
} halviruso_answer;

typedef struct halviruso_interpreted {
    halviruso_answer answer;
    halviruso_state state; /* where the part ends; with a refusal the state that was given */
} halviruso_interpreted;

/* A fresh table: every slot closed, every last key 0. Where a table begins its life; the number of open jobs beside it is 0. */
halviruso_table halviruso_fresh(void);

/* Opens a job in a slot under a key, which must be above every key the slot has had. 0, 1, 10 to 15; last of all 32, for an *open_jobs above 15. That is
 * the stored number of open jobs, which the host keeps beside the table: an open that is done adds one to it. Record bytes stay. */
halviruso_answer halviruso_open(halviruso_entry *table, size_t table_length, uint32_t *open_jobs, uint32_t slot, uint32_t key,
                                halviruso_descriptor descriptor);

/* Submits part `number` of the job: the first is 1, and each is sent again, with the same number, until it is answered. 0, 1, 10 to 12, 16 to 29. */
halviruso_answer halviruso_submit(halviruso_entry *table, size_t table_length, uint8_t *records, size_t records_length, const uint16_t *widths,
                                  size_t widths_length, uint32_t slot, uint32_t key, uint32_t number, const uint8_t *part, size_t part_length);

/* Takes records out of the job's area, from its start: the printer has read `total` record bytes since the job was opened, this time's and all before.
 * The unread ones move down to the start, and later parts use the room; bytes past the new end keep what they held. 0, 1, 10, 11, 12, 16, 30. */
halviruso_answer halviruso_take(halviruso_entry *table, size_t table_length, uint8_t *records, size_t records_length, uint32_t slot, uint32_t key,
                                uint64_t total);

/* Closes the job of this key. 0, 1, 10, 11, 12, 16; last of all 32, for an *open_jobs of 0 or above 16. A close that is done takes one off it. The job's
 * records stay until the slot's next job writes over them. */
halviruso_answer halviruso_close(halviruso_entry *table, size_t table_length, uint32_t *open_jobs, uint32_t slot, uint32_t key);

/* How many jobs are open, damaged entries included; 0 for a table of another length. It walks the table. The stored number that is right once, 0 beside a
 * fresh table or this count beside any other, is this count after every request. */
uint32_t halviruso_count(const halviruso_entry *table, size_t table_length);

/* Interprets one part from a state, for a host that keeps its own table: an area of 4,096 bytes, 1,024 widths. 0, 10, 12, 15, 19 to 29. With 0 the
 * records are added to the area from `state.used` on, and the answer has elements and record bytes added. */
halviruso_interpreted halviruso_interpret(const uint8_t *part, size_t part_length, const uint16_t *widths, size_t widths_length, uint8_t *area,
                                          size_t area_length, halviruso_descriptor descriptor, halviruso_state state);

/* Checks one part alone: a sheet of 12,240 by 15,840, every character 144 wide, eight lines to the inch. The code and no more: 0, or 19 to 29. */
uint32_t halviruso_check(const uint8_t *part, size_t part_length);

/* The same with a baseline increment of the caller's, 0..32,767: 180 is the one above, 240 six lines to the inch. 0, 19 to 29; 15, whatever the part,
 * for an increment above 32,767. */
uint32_t halviruso_check_at(const uint8_t *part, size_t part_length, uint32_t increment);

#ifdef __cplusplus
}
#endif

#endif
