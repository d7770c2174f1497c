/* Memory to lend, with a page that faults right at one end of it and marked bytes at the other. */
#ifndef LEND_H
#define LEND_H

#include <stddef.h>

enum side { RIGHT, LEFT };

typedef struct lend {
    unsigned char *span; /* between two pages that fault */
    unsigned char *own;  /* the same memory, where the harness writes */
    size_t most;
    unsigned char *at; /* what is lent */
    size_t size;       /* its bytes */
    int overdrawn;     /* 1: claims a byte that it doesn't have */
} lend;

/* Room for at least so many bytes; if read only, a write to what is lent faults. */
lend lend_new(size_t most, int read_only);

/* Lends `size` bytes against the page of this side; all around them is marked. */
void lend_place(lend *l, size_t size, enum side side);

/* Puts bytes where they are lent, as many as there are. */
void lend_put(lend *l, const void *bytes);

/* Takes the lent bytes, as many as there are; the others stay. */
void lend_get(const lend *l, void *bytes);

/* Whether the lent bytes are these. */
int lend_holds(const lend *l, const void *bytes);

/* Whether every byte that wasn't lent is as it was marked. */
int lend_kept(const lend *l);

#endif
