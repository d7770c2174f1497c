#include "lend.h"

#include <stdio.h>
#include <stdlib.h>
#include <string.h>
#include <sys/mman.h>
#include <unistd.h>

enum { PAGE = 4096, MARK = 0xA5 };

static void *mapped(void *at, size_t size, int protection, int flags, int file) {
    void *got = mmap(at, size, protection, flags, file, 0);
    if (got == MAP_FAILED) {
        perror("memory to lend");
        exit(2);
    }
    return got;
}

lend lend_new(size_t most, int read_only) {
    lend l = {0};
    l.most = (most + 2 * PAGE - 1) / PAGE * PAGE;
    int file = memfd_create("lent", 0);
    if (file < 0 || ftruncate(file, (off_t)l.most) != 0) {
        perror("memory to lend");
        exit(2);
    }
    unsigned char *guard = mapped(NULL, l.most + 2 * PAGE, PROT_NONE, MAP_PRIVATE | MAP_ANONYMOUS, -1);
    l.span = mapped(guard + PAGE, l.most, read_only ? PROT_READ : PROT_READ | PROT_WRITE, MAP_SHARED | MAP_FIXED, file);
    l.own = mapped(NULL, l.most, PROT_READ | PROT_WRITE, MAP_SHARED, file);
    close(file);
    return l;
}

void lend_place(lend *l, size_t size, enum side side) {
    memset(l->own, MARK, l->most);
    l->size = size;
    l->at = side == RIGHT ? l->span + l->most - size : l->span;
    if (l->overdrawn && size > 0)
        l->at += side == RIGHT ? 1 : -1;
}

/* The lent bytes that are really there: from, to. */
static void real(const lend *l, unsigned char **from, unsigned char **to) {
    *from = l->at < l->span ? l->span : l->at;
    *to = l->at + l->size > l->span + l->most ? l->span + l->most : l->at + l->size;
}

void lend_put(lend *l, const void *bytes) {
    unsigned char *from, *to;
    real(l, &from, &to);
    if (from < to)
        memcpy(l->own + (from - l->span), (const unsigned char *)bytes + (from - l->at), (size_t)(to - from));
}

void lend_get(const lend *l, void *bytes) {
    unsigned char *from, *to;
    real(l, &from, &to);
    if (from < to)
        memcpy((unsigned char *)bytes + (from - l->at), from, (size_t)(to - from));
}

int lend_holds(const lend *l, const void *bytes) {
    unsigned char *from, *to;
    real(l, &from, &to);
    return from >= to || memcmp(from, (const unsigned char *)bytes + (from - l->at), (size_t)(to - from)) == 0;
}

static int marked(const unsigned char *from, const unsigned char *to) {
    /* all bytes are the mark if the first is and each is the one before it */
    return from >= to || (*from == MARK && memcmp(from, from + 1, (size_t)(to - from) - 1) == 0);
}

int lend_kept(const lend *l) {
    unsigned char *from, *to;
    real(l, &from, &to);
    return marked(l->span, from) && marked(to, l->span + l->most);
}
