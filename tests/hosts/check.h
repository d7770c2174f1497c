/* Checks that are counted, and said where they fail. */
#ifndef CHECK_H
#define CHECK_H

#include "halviruso.h"

#include <stdio.h>

static unsigned checks, wrong;

#define CHECK(what)                                    \
    do {                                               \
        checks++;                                      \
        if (!(what)) {                                 \
            wrong++;                                   \
            printf("line %d: %s\n", __LINE__, #what);  \
        }                                              \
    } while (0)

static inline int is(halviruso_answer answer, uint32_t code, uint32_t first, uint32_t second)
{
    return answer.code == code && answer.first == first && answer.second == second;
}

/* The status to end with. */
static inline int checked(void)
{
    printf("%u checks, %u wrong\n", checks, wrong);
    return wrong == 0 ? 0 : 1;
}

#endif
