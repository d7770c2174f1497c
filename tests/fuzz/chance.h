/* Seeded numbers, the same on every machine. */
#ifndef CHANCE_H
#define CHANCE_H

#include <stddef.h>
#include <stdint.h>

extern uint64_t chance_seed;

uint32_t any(void);
/* A number under `end`; 0 if `end` is 0. */
uint32_t below(uint32_t end);
/* A number from `least` to `greatest`, often one of them. */
uint32_t between(uint32_t least, uint32_t greatest);
/* True once in so many times. */
int once_in(uint32_t times);
/* A length to lend where `right` is right: that one, one less, one more, none, or any. */
size_t length_near(size_t right);

#define PICK(values) ((values)[below(sizeof(values) / sizeof *(values))])

#endif
