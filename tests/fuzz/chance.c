#include "chance.h"

uint64_t chance_seed = 1;

uint32_t any(void) {
    uint64_t z = chance_seed += 0x9E3779B97F4A7C15u;
    z = (z ^ (z >> 30)) * 0xBF58476D1CE4E5B9u;
    z = (z ^ (z >> 27)) * 0x94D049BB133111EBu;
    return (uint32_t)(z >> 32) ^ (uint32_t)z;
}

uint32_t below(uint32_t end) {
    return (uint32_t)((uint64_t)any() * end >> 32);
}

uint32_t between(uint32_t least, uint32_t greatest) {
    switch (below(6)) {
    case 0:
        return least;
    case 1:
        return greatest;
    default:
        return least + (uint32_t)((uint64_t)any() * ((uint64_t)(greatest - least) + 1) >> 32);
    }
}

int once_in(uint32_t times) {
    return below(times) == 0;
}

size_t length_near(size_t right) {
    switch (below(40)) {
    case 0:
        return right - 1;
    case 1:
        return right + 1;
    case 2:
        return 0;
    case 3:
        return below((uint32_t)(right + right / 16 + 1));
    default:
        return right;
    }
}
