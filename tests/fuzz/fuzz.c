/* Random and mutated bytes, numbers and lent lengths to every entry of the library, over memory with a page that faults at one end.
 * fuzz SIDE CALLS SECONDS SEED WRONG [SAMPLE...]: the side of that page, right or left; WRONG is what is wrong on purpose (tries.h), or none. It ends
 * with status 3 at a fault in the library, and with 1 at something that doesn't hold. */
#include <stdio.h>
#include <stdlib.h>
#include <string.h>
#include <time.h>

#include "chance.h"
#include "things.h"
#include "tries.h"

int main(int argc, char **argv) {
    if (argc < 6)
        return 2;
    unsigned long calls = strtoul(argv[2], NULL, 10);
    time_t end = time(NULL) + (time_t)strtoul(argv[3], NULL, 10);
    chance_seed = strtoul(argv[4], NULL, 10);
    tries_start(strcmp(argv[1], "left") == 0 ? LEFT : RIGHT, argv[5]);
    for (int word = 6; word < argc; word++)
        keep_sample(argv[word]);
    while (calls_made < calls && (calls_made % 256 != 0 || time(NULL) < end))
        try_one();
    printf("%lu calls, guarded on the %s, seed %s; answers by entry and code:\n", calls_made, argv[1], argv[4]);
    tries_report();
    return 0;
}
