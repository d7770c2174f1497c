/*
 * Checks parts before they are sent: halviruso_check and halviruso_check_at need no job and no lent memory.
 *
 *   host                    checks the parts built in below; status 0 when every code is the expected one
 *   host FILE...            checks each file as one part, at eight lines to the inch; status 0 when all are accepted
 *   host -i NUMBER FILE...  the same at this baseline increment
 */
#include "halviruso.h"
#include "meaning.h"

#include <inttypes.h>
#include <stdio.h>
#include <stdlib.h>
#include <string.h>

/* A part made of a few bytes, some number of times over. */
struct sample {
    const char *name;
    const char *bytes; /* in hex */
    size_t times;
    uint32_t increment;
    uint32_t expected;
};

/* Lines to the inch: eight are what most tenants compose at, six are document 01's. */
enum { EIGHT = 180, SIX = 240 };

static const struct sample SAMPLES[] = {
    {"the empty part", "", 1, SIX, HALVIRUSO_DONE},
    {"one character", "C1", 1, SIX, HALVIRUSO_DONE},
    {"two moves in a chain, then text", "2BD304C702D004D201E0C1C2", 1, SIX, HALVIRUSO_DONE},
    {"a character that ends on the sheet's edge", "2BD304C62F40C1", 1, SIX, HALVIRUSO_DONE},
    {"the same, one unit further", "2BD304C62F41C1", 1, SIX, HALVIRUSO_OUTSIDE},
    {"a prefix cut short", "2B", 1, SIX, HALVIRUSO_CUT},
    {"a sequence cut short", "2BD304C67F", 1, SIX, HALVIRUSO_CUT},
    {"a prefix without its class", "C12BC1", 1, SIX, HALVIRUSO_PREFIX},
    {"LENGTH 1", "2BD301D8", 1, SIX, HALVIRUSO_LENGTH},
    {"OVS", "2BD30272", 1, SIX, HALVIRUSO_TYPE},
    {"AMI to X'8000'", "2BD304C68000", 1, SIX, HALVIRUSO_VALUE},
    {"font 4", "2BD303F004", 1, SIX, HALVIRUSO_FONT},
    {"ESU without BSU", "2BD303F405", 1, SIX, HALVIRUSO_SUPPRESSION},
    {"RMI by -32,768, once", "2BD304C88000", 1, SIX, HALVIRUSO_DONE},
    {"RMI by -32,768, twice", "2BD304C88000", 2, SIX, HALVIRUSO_POSITION},
    {"256 rules, which fill the record area", "2BD304E40001", 256, SIX, HALVIRUSO_DONE},
    {"257 rules", "2BD304E40001", 257, SIX, HALVIRUSO_NO_ROOM},
    {"257 rules of no length, which have no ink and no record", "2BD304E40000", 257, SIX, HALVIRUSO_DONE},
    {"8,192 bytes of NOP", "2BD302F8", 2048, SIX, HALVIRUSO_DONE},
    {"8,193 characters", "C1", 8193, SIX, HALVIRUSO_LONG_PART},
    {"20,000 bytes of NOP", "2BD302F8", 5000, SIX, HALVIRUSO_LONG_PART},
    {"a line at the sheet's foot", "2BD304D33D2C02D8C1", 1, EIGHT, HALVIRUSO_DONE},
    {"the same line further down", "2BD304D33D2C02D8C1", 1, SIX, HALVIRUSO_OUTSIDE},
    {"the same where lines stand on each other", "2BD304D33D2C02D8C1", 1, 0, HALVIRUSO_DONE},
    {"one line of the greatest increment", "2BD302D8", 1, 32767, HALVIRUSO_DONE},
    {"two of them", "2BD302D8", 2, 32767, HALVIRUSO_POSITION},
    {"an increment that no descriptor has", "", 1, 32768, HALVIRUSO_BAD_DESCRIPTOR},
    {"the same and a part too long", "C1", 8193, 32768, HALVIRUSO_BAD_DESCRIPTOR},
    {"8,193 characters at eight lines to the inch", "C1", 8193, EIGHT, HALVIRUSO_LONG_PART},
};

/* halviruso_check is halviruso_check_at at 180: a host that has no other needs no number. */
static uint32_t code_of(const uint8_t *part, size_t length, uint32_t increment)
{
    return increment == EIGHT ? halviruso_check(part, length) : halviruso_check_at(part, length, increment);
}

/* Prints one line and hands the code on. */
static uint32_t report(const char *name, const uint8_t *part, size_t length, uint32_t increment)
{
    uint32_t code = code_of(part, length, increment);

    printf("%s, length %zu, increment %" PRIu32 ": %" PRIu32 ", %s\n", name, length, increment, code, meaning(code));
    return code;
}

static unsigned digit(char c)
{
    return c <= '9' ? (unsigned)(c - '0') : (unsigned)(c - 'A') + 10u;
}

/* The sample's bytes; room is made for one more, since malloc(0) may give no pointer. */
static uint8_t *bytes_of(const struct sample *sample, size_t *length)
{
    size_t once = strlen(sample->bytes) / 2;
    uint8_t *part = malloc(once * sample->times + 1);

    if (part == NULL) {
        perror("host");
        exit(2);
    }
    *length = once * sample->times;
    for (size_t at = 0; at < *length; at++) {
        const char *pair = sample->bytes + 2 * (at % once);
        part[at] = (uint8_t)(16u * digit(pair[0]) + digit(pair[1]));
    }
    return part;
}

static int check_samples(void)
{
    int status = 0;

    for (size_t at = 0; at < sizeof SAMPLES / sizeof SAMPLES[0]; at++) {
        size_t length;
        uint8_t *part = bytes_of(&SAMPLES[at], &length);

        if (report(SAMPLES[at].name, part, length, SAMPLES[at].increment) != SAMPLES[at].expected) {
            printf("  expected %" PRIu32 "\n", SAMPLES[at].expected);
            status = 1;
        }
        free(part);
    }
    return status;
}

static int check_file(const char *name, uint32_t increment)
{
    static uint8_t part[HALVIRUSO_PART + 1]; /* one byte more than the longest part shows that a file is too long */
    FILE *file = fopen(name, "rb");
    size_t length;
    int failed;

    if (file == NULL) {
        perror(name);
        return 1;
    }
    length = fread(part, 1, sizeof part, file);
    failed = ferror(file);
    fclose(file);
    if (failed) {
        fprintf(stderr, "%s: cannot be read\n", name);
        return 1;
    }
    return report(name, part, length, increment) != HALVIRUSO_DONE;
}

/* Whether a word is a number that the library can be asked for; which of them are increments, it says itself. */
static int is_number(const char *word, uint32_t *number)
{
    char *end;
    unsigned long long value = strtoull(word, &end, 10);

    *number = (uint32_t)value;
    return *word >= '0' && *word <= '9' && *end == '\0' && value <= UINT32_MAX;
}

int main(int count, char **words)
{
    uint32_t increment = EIGHT;
    int status = 0, first = 1;

    if (count < 2)
        return check_samples();
    if (strcmp(words[1], "-i") == 0) {
        if (count < 4 || !is_number(words[2], &increment)) {
            fprintf(stderr, "host: -i takes a number from 0 to %" PRIu32 ", and files behind it\n", UINT32_MAX);
            return 2;
        }
        first = 3;
    }
    for (int at = first; at < count; at++)
        status |= check_file(words[at], increment);
    return status;
}
