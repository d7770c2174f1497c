/* Parts and width tables in files. What is wrong with one is said, and ends the program with status 2. */
#ifndef FILES_H
#define FILES_H

#include "halviruso.h"

#include <errno.h>
#include <stdio.h>
#include <stdlib.h>
#include <string.h>

static inline void wrong_file(const char *name, const char *why)
{
    fprintf(stderr, "%s: %s\n", name, why);
    exit(2);
}

static inline FILE *open_file(const char *name)
{
    FILE *file = fopen(name, "rb");

    if (file == NULL)
        wrong_file(name, strerror(errno));
    return file;
}

/* The part's length; one byte more than the longest part shows that a file is too long. */
static inline size_t read_part(const char *name, uint8_t part[HALVIRUSO_PART + 1])
{
    FILE *file = open_file(name);
    size_t length = fread(part, 1, HALVIRUSO_PART + 1, file);

    if (ferror(file))
        wrong_file(name, strerror(errno));
    fclose(file);
    return length;
}

/* 1,024 numbers in a text. */
static inline void read_widths(const char *name, uint16_t widths[HALVIRUSO_WIDTHS])
{
    FILE *file = open_file(name);
    char word[7], *end = word;
    size_t at = 0;

    while (at <= HALVIRUSO_WIDTHS && fscanf(file, "%6s", word) == 1) {
        unsigned long width = strtoul(word, &end, 10);

        if (at == HALVIRUSO_WIDTHS || *word < '0' || *word > '9' || *end != '\0' || width > UINT16_MAX)
            wrong_file(name, "not 1,024 numbers from 0 to 65,535");
        widths[at++] = (uint16_t)width;
    }
    if (at != HALVIRUSO_WIDTHS)
        wrong_file(name, ferror(file) ? strerror(errno) : "not 1,024 numbers from 0 to 65,535");
    fclose(file);
}

#endif
