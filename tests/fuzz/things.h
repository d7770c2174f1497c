/* Parts, descriptors, states, entries and stored numbers: as the rules want them, nearly so, or any bytes at all. */
#ifndef THINGS_H
#define THINGS_H

#include "halviruso.h"

enum { LONGEST = 8192 + 64 };

halviruso_descriptor a_descriptor(void);
halviruso_state a_state(const halviruso_descriptor *d);
halviruso_entry an_entry(void);
/* A number of open jobs, beside a table that has so many. */
uint32_t a_number(uint32_t walked);

/* Whether this is the TYPE of one of the nineteen sequences, chained or not. */
int is_type(unsigned char byte);

/* Keeps a part of a file, to be changed later. */
void keep_sample(const char *path);
/* Writes a part of at most LONGEST bytes, for a state whose chain is open or not; gives its size. */
size_t a_part(unsigned char *bytes, int chained);

#endif
