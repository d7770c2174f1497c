/* Calls as the edition before had them, which lent no number: with an empty LENT no compiler takes them; with `-DLENT=open_jobs,` they are this
 * edition's. C and C++. */
#include "halviruso.h"

halviruso_answer opened(halviruso_entry *table, uint32_t *open_jobs, halviruso_descriptor sheet);
halviruso_answer closed(halviruso_entry *table, uint32_t *open_jobs);

halviruso_answer opened(halviruso_entry *table, uint32_t *open_jobs, halviruso_descriptor sheet)
{
    (void)open_jobs;
    return halviruso_open(table, HALVIRUSO_SLOTS, LENT 3, 7, sheet);
}

halviruso_answer closed(halviruso_entry *table, uint32_t *open_jobs)
{
    (void)open_jobs;
    return halviruso_close(table, HALVIRUSO_SLOTS, LENT 3, 7);
}
