/* Well-formed tables, judged by walking every list: written from the layout in ashwoodrung.h and the paper, without a look at the library's
 * own audit, which asks each entry about its neighbours. */
#ifndef JUDGE_H
#define JUDGE_H

#include <stdint.h>

/* Are these words (as many as the tables have) well formed? */
int judge(const uint32_t *t);

/* What a call that was not refused did behind what is in use after it: NULL for nothing, else words for the change. */
const char *judge_frame(const uint32_t *was, const uint32_t *now);

/* Copies the words that `extents` (a head) has in use, and nothing else. */
void judge_copy(uint32_t *to, const uint32_t *from, const uint32_t *extents);

/* A word in use, picked by a number. */
uint32_t judge_word_in_use(const uint32_t *t, uint32_t pick);

#endif
