/* A plain heap in C over the same words, the same state and the same lists of calls as the library of include/fusuma.h, to compare it with.
 *
 * It follows docs/HEAP.md and trusts what it finds: words and state must come from plain_new and later calls alone. The functions are those
 * of the library by other names, and answer the same. */
#ifndef PLAIN_H
#define PLAIN_H

#include "forms.h"

int64_t plain_new(uint32_t *words, size_t length, fusuma_state *state, uint32_t scheme);
int64_t plain_give(uint32_t *words, size_t length, fusuma_state *state, call_list calls, size_t calls_length, answer_list answers,
                   size_t answers_length);
int64_t plain_collect(uint32_t *words, size_t length, fusuma_state *state);
int64_t plain_begin(uint32_t *words, size_t length, fusuma_state *state);
int64_t plain_draw(uint32_t *words, size_t length, fusuma_state *state);
int64_t plain_close(uint32_t *words, size_t length, fusuma_state *state);
int64_t plain_give_up(uint32_t *words, size_t length, fusuma_state *state);

/* The same collection with each list followed only once: what a list's header would tell, its tag, the side tells too. */
int64_t plain_collect_once(uint32_t *words, size_t length, fusuma_state *state);

/* The same collection as that of plain_collect, safe on any content: each place and each size is tested before it is used. */
int64_t tested_collect(uint32_t *words, size_t length, fusuma_state *state);

/* A collection with a table beside the heap, as many words as the heap has, in place of threading. Its marking is that of plain_begin. */
int64_t lisp2_collect(uint32_t *words, size_t length, fusuma_state *state, uint32_t *table);

/* How many scans of the heap the last marking took because its pending places had run out. */
extern uint32_t plain_scans;

#endif
