/* The still graph of docs/HEAP.md, in which nothing moves and nothing is thrown away, with the words that it gives the memory after each call: what
 * every heap is tried against. */
#ifndef STILL_H
#define STILL_H

#include "forms.h"

typedef struct still still;

still *still_new(size_t length, uint32_t scheme);
void still_free(still *graph);

void still_give(still *graph, const call_form *call, answer_form *answer);

uint32_t still_live(still *graph);

/* What a handle holds, as the call `kind` numbers it: for those who choose calls. */
uint32_t still_kind(const still *graph, uint32_t handle);

/* Words and state at rest; as they are after begin; as they are after draw. The words are as many as the heap uses. */
void still_rest(const still *graph, uint32_t *words, fusuma_state *state);
void still_begun(still *graph, uint32_t *words, fusuma_state *state);
void still_drawn(still *graph, uint32_t *words, fusuma_state *state);

#endif
