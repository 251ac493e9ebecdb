/* Heaps to measure, built by calls alone: so each is one that a program could make. */
#ifndef SHAPES_H
#define SHAPES_H

#include "forms.h"

enum { CHAINS, FANS, CLASSES, SHAPES };
extern const char *const shape_names[SHAPES];

/* One heap: its words are full, and about `share` percent of them are live. */
typedef struct {
    int shape;
    uint32_t length;
    uint32_t share;
    uint32_t scheme;
} plan;

/* What a heap was built by, and what came of it. */
typedef struct {
    uint32_t *words;
    fusuma_state state;
    call_form *calls;
    size_t count;
} heap;

heap build(plan p);
void unbuild(heap h);

#endif
