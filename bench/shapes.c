#include "shapes.h"

#include <stdio.h>
#include <stdlib.h>

const char *const shape_names[SHAPES] = { "chains", "fans", "classes" };

/* Handles that all shapes use. What is built is held by the first; the last one stays empty. */
enum { KEEP = 0, TAIL = 1, LAST = 2, NEW = 3, WASTE = 4, NUMBER = 5, MAP = 6, SMALL = 7, WIDE = 8, FIRST_FREE = 9, NONE = 31 };

typedef struct {
    heap heap;
    size_t room;
    plan plan;
    uint32_t random;
    uint32_t live, dead; /* words made so far */
} builder;

static uint32_t below(builder *b, uint32_t n)
{
    b->random = b->random * 1664525 + 1013904223;
    return (uint32_t)(((uint64_t)b->random * n) >> 32);
}

static void call(builder *b, uint32_t number, uint32_t w, uint32_t x, uint32_t y, uint32_t z)
{
    heap *h = &b->heap;
    answer_form answer;
    if (h->count == b->room) {
        b->room = 2 * b->room + 1024;
        h->calls = realloc(h->calls, b->room * sizeof *h->calls);
        if (h->calls == NULL)
            exit(1);
    }
    call_form *c = &h->calls[h->count++];
    *c = (call_form){ number, w, x, y, z };
    if (give_list(fusuma_give, h->words, b->plan.length, &h->state, c, 1, &answer) != 1 || answer.granted != 1) {
        fprintf(stderr, "shapes: call %u %u %u %u %u refused with %d\n", number, w, x, y, z, (int)answer.number);
        exit(1);
    }
}

static int fits(const builder *b, uint32_t size)
{
    return b->heap.state.high - b->heap.state.low >= size;
}

/* Whether the next object has to be garbage for the share to be kept. */
static int owes(const builder *b)
{
    return (uint64_t)b->dead * b->plan.share < (uint64_t)b->live * (100 - b->plan.share);
}

static void number(builder *b, uint32_t handle)
{
    call(b, FUSUMA_NUM, handle, below(b, 1000) - 500, 0, 0);
}

/* In the first two shapes one field of each record is raw: the first under PREFIX, the second under MASK. */
static uint32_t raw_field(const builder *b)
{
    return b->plan.scheme == FUSUMA_MASK ? 1 : 0;
}

/* The value fields are the others, from the first on. */
static uint32_t value_field(const builder *b, uint32_t i)
{
    return i < raw_field(b) ? i : i + 1;
}

static void start(builder *b, uint32_t small, uint32_t wide)
{
    call(b, FUSUMA_MAP, MAP, b->plan.scheme == FUSUMA_MASK ? 2 : 1, NONE, NONE);
    call(b, FUSUMA_LAYOUT, SMALL, small, MAP, 0);
    call(b, FUSUMA_LAYOUT, WIDE, wide, MAP, 0);
    b->live = 13;
}

/* A new record: its raw field has the bits of a reference, and behind it stands a number. */
static void record(builder *b, uint32_t target, uint32_t layout)
{
    call(b, FUSUMA_RECORD, target, layout, 0, 0);
    call(b, FUSUMA_RAWSAVE, target, raw_field(b), below(b, 4 * b->plan.length) | 2, 0);
    number(b, NUMBER);
    call(b, FUSUMA_SAVE, target, value_field(b, 1), NUMBER, 0);
}

/* Records each naming the next. One chain grows at its head, so that it names older records, one at its tail, so that it names newer ones. The garbage
 * is a chain too, and names live records on the way. */
static void chains(builder *b)
{
    enum { OTHER = FIRST_FREE };
    start(b, 3, 5);
    record(b, OTHER, SMALL);
    call(b, FUSUMA_COPY, TAIL, OTHER, 0, 0);
    b->live += 5;
    for (;;) {
        uint32_t layout = below(b, 2) ? SMALL : WIDE;
        uint32_t size = layout == SMALL ? 5 : 7;
        if (!fits(b, size))
            break;
        record(b, NEW, layout);
        if (owes(b)) {
            call(b, FUSUMA_SAVE, NEW, value_field(b, 0), WASTE, 0);
            if (layout == WIDE)
                call(b, FUSUMA_SAVE, NEW, value_field(b, 2), KEEP, 0);
            call(b, FUSUMA_COPY, WASTE, NEW, 0, 0);
            b->dead += size;
        } else if (below(b, 2)) {
            call(b, FUSUMA_SAVE, NEW, value_field(b, 0), KEEP, 0);
            call(b, FUSUMA_COPY, KEEP, NEW, 0, 0);
            b->live += size;
        } else {
            call(b, FUSUMA_SAVE, TAIL, value_field(b, 0), NEW, 0);
            call(b, FUSUMA_COPY, TAIL, NEW, 0, 0);
            b->live += size;
        }
    }
}

/* Garbage for the fans: small records, and now and then a wide one that names what is live. */
static void waste_fans(builder *b, uint32_t small, uint32_t wide)
{
    while (owes(b) && fits(b, 2 * wide)) {
        uint32_t layout = below(b, 6) == 0 ? WIDE : SMALL;
        record(b, WASTE, layout);
        if (layout == WIDE) {
            for (uint32_t i = 0; i < 4; i++)
                call(b, FUSUMA_SAVE, WASTE, value_field(b, 2 + i), FIRST_FREE + i, 0);
            call(b, FUSUMA_SAVE, WASTE, value_field(b, 0), KEEP, 0);
        }
        b->dead += layout == WIDE ? wide : small;
    }
}

/* Wide records naming many small ones, by turns made after those that they name and before them. The last field of each names the next wide
 * record: marking then comes to it first, while the others are pending. */
static void fans(builder *b)
{
    uint32_t leaves = b->plan.length < 1024 ? 6 : 22;
    uint32_t small = 5, wide = 2 + 4 + leaves;
    uint32_t link = value_field(b, leaves + 2);
    start(b, small - 2, wide - 2);
    record(b, TAIL, WIDE);
    call(b, FUSUMA_COPY, LAST, TAIL, 0, 0);
    b->live += wide;
    for (int after = 1;; after = !after) {
        if (!fits(b, 2 * wide))
            break;
        if (!after) {
            record(b, NEW, WIDE);
            b->live += wide;
        }
        uint32_t made = 0;
        for (; made < leaves; made++) {
            waste_fans(b, small, wide);
            if (!fits(b, small + wide))
                break;
            record(b, FIRST_FREE + made, SMALL);
            b->live += small;
        }
        if (after) {
            record(b, NEW, WIDE);
            b->live += wide;
        }
        for (uint32_t i = 0; i < made; i++) {
            /* Each small record names the next one of its fan. */
            if (i > 0)
                call(b, FUSUMA_SAVE, FIRST_FREE + i - 1, value_field(b, 0), FIRST_FREE + i, 0);
            call(b, FUSUMA_SAVE, NEW, value_field(b, 2 + i), FIRST_FREE + i, 0);
        }
        if (after) {
            call(b, FUSUMA_SAVE, NEW, link, KEEP, 0);
            call(b, FUSUMA_COPY, KEEP, NEW, 0, 0);
        } else {
            call(b, FUSUMA_SAVE, LAST, link, NEW, 0);
            call(b, FUSUMA_COPY, LAST, NEW, 0, 0);
        }
    }
    call(b, FUSUMA_CLEAR, LAST, 0, 0, 0);
    for (uint32_t h = FIRST_FREE; h < FIRST_FREE + leaves; h++)
        call(b, FUSUMA_CLEAR, h, 0, 0, 0);
}

/* A new map with a name and a parent, a layout, and two records of it. The last field is a value under every rule that is used. */
static void family(builder *b, uint32_t map, uint32_t layout, uint32_t first, uint32_t second, uint32_t fields)
{
    uint32_t rule = b->plan.scheme == FUSUMA_MASK ? below(b, 1u << (fields - 1)) : below(b, fields);
    call(b, FUSUMA_MAP, map, rule, below(b, 3) == 0 ? NUMBER : below(b, 2) ? KEEP : SMALL, MAP);
    call(b, FUSUMA_LAYOUT, layout, fields, map, 0);
    call(b, FUSUMA_RECORD, first, layout, 0, 0);
    call(b, FUSUMA_RECORD, second, layout, 0, 0);
    call(b, FUSUMA_SAVE, second, fields - 1, KEEP, 0);
}

/* Many maps and layouts, each with only two records. Live records and maps name the ones before them, garbage names live ones. */
static void classes(builder *b)
{
    enum { LAYOUT_OF_WASTE = FIRST_FREE, SECOND };
    uint32_t last = 0; /* the last field of the record in LAST */
    number(b, NUMBER);
    call(b, FUSUMA_MAP, MAP, 0, NONE, NONE);
    call(b, FUSUMA_LAYOUT, SMALL, 1, MAP, 0);
    call(b, FUSUMA_RECORD, KEEP, SMALL, 0, 0);
    call(b, FUSUMA_COPY, LAST, KEEP, 0, 0);
    b->live = 12;
    for (;;) {
        uint32_t fields = 2 + below(b, 5);
        uint32_t size = 9 + 2 * (2 + fields);
        if (!fits(b, size))
            break;
        if (owes(b)) {
            family(b, WASTE, LAYOUT_OF_WASTE, NEW, SECOND, fields);
            call(b, FUSUMA_SAVE, NEW, fields - 1, SECOND, 0);
            b->dead += size;
        } else {
            /* The newer record leads to the older families, and the older record of the family before leads to this one. */
            family(b, MAP, SMALL, NEW, SECOND, fields);
            call(b, FUSUMA_COPY, KEEP, SECOND, 0, 0);
            call(b, FUSUMA_SAVE, LAST, last, NEW, 0);
            call(b, FUSUMA_COPY, LAST, NEW, 0, 0);
            last = fields - 1;
            b->live += size;
        }
    }
    call(b, FUSUMA_CLEAR, LAYOUT_OF_WASTE, 0, 0, 0);
    call(b, FUSUMA_CLEAR, SECOND, 0, 0, 0);
    call(b, FUSUMA_CLEAR, LAST, 0, 0, 0);
}

heap build(plan p)
{
    builder b = { .plan = p, .random = p.length * 31 + p.share * 7 + p.scheme };
    b.heap.words = malloc(p.length * sizeof *b.heap.words);
    if (b.heap.words == NULL || fusuma_new(b.heap.words, p.length, &b.heap.state, p.scheme) != p.length) {
        fprintf(stderr, "shapes: no heap of %u words\n", p.length);
        exit(1);
    }
    if (p.shape == CHAINS)
        chains(&b);
    else if (p.shape == FANS)
        fans(&b);
    else
        classes(&b);
    call(&b, FUSUMA_CLEAR, WASTE, 0, 0, 0);
    call(&b, FUSUMA_CLEAR, NEW, 0, 0, 0);
    call(&b, FUSUMA_CLEAR, NUMBER, 0, 0, 0);
    return b.heap;
}

void unbuild(heap h)
{
    free(h.words);
    free(h.calls);
}
