/* Words at rest: headers, values and schemes, for the plain heap and for Lisp2. */
#ifndef WORDS_H
#define WORDS_H

#include "../include/fusuma.h"

enum { WORDS = 16384, HANDLES = 32 };
enum { RECORD, LAYOUT, MAP };
enum { LAYOUT_WORDS = 4, MAP_WORDS = 5 };
enum { MARK = 2 };

static inline uint32_t header_of(uint32_t kind, uint32_t size)
{
    return 1 + 4 * kind + 16 * size;
}

static inline uint32_t kind_in(uint32_t header)
{
    return header >> 2 & 3;
}

static inline uint32_t size_in(uint32_t header)
{
    return header >> 4;
}

static inline int is_marked(uint32_t header)
{
    return header & MARK;
}

/* Of the four tags only those of references have bit 1 set. */
static inline int refers(uint32_t value)
{
    return value & 2;
}

static inline uint32_t place_of(uint32_t value)
{
    return value >> 2;
}

static inline uint32_t to_record(uint32_t place)
{
    return 4 * place + 2;
}

static inline uint32_t to_class(uint32_t place)
{
    return 4 * place + 3;
}

/* The rule of a record, from the reference to its layout. */
static inline uint32_t rule_of(const uint32_t *words, uint32_t layout)
{
    uint32_t map = words[place_of(layout) + 2];
    return words[place_of(map) + 1];
}

/* The fields that hold values under a rule, as bits: then both schemes are the same to whoever goes over a record. */
static inline uint32_t value_fields(uint32_t scheme, uint32_t rule)
{
    if (scheme == FUSUMA_MASK)
        return ~rule;
    return rule < 32 ? UINT32_MAX << rule : 0;
}

#endif
