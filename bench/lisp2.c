/* Lisp2 with its forwarding places in a table beside the heap, double-ended like the threaded compactor, so that both leave the same words.
 * It shows what threading costs, and what the table would take: as many words again as the heap. */
#include "plain.h"
#include "words.h"

#include <string.h>

static inline uint32_t renewed(const uint32_t *table, uint32_t value)
{
    return refers(value) ? table[place_of(value)] : value;
}

/* Sets the table at the place of each marked object to the reference that goes to its new place. */
static void find_places(const uint32_t *words, const fusuma_state *state, uint32_t *table)
{
    uint32_t to = 0;
    for (uint32_t place = 0; place < state->low; place += size_in(words[place])) {
        if (is_marked(words[place])) {
            table[place] = to_record(to);
            to += size_in(words[place]);
        }
    }
    to = state->limit;
    for (uint32_t place = state->limit; place > state->high;) {
        uint32_t size = words[place - 1];
        place -= size;
        if (is_marked(words[place])) {
            to -= size;
            table[place] = to_class(to);
        }
    }
}

/* Renews the references of each marked object and moves it. The table tells all places by now, so one pass does both; of the records first, since
 * the way to a record's rule goes by the words of classes. */
static void move_all(uint32_t *words, fusuma_state *state, const uint32_t *table)
{
    for (uint32_t h = 0; h < HANDLES; h++)
        state->handles[h] = renewed(table, state->handles[h]);

    uint32_t low = 0;
    for (uint32_t place = 0; place < state->low;) {
        uint32_t *object = words + place;
        uint32_t header = object[0];
        uint32_t size = size_in(header);
        if (is_marked(header)) {
            uint32_t values = value_fields(state->scheme, rule_of(words, object[1]));
            object[0] = header - MARK;
            object[1] = renewed(table, object[1]);
            for (uint32_t i = 2; i < size; i++, values >>= 1)
                if (values & 1)
                    object[i] = renewed(table, object[i]);
            if (low != place)
                memmove(words + low, object, size * sizeof *words);
            low += size;
        }
        place += size;
    }

    uint32_t high = state->limit;
    for (uint32_t place = state->limit; place > state->high;) {
        uint32_t size = words[place - 1];
        place -= size;
        uint32_t *object = words + place;
        uint32_t header = object[0];
        if (is_marked(header)) {
            object[0] = header - MARK;
            object[2] = renewed(table, object[2]);
            if (kind_in(header) == MAP)
                object[3] = renewed(table, object[3]);
            high -= size;
            if (high != place)
                memmove(words + high, object, size * sizeof *words);
        }
    }

    memset(words + low, 0, (state->low - low) * sizeof *words);
    memset(words + state->high, 0, (high - state->high) * sizeof *words);
    state->low = low;
    state->high = high;
}

int64_t lisp2_collect(uint32_t *words, size_t length, fusuma_state *state, uint32_t *table)
{
    int64_t live = plain_begin(words, length, state);
    if (live < 0)
        return live;
    find_places(words, state, table);
    move_all(words, state, table);
    state->phase = 0;
    return live;
}
