/* The plain heap's collection once more, in C that is safe on any content, as the library is: each place is tested before its word is read or written, each size
 * before it is gone over, and each walk ends. It shows what these tests cost a program that is written by hand. */
#include "plain.h"
#include "words.h"

#include <stdbool.h>
#include <string.h>

#define ALWAYS_INLINE static inline __attribute__((always_inline))

enum { PENDING = 64, ADDRESSES = WORDS + HANDLES };

typedef struct {
    uint32_t *words;
    uint32_t length; /* how many words there are to use, at most WORDS */
    uint32_t *handles;
} space;

ALWAYS_INLINE uint32_t word_at(space s, uint32_t place)
{
    return place < s.length ? s.words[place] : 0;
}

ALWAYS_INLINE void set_word(space s, uint32_t place, uint32_t word)
{
    if (place < s.length)
        s.words[place] = word;
}

ALWAYS_INLINE uint32_t *slot_at(space s, uint32_t address)
{
    if (address < s.length)
        return s.words + address;
    if (address - WORDS < HANDLES)
        return s.handles + (address - WORDS);
    return NULL;
}

ALWAYS_INLINE uint32_t tested_rule(space s, uint32_t layout)
{
    return word_at(s, place_of(word_at(s, place_of(layout) + 2)) + 1);
}

/* Marking */

typedef struct {
    uint32_t places[PENDING];
    uint32_t count;
    uint32_t records_from;
    uint32_t classes_from;
    uint32_t live;
} pending;

static void note_dropped(pending *todo, uint32_t place, uint32_t header)
{
    if (kind_in(header) == RECORD) {
        if (place < todo->records_from)
            todo->records_from = place;
    } else if (place + size_in(header) > todo->classes_from) {
        todo->classes_from = place + size_in(header);
    }
}

ALWAYS_INLINE void mark(space s, pending *todo, uint32_t reference)
{
    uint32_t place = place_of(reference);
    uint32_t header = word_at(s, place);
    if ((header & 3) != 1)
        return;
    set_word(s, place, header + MARK);
    todo->live += size_in(header);
    if (todo->count < PENDING)
        todo->places[todo->count++] = place;
    else
        note_dropped(todo, place, header);
}

static void scan(space s, uint32_t scheme, pending *todo, uint32_t place)
{
    uint32_t header = word_at(s, place);
    uint32_t size = size_in(header);
    if (size > s.length - place)
        return;
    if (kind_in(header) == RECORD) {
        uint32_t layout = word_at(s, place + 1);
        uint32_t values = value_fields(scheme, tested_rule(s, layout));
        if (refers(layout))
            mark(s, todo, layout);
        for (uint32_t i = 2; i < size; i++, values >>= 1)
            if (values & 1 && refers(s.words[place + i]))
                mark(s, todo, s.words[place + i]);
    } else {
        uint32_t first = word_at(s, place + 2), second = word_at(s, place + 3);
        if (refers(first))
            mark(s, todo, first);
        if (kind_in(header) == MAP && refers(second))
            mark(s, todo, second);
    }
}

static void drain(space s, uint32_t scheme, pending *todo)
{
    for (uint32_t turn = 0; turn < WORDS && todo->count > 0; turn++)
        scan(s, scheme, todo, todo->places[--todo->count]);
}

/* Goes over a side, and ends where a size is none. */
#define FOR_RECORDS(s, from, end, place, header, HEADER, size)                                                                                        \
    for (uint32_t place = from, header, size; place < end && (header = HEADER, size = size_in(header), size - 1 < end - place); place += size)

#define FOR_CLASSES(s, from, end, place, size)                                                                                                        \
    for (uint32_t place = from, size; place > end && (size = word_at(s, place - 1), size - 1 < place - end) && (place -= size, true);)

static void scan_marked(space s, uint32_t scheme, pending *todo, uint32_t place, uint32_t header)
{
    if (is_marked(header)) {
        scan(s, scheme, todo, place);
        drain(s, scheme, todo);
    }
}

static void scan_records(space s, const fusuma_state *state, pending *todo)
{
    uint32_t from = todo->records_from;
    todo->records_from = WORDS;
    FOR_RECORDS (s, from, state->low, place, header, word_at(s, place), size)
        scan_marked(s, state->scheme, todo, place, header);
}

static void scan_classes(space s, const fusuma_state *state, pending *todo)
{
    uint32_t from = todo->classes_from;
    todo->classes_from = 0;
    FOR_CLASSES (s, from, state->high, place, size)
        scan_marked(s, state->scheme, todo, place, word_at(s, place));
}

static uint32_t mark_reachable(space s, fusuma_state *state)
{
    pending todo = { .count = 0, .records_from = WORDS, .classes_from = 0, .live = 0 };
    for (uint32_t h = 0; h < HANDLES; h++)
        if (refers(state->handles[h]))
            mark(s, &todo, state->handles[h]);
    drain(s, state->scheme, &todo);
    for (uint32_t round = 0; round < WORDS; round++) {
        if (todo.classes_from > state->high)
            scan_classes(s, state, &todo);
        else if (todo.records_from < state->low)
            scan_records(s, state, &todo);
        else
            break;
    }
    return todo.live;
}

/* Threading */

ALWAYS_INLINE void thread(space s, uint32_t *slot, uint32_t address)
{
    uint32_t place = place_of(*slot);
    if (place < s.length) {
        *slot = s.words[place];
        s.words[place] = 2 * address;
    }
}

/* As in the plain heap: a list is followed to its header, and once more to renew it. */
ALWAYS_INLINE uint32_t header_at(space s, uint32_t place)
{
    uint32_t header = word_at(s, place);
    for (uint32_t turn = 0; turn < ADDRESSES && !(header & 1); turn++) {
        uint32_t *slot = slot_at(s, header >> 1);
        header = slot == NULL ? 0 : *slot;
    }
    return header;
}

ALWAYS_INLINE void unthread(space s, uint32_t place, uint32_t reference)
{
    uint32_t word = word_at(s, place);
    for (uint32_t turn = 0; turn < ADDRESSES && !(word & 1); turn++) {
        uint32_t *slot = slot_at(s, word >> 1);
        if (slot == NULL)
            break;
        word = *slot;
        *slot = reference;
    }
    set_word(s, place, word);
}

static void forward(space s, fusuma_state *state)
{
    for (uint32_t h = 0; h < HANDLES; h++)
        if (refers(s.handles[h]))
            thread(s, s.handles + h, WORDS + h);

    uint32_t to = 0;
    FOR_RECORDS (s, 0, state->low, place, header, header_at(s, place), size)
        if (is_marked(header)) {
            unthread(s, place, to_record(to));
            uint32_t values = value_fields(state->scheme, tested_rule(s, word_at(s, place + 1)));
            if (size > 1 && refers(s.words[place + 1]))
                thread(s, s.words + place + 1, place + 1);
            for (uint32_t at = place + 2; at < place + size; at++, values >>= 1)
                if (values & 1 && refers(s.words[at]))
                    thread(s, s.words + at, at);
            to += size;
        }

    to = state->limit;
    FOR_CLASSES (s, state->limit, state->high, place, size) {
        uint32_t header = header_at(s, place);
        if (is_marked(header)) {
            to -= size;
            unthread(s, place, to_class(to));
            if (refers(word_at(s, place + 2)))
                thread(s, s.words + place + 2, place + 2);
            if (kind_in(header) == MAP && refers(word_at(s, place + 3)))
                thread(s, s.words + place + 3, place + 3);
        }
    }
}

static void backward(space s, fusuma_state *state)
{
    uint32_t low = 0;
    FOR_RECORDS (s, 0, state->low, place, header, header_at(s, place), size)
        if (is_marked(header)) {
            unthread(s, place, to_record(low));
            s.words[place] = header - MARK;
            if (low != place)
                memmove(s.words + low, s.words + place, size * sizeof *s.words);
            low += size;
        }

    uint32_t high = state->limit;
    FOR_CLASSES (s, state->limit, state->high, place, size) {
        uint32_t header = header_at(s, place);
        if (is_marked(header)) {
            high -= size;
            unthread(s, place, to_class(high));
            s.words[place] = header - MARK;
            if (high != place)
                memmove(s.words + high, s.words + place, size * sizeof *s.words);
        }
    }

    if (low < state->low)
        memset(s.words + low, 0, (state->low - low) * sizeof *s.words);
    if (state->high < high)
        memset(s.words + state->high, 0, (high - state->high) * sizeof *s.words);
    state->low = low;
    state->high = high;
}

static space space_of(uint32_t *words, size_t length, fusuma_state *state)
{
    uint32_t most = length < WORDS ? (uint32_t)length : WORDS;
    if (state->limit > most)
        state->limit = most;
    if (state->high > state->limit)
        state->high = state->limit;
    if (state->low > state->high)
        state->low = state->high;
    return (space){ words, most, state->handles };
}

int64_t tested_collect(uint32_t *words, size_t length, fusuma_state *state)
{
    space s = space_of(words, length, state);
    uint32_t live = mark_reachable(s, state);
    forward(s, state);
    backward(s, state);
    return live;
}
