/* The plain heap: the eighteen calls, and a double-ended threaded compactor that needs 64 pending places and no table. */
#include "plain.h"
#include "words.h"

#include <stdbool.h>
#include <string.h>

/* For what is written once and meant twice, with and without a flag. */
#define ALWAYS_INLINE static inline __attribute__((always_inline))

enum { PENDING = 64 };
enum { LEAST = -536870912, GREATEST = 536870911 };

uint32_t plain_scans;

/* Marking */

typedef struct {
    uint32_t places[PENDING];
    uint32_t count;
    /* Marked objects that found no room, so that what they name may be unmarked: the place of the first such record, the end of the first such class. */
    uint32_t records_from;
    uint32_t classes_from;
    uint32_t live;
} pending;

static void note_dropped(pending *todo, uint32_t place, uint32_t header)
{
    if (kind_in(header) == RECORD) {
        if (place < todo->records_from)
            todo->records_from = place;
    } else if (place + size_in(header) > todo->classes_from) {
        todo->classes_from = place + size_in(header);
    }
}

static inline void mark(uint32_t *words, pending *todo, uint32_t reference)
{
    uint32_t place = place_of(reference);
    uint32_t header = words[place];
    if (is_marked(header))
        return;
    words[place] = header + MARK;
    todo->live += size_in(header);
    if (todo->count < PENDING)
        todo->places[todo->count++] = place;
    else
        note_dropped(todo, place, header);
}

/* Marks what an object names. */
static void scan(uint32_t *words, uint32_t scheme, pending *todo, uint32_t place)
{
    uint32_t *object = words + place;
    uint32_t header = object[0];
    if (kind_in(header) == RECORD) {
        uint32_t values = value_fields(scheme, rule_of(words, object[1]));
        uint32_t *end = object + size_in(header);
        mark(words, todo, object[1]);
        for (uint32_t *field = object + 2; field < end; field++, values >>= 1)
            if (values & 1 && refers(*field))
                mark(words, todo, *field);
    } else if (kind_in(header) == LAYOUT) {
        mark(words, todo, object[2]);
    } else {
        if (refers(object[2]))
            mark(words, todo, object[2]);
        if (refers(object[3]))
            mark(words, todo, object[3]);
    }
}

static void drain(uint32_t *words, uint32_t scheme, pending *todo)
{
    while (todo->count > 0)
        scan(words, scheme, todo, todo->places[--todo->count]);
}

/* Marks what an object names that may have been dropped, and all that this leads to. */
static void scan_marked(uint32_t *words, uint32_t scheme, pending *todo, uint32_t place)
{
    if (is_marked(words[place])) {
        scan(words, scheme, todo, place);
        drain(words, scheme, todo);
    }
}

static void scan_records(uint32_t *words, const fusuma_state *state, pending *todo)
{
    uint32_t place = todo->records_from;
    todo->records_from = WORDS;
    for (; place < state->low; place += size_in(words[place]))
        scan_marked(words, state->scheme, todo, place);
}

static void scan_classes(uint32_t *words, const fusuma_state *state, pending *todo)
{
    uint32_t end = todo->classes_from;
    todo->classes_from = 0;
    while (end > state->high) {
        end -= words[end - 1];
        scan_marked(words, state->scheme, todo, end);
    }
}

static uint32_t mark_reachable(uint32_t *words, fusuma_state *state)
{
    pending todo;
    todo.count = 0;
    todo.records_from = WORDS;
    todo.classes_from = 0;
    todo.live = 0;
    for (uint32_t h = 0; h < HANDLES; h++)
        if (refers(state->handles[h]))
            mark(words, &todo, state->handles[h]);
    drain(words, state->scheme, &todo);
    /* Each round goes over one side, from its first dropped object; classes first, since they are what records name. */
    for (plain_scans = 0;; plain_scans++) {
        if (todo.classes_from > state->high)
            scan_classes(words, state, &todo);
        else if (todo.records_from < state->low)
            scan_records(words, state, &todo);
        else
            return todo.live;
    }
}

static void unmark(uint32_t *words, fusuma_state *state)
{
    for (uint32_t place = 0; place < state->low; place += size_in(words[place]))
        words[place] &= ~(uint32_t)MARK;
    for (uint32_t end = state->limit; end > state->high;) {
        end -= words[end - 1];
        words[end] &= ~(uint32_t)MARK;
    }
}

/* Threading */

static inline uint32_t *linked(uint32_t *words, uint32_t *handles, uint32_t link)
{
    uint32_t address = link >> 1;
    return address < WORDS ? words + address : handles + (address - WORDS);
}

/* Puts a slot that holds a reference at the front of the list of the object that it refers to. */
static inline void thread(uint32_t *words, uint32_t *slot, uint32_t address)
{
    uint32_t *front = words + place_of(*slot);
    *slot = *front;
    *front = 2 * address;
}

/* Gives every slot on the list of an object the new reference, and puts its header back, which it answers. */
static inline uint32_t unthread(uint32_t *words, uint32_t *handles, uint32_t place, uint32_t reference)
{
    uint32_t word = words[place];
    while (!(word & 1)) {
        uint32_t *slot = linked(words, handles, word);
        word = *slot;
        *slot = reference;
    }
    words[place] = word;
    return word;
}

/* Unthreads an object to its new place if it is marked, and answers its header. The header is at the end of the list and tells the tag, so the
 * list is followed twice; with `once` the tag is that of the side. An object that is not marked has no list. */
ALWAYS_INLINE uint32_t renew(uint32_t *words, uint32_t *handles, uint32_t place, uint32_t new_place, uint32_t tag, bool once)
{
    if (once)
        return unthread(words, handles, place, 4 * new_place + tag);
    uint32_t header = words[place];
    while (!(header & 1))
        header = *linked(words, handles, header);
    if (is_marked(header))
        unthread(words, handles, place, kind_in(header) == RECORD ? to_record(new_place) : to_class(new_place));
    return header;
}

/* The forward update: of the records first, since the way to a record's rule goes by words of classes that are threaded later. */
ALWAYS_INLINE void forward(uint32_t *words, fusuma_state *state, bool once)
{
    uint32_t *handles = state->handles;
    for (uint32_t h = 0; h < HANDLES; h++)
        if (refers(handles[h]))
            thread(words, handles + h, WORDS + h);

    uint32_t to = 0;
    for (uint32_t place = 0; place < state->low;) {
        uint32_t header = renew(words, handles, place, to, 2, once);
        uint32_t end = place + size_in(header);
        if (is_marked(header)) {
            uint32_t values = value_fields(state->scheme, rule_of(words, words[place + 1]));
            thread(words, words + place + 1, place + 1);
            for (uint32_t at = place + 2; at < end; at++, values >>= 1)
                if (values & 1 && refers(words[at]))
                    thread(words, words + at, at);
            to += size_in(header);
        }
        place = end;
    }

    to = state->limit;
    for (uint32_t place = state->limit; place > state->high;) {
        uint32_t size = words[place - 1];
        place -= size;
        uint32_t header = renew(words, handles, place, to - size, 3, once);
        if (is_marked(header)) {
            to -= size;
            if (refers(words[place + 2]))
                thread(words, words + place + 2, place + 2);
            if (kind_in(header) == MAP && refers(words[place + 3]))
                thread(words, words + place + 3, place + 3);
        }
    }
}

/* The backward update. All references of an object are new when it is its turn, so it can be moved at once. */
ALWAYS_INLINE void backward(uint32_t *words, fusuma_state *state, bool once)
{
    uint32_t *handles = state->handles;
    uint32_t low = 0;
    for (uint32_t place = 0; place < state->low;) {
        uint32_t header = renew(words, handles, place, low, 2, once);
        uint32_t size = size_in(header);
        if (is_marked(header)) {
            words[place] = header - MARK;
            if (low != place)
                memmove(words + low, words + place, size * sizeof *words);
            low += size;
        }
        place += size;
    }

    uint32_t high = state->limit;
    for (uint32_t place = state->limit; place > state->high;) {
        uint32_t size = words[place - 1];
        place -= size;
        uint32_t header = renew(words, handles, place, high - size, 3, once);
        if (is_marked(header)) {
            words[place] = header - MARK;
            high -= size;
            if (high != place)
                memmove(words + high, words + place, size * sizeof *words);
        }
    }

    /* The words between the sides were 0 before. */
    memset(words + low, 0, (state->low - low) * sizeof *words);
    memset(words + state->high, 0, (high - state->high) * sizeof *words);
    state->low = low;
    state->high = high;
}

static uint32_t collect(uint32_t *words, fusuma_state *state)
{
    uint32_t live = mark_reachable(words, state);
    forward(words, state, false);
    backward(words, state, false);
    return live;
}

/* The calls */

static inline int64_t kind_of(const uint32_t *words, uint32_t value)
{
    uint32_t tag = value & 3;
    return tag < 3 ? tag : 2 + kind_in(words[place_of(value)]);
}

enum { IS_EMPTY, IS_NUMBER, IS_RECORD, IS_LAYOUT, IS_MAP };

static inline bool is_raw(uint32_t scheme, uint32_t rule, uint32_t field)
{
    return scheme == FUSUMA_MASK ? rule >> field & 1 : field < rule;
}

static uint32_t bits_in(uint32_t word)
{
    uint32_t count = 0;
    for (; word != 0; word &= word - 1)
        count++;
    return count;
}

static inline bool make_room(uint32_t *words, fusuma_state *state, uint32_t size)
{
    if (state->high - state->low >= size)
        return true;
    collect(words, state);
    return state->high - state->low >= size;
}

static inline void grant(answer_form *answer, int64_t number)
{
    answer->granted = 1;
    answer->number = number;
    answer->position = 0;
}

static inline void refuse(answer_form *answer, int number, int at)
{
    answer->granted = 0;
    answer->number = number;
    answer->position = at;
}

#define GRANT(number) do { grant(answer, number); return; } while (0)
#define REFUSE(number, at) do { refuse(answer, number, at); return; } while (0)
#define HANDLE(h, at) do { if ((h) >= HANDLES) REFUSE(11, at); } while (0)

/* The word of a record's field, or none if the call is refused. */
static inline uint32_t *field_in(uint32_t *words, const fusuma_state *state, uint32_t owner, int owner_at, uint32_t i, int i_at, bool raw,
                                 answer_form *answer)
{
    if ((owner & 3) != 2) {
        refuse(answer, 21, owner_at);
        return NULL;
    }
    uint32_t *object = words + place_of(owner);
    if (i >= size_in(object[0]) - 2) {
        refuse(answer, 22, i_at);
        return NULL;
    }
    if (is_raw(state->scheme, rule_of(words, object[1]), i) != raw) {
        refuse(answer, 23, i_at);
        return NULL;
    }
    return object + 2 + i;
}

static inline void give_one(uint32_t *words, fusuma_state *state, const call_form *call, answer_form *answer)
{
    uint32_t *handles = state->handles;
    uint32_t a = call->a, b = call->b, c = call->c, d = call->d;
    switch (call->number) {
    case FUSUMA_NUM: {
        int32_t n = (int32_t)b;
        HANDLE(a, 1);
        if (n < LEAST || n > GREATEST)
            REFUSE(12, 2);
        handles[a] = 4 * b + 1;
        GRANT(0);
    }
    case FUSUMA_CLEAR:
        HANDLE(a, 1);
        handles[a] = 0;
        GRANT(0);
    case FUSUMA_COPY:
        HANDLE(a, 1);
        HANDLE(b, 2);
        handles[a] = handles[b];
        GRANT(0);
    case FUSUMA_MAP: {
        HANDLE(a, 1);
        if (state->scheme == FUSUMA_PREFIX && b > 32)
            REFUSE(15, 2);
        HANDLE(c, 3);
        HANDLE(d, 4);
        if (handles[d] != 0 && kind_of(words, handles[d]) != IS_MAP)
            REFUSE(21, 4);
        if (!make_room(words, state, MAP_WORDS))
            REFUSE(31, 0);
        uint32_t *map = words + (state->high -= MAP_WORDS);
        map[0] = header_of(MAP, MAP_WORDS);
        map[1] = b;
        map[2] = handles[c];
        map[3] = handles[d];
        map[4] = MAP_WORDS;
        handles[a] = to_class(state->high);
        GRANT(0);
    }
    case FUSUMA_LAYOUT: {
        HANDLE(a, 1);
        if (b > 32)
            REFUSE(13, 2);
        HANDLE(c, 3);
        if (kind_of(words, handles[c]) != IS_MAP)
            REFUSE(21, 3);
        if (!make_room(words, state, LAYOUT_WORDS))
            REFUSE(31, 0);
        uint32_t *layout = words + (state->high -= LAYOUT_WORDS);
        layout[0] = header_of(LAYOUT, LAYOUT_WORDS);
        layout[1] = b;
        layout[2] = handles[c];
        layout[3] = LAYOUT_WORDS;
        handles[a] = to_class(state->high);
        GRANT(0);
    }
    case FUSUMA_RECORD: {
        HANDLE(a, 1);
        HANDLE(b, 2);
        if (kind_of(words, handles[b]) != IS_LAYOUT)
            REFUSE(21, 2);
        uint32_t size = 2 + words[place_of(handles[b]) + 1];
        if (!make_room(words, state, size))
            REFUSE(31, 0);
        /* Its fields are 0 already, as are all words between the sides. */
        uint32_t *record = words + state->low;
        record[0] = header_of(RECORD, size);
        record[1] = handles[b];
        handles[a] = to_record(state->low);
        state->low += size;
        GRANT(0);
    }
    case FUSUMA_LOAD: {
        HANDLE(a, 1);
        HANDLE(b, 2);
        uint32_t *field = field_in(words, state, handles[b], 2, c, 3, false, answer);
        if (field == NULL)
            return;
        handles[a] = *field;
        GRANT(0);
    }
    case FUSUMA_SAVE: {
        HANDLE(a, 1);
        HANDLE(c, 3);
        uint32_t *field = field_in(words, state, handles[a], 1, b, 2, false, answer);
        if (field == NULL)
            return;
        *field = handles[c];
        GRANT(0);
    }
    case FUSUMA_RAWLOAD: {
        HANDLE(a, 1);
        uint32_t *field = field_in(words, state, handles[a], 1, b, 2, true, answer);
        if (field == NULL)
            return;
        GRANT(*field);
    }
    case FUSUMA_RAWSAVE: {
        HANDLE(a, 1);
        uint32_t *field = field_in(words, state, handles[a], 1, b, 2, true, answer);
        if (field == NULL)
            return;
        *field = c;
        GRANT(0);
    }
    case FUSUMA_KIND:
        HANDLE(a, 1);
        GRANT(kind_of(words, handles[a]));
    case FUSUMA_VALUE:
        HANDLE(a, 1);
        if ((handles[a] & 3) != 1)
            REFUSE(21, 1);
        GRANT((int32_t)handles[a] >> 2);
    case FUSUMA_SAME:
        HANDLE(a, 1);
        HANDLE(b, 2);
        GRANT(handles[a] == handles[b]);
    case FUSUMA_PART: {
        static const uint8_t owner[4] = { IS_RECORD, IS_LAYOUT, IS_MAP, IS_MAP };
        static const uint8_t offset[4] = { 1, 2, 2, 3 };
        HANDLE(a, 1);
        HANDLE(b, 2);
        if (c > 3)
            REFUSE(14, 3);
        if (kind_of(words, handles[b]) != owner[c])
            REFUSE(21, 2);
        handles[a] = words[place_of(handles[b]) + offset[c]];
        GRANT(0);
    }
    case FUSUMA_FIGURE: {
        HANDLE(a, 1);
        if (!refers(handles[a]))
            REFUSE(21, 1);
        uint32_t *object = words + place_of(handles[a]);
        GRANT(kind_in(object[0]) == RECORD ? size_in(object[0]) - 2 : object[1]);
    }
    case FUSUMA_RAWS: {
        HANDLE(a, 1);
        if (kind_of(words, handles[a]) != IS_LAYOUT)
            REFUSE(21, 1);
        uint32_t fields = words[place_of(handles[a]) + 1];
        uint32_t values = value_fields(state->scheme, rule_of(words, handles[a]));
        uint32_t first = fields < 32 ? ((uint32_t)1 << fields) - 1 : UINT32_MAX;
        GRANT(bits_in(~values & first));
    }
    case FUSUMA_COLLECT:
    case FUSUMA_STEPPED:
        GRANT(collect(words, state));
    case FUSUMA_FILL: {
        if (state->limit == 0)
            GRANT(0);
        uint32_t live = mark_reachable(words, state);
        unmark(words, state);
        GRANT((200 * live + state->limit) / (2 * state->limit));
    }
    case FUSUMA_GIVEN_UP:
        mark_reachable(words, state);
        unmark(words, state);
        GRANT(0);
    default:
        REFUSE(43, 0);
    }
}

/* The functions of the library by other names */

enum { RESTING, BEGUN, DRAWN };

int64_t plain_new(uint32_t *words, size_t length, fusuma_state *state, uint32_t scheme)
{
    if (scheme != FUSUMA_PREFIX && scheme != FUSUMA_MASK)
        return FUSUMA_NO_SCHEME;
    uint32_t limit = length < WORDS ? (uint32_t)length : WORDS;
    memset(words, 0, limit * sizeof *words);
    memset(state, 0, sizeof *state);
    state->scheme = scheme;
    state->limit = limit;
    state->high = limit;
    return limit;
}

int64_t plain_give(uint32_t *words, size_t length, fusuma_state *state, call_list calls, size_t calls_length, answer_list answers,
                   size_t answers_length)
{
    (void)length;
    if (state->phase != RESTING)
        return FUSUMA_OUT_OF_TURN;
    const call_form *call = (const call_form *)calls;
    answer_form *answer = (answer_form *)answers;
    size_t count = calls_length / CALL_LENGTH;
    if (count > answers_length / ANSWER_LENGTH)
        count = answers_length / ANSWER_LENGTH;
    for (size_t i = 0; i < count; i++)
        give_one(words, state, call + i, answer + i);
    return (int64_t)count;
}

int64_t plain_collect(uint32_t *words, size_t length, fusuma_state *state)
{
    (void)length;
    if (state->phase != RESTING)
        return FUSUMA_OUT_OF_TURN;
    return collect(words, state);
}

int64_t plain_collect_once(uint32_t *words, size_t length, fusuma_state *state)
{
    (void)length;
    if (state->phase != RESTING)
        return FUSUMA_OUT_OF_TURN;
    uint32_t live = mark_reachable(words, state);
    forward(words, state, true);
    backward(words, state, true);
    return live;
}

int64_t plain_begin(uint32_t *words, size_t length, fusuma_state *state)
{
    (void)length;
    if (state->phase != RESTING)
        return FUSUMA_OUT_OF_TURN;
    state->live = mark_reachable(words, state);
    state->phase = BEGUN;
    return state->live;
}

int64_t plain_draw(uint32_t *words, size_t length, fusuma_state *state)
{
    (void)length;
    if (state->phase != BEGUN)
        return FUSUMA_OUT_OF_TURN;
    forward(words, state, false);
    state->phase = DRAWN;
    return 0;
}

int64_t plain_close(uint32_t *words, size_t length, fusuma_state *state)
{
    (void)length;
    if (state->phase != DRAWN)
        return FUSUMA_OUT_OF_TURN;
    backward(words, state, false);
    state->phase = RESTING;
    return state->live;
}

int64_t plain_give_up(uint32_t *words, size_t length, fusuma_state *state)
{
    (void)length;
    if (state->phase != BEGUN)
        return FUSUMA_OUT_OF_TURN;
    unmark(words, state);
    state->phase = RESTING;
    return 0;
}
