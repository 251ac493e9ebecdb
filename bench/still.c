/* The still graph. Everything is computed straight from the rules and nothing for speed; no file of the plain heap is used here. */
#include "still.h"

#include <stdio.h>
#include <stdlib.h>
#include <string.h>

enum { MOST = 16384, NOWHERE = UINT32_MAX };
enum { EMPTY, NUMBER, OBJECT };
enum { RECORD, LAYOUT, MAP };

typedef struct {
    int sort;
    int32_t number;
    uint32_t object;
} value;

typedef struct {
    value value;
    uint32_t raw;
} field;

typedef struct {
    int kind;
    uint32_t figure; /* a layout's field count, a map's rule */
    uint32_t of;     /* a record's layout, a layout's map */
    value name, parent;
    field *fields;
    uint32_t place; /* where it stands, or nowhere since a collection */
    uint32_t seen;  /* the last search that reached it */
} object;

struct still {
    uint32_t limit, scheme;
    value handles[32];
    object *objects;
    uint32_t count, room;
    uint32_t searches;
    uint32_t words[MOST];
    uint32_t low, high;
};

static void *must(void *memory)
{
    if (memory == NULL) {
        fprintf(stderr, "out of memory\n");
        exit(1);
    }
    return memory;
}

/* Schemes */

static int admits(const still *g, uint32_t rule)
{
    return g->scheme == FUSUMA_MASK || rule <= 32;
}

static int is_raw(const still *g, uint32_t rule, uint32_t i)
{
    return g->scheme == FUSUMA_MASK ? rule / ((uint32_t)1 << i) % 2 == 1 : i < rule;
}

/* Objects */

static uint32_t field_count(const still *g, const object *o)
{
    return o->kind == RECORD ? g->objects[o->of].figure : o->figure;
}

static uint32_t size_of(const still *g, const object *o)
{
    return o->kind == RECORD ? 2 + field_count(g, o) : o->kind == LAYOUT ? 4 : 5;
}

static uint32_t rule_of(const still *g, const object *o)
{
    const object *layout = o->kind == RECORD ? &g->objects[o->of] : o;
    return g->objects[layout->of].figure;
}

typedef struct {
    uint32_t offset; /* of the word that holds the reference */
    uint32_t object; /* that it goes to */
} naming;

/* What an object names, by the lowest word first. */
static uint32_t names(const still *g, const object *o, naming *all)
{
    uint32_t count = 0;
    if (o->kind == RECORD) {
        all[count++] = (naming){ 1, o->of };
        for (uint32_t i = 0; i < field_count(g, o); i++)
            if (!is_raw(g, rule_of(g, o), i) && o->fields[i].value.sort == OBJECT)
                all[count++] = (naming){ 2 + i, o->fields[i].value.object };
    } else if (o->kind == LAYOUT) {
        all[count++] = (naming){ 2, o->of };
    } else {
        if (o->name.sort == OBJECT)
            all[count++] = (naming){ 2, o->name.object };
        if (o->parent.sort == OBJECT)
            all[count++] = (naming){ 3, o->parent.object };
    }
    return count;
}

/* Sets `seen` of exactly the reachable objects, and answers their words. */
static uint32_t reach(still *g)
{
    uint32_t *found = must(malloc((g->count + 1) * sizeof *found));
    uint32_t count = 0, live = 0;
    g->searches++;
    for (int h = 0; h < 32; h++) {
        if (g->handles[h].sort == OBJECT && g->objects[g->handles[h].object].seen != g->searches) {
            g->objects[g->handles[h].object].seen = g->searches;
            found[count++] = g->handles[h].object;
        }
    }
    for (uint32_t i = 0; i < count; i++) {
        naming all[33];
        uint32_t named = names(g, &g->objects[found[i]], all);
        live += size_of(g, &g->objects[found[i]]);
        for (uint32_t k = 0; k < named; k++) {
            if (g->objects[all[k].object].seen != g->searches) {
                g->objects[all[k].object].seen = g->searches;
                found[count++] = all[k].object;
            }
        }
    }
    free(found);
    return live;
}

/* Words */

static uint32_t word_of(const still *g, value v)
{
    if (v.sort == EMPTY)
        return 0;
    if (v.sort == NUMBER)
        return (uint32_t)((int64_t)v.number * 4 + 1);
    const object *o = &g->objects[v.object];
    return o->place * 4 + (o->kind == RECORD ? 2 : 3);
}

static value to_object(uint32_t i)
{
    return (value){ OBJECT, 0, i };
}

static void put_object(still *g, uint32_t i)
{
    const object *o = &g->objects[i];
    uint32_t *at = g->words + o->place;
    uint32_t size = size_of(g, o);
    at[0] = 1 + 4 * (uint32_t)o->kind + 16 * size;
    if (o->kind == RECORD) {
        at[1] = word_of(g, to_object(o->of));
        for (uint32_t f = 0; f < field_count(g, o); f++)
            at[2 + f] = is_raw(g, rule_of(g, o), f) ? o->fields[f].raw : word_of(g, o->fields[f].value);
    } else if (o->kind == LAYOUT) {
        at[1] = o->figure;
        at[2] = word_of(g, to_object(o->of));
        at[3] = size;
    } else {
        at[1] = o->figure;
        at[2] = word_of(g, o->name);
        at[3] = word_of(g, o->parent);
        at[4] = size;
    }
}

/* The next free place on the object's side. The list is in the order of making, so the oldest come to stand outermost. */
static uint32_t next_place(still *g, const object *o)
{
    uint32_t place = g->low;
    if (o->kind == RECORD)
        g->low += size_of(g, o);
    else
        place = g->high -= size_of(g, o);
    return place;
}

static void pack(still *g)
{
    reach(g);
    g->low = 0;
    g->high = g->limit;
    memset(g->words, 0, sizeof g->words);
    for (uint32_t i = 0; i < g->count; i++)
        g->objects[i].place = g->objects[i].seen == g->searches ? next_place(g, &g->objects[i]) : NOWHERE;
    for (uint32_t i = 0; i < g->count; i++)
        if (g->objects[i].place != NOWHERE)
            put_object(g, i);
}

/* Calls */

/* For each call what its arguments are held to, from left to right: handle, number, rule, field count, part, or free. */
static const char *const signatures[20] = {
    "hn", "h", "hh", "hrhh", "hch", "hh", "hh.", "h.h", "h.", "h..", "h", "h", "hh", "hhk", "h", "h", "", "", "", "",
};

typedef struct {
    int number, at;
} refusal;

static refusal hold(const still *g, const call_form *call)
{
    const char *signature = signatures[call->number];
    const uint32_t arguments[4] = { call->a, call->b, call->c, call->d };
    for (int at = 1; signature[at - 1] != 0; at++) {
        uint32_t argument = arguments[at - 1];
        int64_t n = (int64_t)(int32_t)argument;
        switch (signature[at - 1]) {
        case 'h':
            if (argument > 31)
                return (refusal){ 11, at };
            break;
        case 'n':
            if (n < -536870912 || n > 536870911)
                return (refusal){ 12, at };
            break;
        case 'c':
            if (argument > 32)
                return (refusal){ 13, at };
            break;
        case 'k':
            if (argument > 3)
                return (refusal){ 14, at };
            break;
        case 'r':
            if (!admits(g, argument))
                return (refusal){ 15, at };
            break;
        }
    }
    return (refusal){ 0, 0 };
}

uint32_t still_kind(const still *g, uint32_t handle)
{
    value v = g->handles[handle];
    return v.sort == OBJECT ? 2 + (uint32_t)g->objects[v.object].kind : (uint32_t)v.sort;
}

static object *object_in(still *g, uint32_t handle)
{
    return &g->objects[g->handles[handle].object];
}

/* The rows of 21 to 23 for a field i of what handle o holds. */
static refusal hold_field(still *g, uint32_t o, int o_at, uint32_t i, int i_at, int raw)
{
    if (still_kind(g, o) != 2)
        return (refusal){ 21, o_at };
    if (i >= field_count(g, object_in(g, o)))
        return (refusal){ 22, i_at };
    if (is_raw(g, rule_of(g, object_in(g, o)), i) != raw)
        return (refusal){ 23, i_at };
    return (refusal){ 0, 0 };
}

/* Adds an object and puts it innermost on its side, unless the live words leave no room. */
static refusal make(still *g, uint32_t target, object new)
{
    uint32_t size = size_of(g, &new);
    uint32_t live = reach(g);
    if (g->high - g->low < size)
        pack(g);
    if (live + size > g->limit)
        return (refusal){ 31, 0 };
    if (g->high - g->low < size) {
        fprintf(stderr, "still: no room after packing\n");
        exit(1);
    }
    if (g->count == g->room) {
        g->room = 2 * g->room + 64;
        g->objects = must(realloc(g->objects, g->room * sizeof *g->objects));
    }
    new.fields = NULL;
    if (new.kind == RECORD)
        new.fields = must(calloc(field_count(g, &new) + 1, sizeof *new.fields));
    new.place = next_place(g, &new);
    new.seen = 0;
    g->objects[g->count] = new;
    put_object(g, g->count);
    g->handles[target] = to_object(g->count++);
    return (refusal){ 0, 0 };
}

void still_give(still *g, const call_form *call, answer_form *answer)
{
    refusal no = { 43, 0 };
    int64_t number = 0;
    uint32_t a = call->a, b = call->b, c = call->c, d = call->d;
    if (call->number < 20)
        no = hold(g, call);
    if (no.number == 0) {
        switch (call->number) {
        case FUSUMA_NUM:
            g->handles[a] = (value){ NUMBER, (int32_t)b, 0 };
            break;
        case FUSUMA_CLEAR:
            g->handles[a] = (value){ EMPTY, 0, 0 };
            break;
        case FUSUMA_COPY:
            g->handles[a] = g->handles[b];
            break;
        case FUSUMA_MAP:
            if (still_kind(g, d) != 0 && still_kind(g, d) != 4)
                no = (refusal){ 21, 4 };
            else
                no = make(g, a, (object){ .kind = MAP, .figure = b, .name = g->handles[c], .parent = g->handles[d] });
            break;
        case FUSUMA_LAYOUT:
            if (still_kind(g, c) != 4)
                no = (refusal){ 21, 3 };
            else
                no = make(g, a, (object){ .kind = LAYOUT, .figure = b, .of = g->handles[c].object });
            break;
        case FUSUMA_RECORD:
            if (still_kind(g, b) != 3)
                no = (refusal){ 21, 2 };
            else
                no = make(g, a, (object){ .kind = RECORD, .of = g->handles[b].object });
            break;
        case FUSUMA_LOAD:
            no = hold_field(g, b, 2, c, 3, 0);
            if (no.number == 0)
                g->handles[a] = object_in(g, b)->fields[c].value;
            break;
        case FUSUMA_SAVE:
            no = hold_field(g, a, 1, b, 2, 0);
            if (no.number == 0) {
                object_in(g, a)->fields[b].value = g->handles[c];
                put_object(g, g->handles[a].object);
            }
            break;
        case FUSUMA_RAWLOAD:
            no = hold_field(g, a, 1, b, 2, 1);
            if (no.number == 0)
                number = object_in(g, a)->fields[b].raw;
            break;
        case FUSUMA_RAWSAVE:
            no = hold_field(g, a, 1, b, 2, 1);
            if (no.number == 0) {
                object_in(g, a)->fields[b].raw = c;
                put_object(g, g->handles[a].object);
            }
            break;
        case FUSUMA_KIND:
            number = still_kind(g, a);
            break;
        case FUSUMA_VALUE:
            if (still_kind(g, a) != 1)
                no = (refusal){ 21, 1 };
            else
                number = g->handles[a].number;
            break;
        case FUSUMA_SAME: {
            value x = g->handles[a], y = g->handles[b];
            number = x.sort == y.sort && (x.sort == EMPTY || (x.sort == NUMBER ? x.number == y.number : x.object == y.object));
            break;
        }
        case FUSUMA_PART:
            if (still_kind(g, b) != (c == 0 ? 2 : c == 1 ? 3 : 4))
                no = (refusal){ 21, 2 };
            else
                g->handles[a] = c == 2 ? object_in(g, b)->name : c == 3 ? object_in(g, b)->parent : to_object(object_in(g, b)->of);
            break;
        case FUSUMA_FIGURE:
            if (still_kind(g, a) < 2)
                no = (refusal){ 21, 1 };
            else
                number = field_count(g, object_in(g, a));
            break;
        case FUSUMA_RAWS:
            if (still_kind(g, a) != 3)
                no = (refusal){ 21, 1 };
            else
                for (uint32_t i = 0; i < object_in(g, a)->figure; i++)
                    number += is_raw(g, rule_of(g, object_in(g, a)), i);
            break;
        case FUSUMA_COLLECT:
        case FUSUMA_STEPPED:
            number = reach(g);
            pack(g);
            break;
        case FUSUMA_FILL:
            if (g->limit != 0)
                number = (200 * (int64_t)reach(g) + g->limit) / (2 * (int64_t)g->limit);
            break;
        case FUSUMA_GIVEN_UP:
            break;
        }
    }
    answer->granted = no.number == 0;
    answer->number = no.number == 0 ? number : no.number;
    answer->position = no.number == 0 ? 0 : no.at;
}

/* States */

still *still_new(size_t length, uint32_t scheme)
{
    still *g = must(calloc(1, sizeof *g));
    g->limit = length < MOST ? (uint32_t)length : MOST;
    g->scheme = scheme;
    g->high = g->limit;
    return g;
}

void still_free(still *g)
{
    for (uint32_t i = 0; i < g->count; i++)
        free(g->objects[i].fields);
    free(g->objects);
    free(g);
}

uint32_t still_live(still *g)
{
    return reach(g);
}

void still_rest(const still *g, uint32_t *words, fusuma_state *state)
{
    memcpy(words, g->words, g->limit * sizeof *words);
    *state = (fusuma_state){ .phase = 0, .scheme = g->scheme, .low = g->low, .high = g->high, .limit = g->limit };
    for (int h = 0; h < 32; h++)
        state->handles[h] = word_of(g, g->handles[h]);
}

void still_begun(still *g, uint32_t *words, fusuma_state *state)
{
    still_rest(g, words, state);
    state->phase = 1;
    state->live = reach(g);
    for (uint32_t i = 0; i < g->count; i++)
        if (g->objects[i].seen == g->searches)
            words[g->objects[i].place] += 2;
}

/* Goes over the reachable objects in the order of the two passes. A reference is new already where its holder comes before what it refers to; the
 * others are on lists: the first threaded holds the header, each later one links to the one before it, and the header's place to the last. */
void still_drawn(still *g, uint32_t *words, fusuma_state *state)
{
    uint32_t *order = must(malloc((g->count + 1) * sizeof *order));
    uint32_t *turn = must(malloc((g->count + 1) * sizeof *turn));
    uint32_t *new_place = must(malloc((g->count + 1) * sizeof *new_place));
    uint32_t count = 0, low = 0, high = g->limit;
    still_begun(g, words, state);
    state->phase = 2;
    for (int classes = 0; classes < 2; classes++) {
        for (uint32_t i = 0; i < g->count; i++) {
            object *o = &g->objects[i];
            if (o->seen != g->searches || (o->kind != RECORD) != classes)
                continue;
            turn[i] = count;
            order[count++] = i;
            if (classes) {
                new_place[i] = high -= size_of(g, o);
            } else {
                new_place[i] = low;
                low += size_of(g, o);
            }
        }
    }
    for (int h = 0; h < 32; h++)
        if (g->handles[h].sort == OBJECT)
            state->handles[h] = new_place[g->handles[h].object] * 4 + state->handles[h] % 4;
    for (uint32_t k = 0; k < count; k++) {
        object *o = &g->objects[order[k]];
        naming all[33];
        uint32_t named = names(g, o, all);
        for (uint32_t n = 0; n < named; n++) {
            uint32_t to = all[n].object, at = o->place + all[n].offset;
            if (turn[to] > k) {
                words[at] = new_place[to] * 4 + words[at] % 4;
            } else {
                words[at] = words[g->objects[to].place];
                words[g->objects[to].place] = 2 * at;
            }
        }
    }
    free(order);
    free(turn);
    free(new_place);
}
