#include "trial.h"
#include "plain.h"
#include "still.h"

#include <inttypes.h>
#include <stdio.h>
#include <stdlib.h>
#include <string.h>

enum { MOST_LENGTH = 16384 + 64, GUARD = 16 };
enum { MOST_CALLS = 8 };

static uint64_t seed_of_trial;

static uint64_t random_state;

static uint32_t random_word(void)
{
    random_state ^= random_state << 13;
    random_state ^= random_state >> 7;
    random_state ^= random_state << 17;
    return (uint32_t)(random_state >> 32);
}

static uint32_t below(uint32_t n)
{
    return random_word() % n;
}

/* One heap in three ways. Behind the words are some that belong to no heap. */
typedef struct {
    size_t length;
    uint32_t library[MOST_LENGTH + GUARD], plain[MOST_LENGTH + GUARD], expected[MOST_LENGTH + GUARD];
    fusuma_state library_state, plain_state, expected_state;
    still *graph;
} trio;

static const char *doing;
static call_form last_calls[MOST_CALLS];
static size_t last_count;

static _Noreturn void differ(const trio *t, const char *who, const char *what, uint64_t at, int64_t got, int64_t wanted)
{
    printf("DIFFERENT: %s, seed %" PRIu64 ", %zu words, scheme %u, %s: %s %" PRIu64 " is %" PRId64 ", should be %" PRId64 "\n", who,
           seed_of_trial, t->length, t->expected_state.scheme, doing, what, at, got, wanted);
    for (size_t i = 0; i < last_count; i++) {
        const call_form *c = &last_calls[i];
        printf("  call %zu: %u %u %u %u %u\n", i, c->number, c->a, c->b, c->c, c->d);
    }
    exit(1);
}

static void compare(const trio *t, const char *who, const uint32_t *words, const fusuma_state *state)
{
    const fusuma_state *wanted = &t->expected_state;
    if (memcmp(words, t->expected, (t->length + GUARD) * sizeof *words) != 0)
        for (size_t p = 0; p < t->length + GUARD; p++)
            if (words[p] != t->expected[p])
                differ(t, who, "word", p, words[p], t->expected[p]);
    for (int h = 0; h < 32; h++)
        if (state->handles[h] != wanted->handles[h])
            differ(t, who, "handle", (uint64_t)h, state->handles[h], wanted->handles[h]);
    if (state->low != wanted->low)
        differ(t, who, "low", 0, state->low, wanted->low);
    if (state->high != wanted->high)
        differ(t, who, "high", 0, state->high, wanted->high);
    if (state->limit != wanted->limit)
        differ(t, who, "limit", 0, state->limit, wanted->limit);
    if (state->scheme != wanted->scheme)
        differ(t, who, "scheme", 0, state->scheme, wanted->scheme);
    if (state->phase != wanted->phase)
        differ(t, who, "phase", 0, state->phase, wanted->phase);
    if (state->phase != 0 && state->live != wanted->live)
        differ(t, who, "live words", 0, state->live, wanted->live);
}

static void compare_both(const trio *t)
{
    compare(t, "library", t->library, &t->library_state);
    compare(t, "plain", t->plain, &t->plain_state);
}

static void compare_answer(const trio *t, const char *who, int64_t got, int64_t wanted)
{
    if (got != wanted)
        differ(t, who, "answer", 0, got, wanted);
}

static void compare_answers(const trio *t, int64_t library, int64_t plain, int64_t wanted)
{
    compare_answer(t, "library", library, wanted);
    compare_answer(t, "plain", plain, wanted);
}

static void open_trio(trio *t, size_t length, uint32_t scheme)
{
    t->length = length;
    for (size_t p = 0; p < length + GUARD; p++)
        t->library[p] = t->plain[p] = t->expected[p] = random_word();
    memset(&t->library_state, 0xff, sizeof t->library_state);
    memset(&t->plain_state, 0xff, sizeof t->plain_state);
    t->graph = still_new(length, scheme);
    still_rest(t->graph, t->expected, &t->expected_state);
    doing = "new";
    last_count = 0;
    compare_answers(t, fusuma_new(t->library, length, &t->library_state, 2 + random_word() % 5), plain_new(t->plain, length, &t->plain_state, 7),
                    FUSUMA_NO_SCHEME);
    compare_answers(t, fusuma_new(t->library, length, &t->library_state, scheme), plain_new(t->plain, length, &t->plain_state, scheme),
                    t->expected_state.limit);
    compare_both(t);
}

static uint64_t granted, refused[64], overflows;
static uint32_t most_scans;

static void compare_list(const trio *t, const char *who, size_t i, const answer_form *got, const answer_form *wanted)
{
    if (got->granted != wanted->granted)
        differ(t, who, "granting of call", i, got->granted, wanted->granted);
    if (got->number != wanted->number)
        differ(t, who, "answer to call", i, got->number, wanted->number);
    if (got->position != wanted->position)
        differ(t, who, "position in call", i, got->position, wanted->position);
}

/* Gives the calls up to the end as one list, and tells how many were given: a list may end in part of a call, or have too little room for answers. */
static size_t give(trio *t, const call_form *calls, const call_form *end)
{
    answer_form library[MOST_CALLS], plain[MOST_CALLS], answer;
    size_t count = (size_t)(end - calls);
    size_t calls_length = count * CALL_LENGTH, answers_length = count * ANSWER_LENGTH;
    doing = "a list of calls";
    memcpy(last_calls, calls, count * sizeof *calls);
    last_count = count;
    if (count > 1 && below(16) == 0) {
        if (below(2))
            calls_length -= 1 + below(CALL_LENGTH);
        else
            answers_length -= 1 + below(ANSWER_LENGTH);
        count--;
    }
    compare_answers(t, fusuma_give(t->library, t->length, &t->library_state, (call_list)calls, calls_length, (answer_list)library, answers_length),
                    plain_give(t->plain, t->length, &t->plain_state, (call_list)calls, calls_length, (answer_list)plain, answers_length),
                    (int64_t)count);
    for (size_t i = 0; i < count; i++) {
        still_give(t->graph, &calls[i], &answer);
        compare_list(t, "library", i, &library[i], &answer);
        compare_list(t, "plain", i, &plain[i], &answer);
        if (answer.granted)
            granted++;
        else
            refused[answer.number]++;
    }
    still_rest(t->graph, t->expected, &t->expected_state);
    compare_both(t);
    return count;
}

/* What a heap that is begun or drawn does not take answers -1, and alters nothing. */
static void out_of_turn(trio *t, int begun)
{
    static const call_form num = { FUSUMA_NUM, 0, 1, 0, 0 };
    answer_form answer;
    compare_answers(t, give_list(fusuma_give, t->library, t->length, &t->library_state, &num, 1, &answer),
                    give_list(plain_give, t->plain, t->length, &t->plain_state, &num, 1, &answer), FUSUMA_OUT_OF_TURN);
    compare_answers(t, fusuma_collect(t->library, t->length, &t->library_state), plain_collect(t->plain, t->length, &t->plain_state),
                    FUSUMA_OUT_OF_TURN);
    compare_answers(t, fusuma_begin(t->library, t->length, &t->library_state), plain_begin(t->plain, t->length, &t->plain_state),
                    FUSUMA_OUT_OF_TURN);
    if (!begun) {
        compare_answers(t, fusuma_draw(t->library, t->length, &t->library_state), plain_draw(t->plain, t->length, &t->plain_state),
                        FUSUMA_OUT_OF_TURN);
        compare_answers(t, fusuma_give_up(t->library, t->length, &t->library_state), plain_give_up(t->plain, t->length, &t->plain_state),
                        FUSUMA_OUT_OF_TURN);
    } else {
        compare_answers(t, fusuma_close(t->library, t->length, &t->library_state), plain_close(t->plain, t->length, &t->plain_state),
                        FUSUMA_OUT_OF_TURN);
    }
    compare_both(t);
}

static void by_steps(trio *t, int give_up)
{
    static const call_form collect = { FUSUMA_COLLECT, 0, 0, 0, 0 };
    answer_form answer;
    int64_t live = still_live(t->graph);
    last_count = 0;
    doing = "begin";
    still_begun(t->graph, t->expected, &t->expected_state);
    compare_answers(t, fusuma_begin(t->library, t->length, &t->library_state), plain_begin(t->plain, t->length, &t->plain_state), live);
    compare_both(t);
    out_of_turn(t, 1);
    if (give_up) {
        doing = "give up";
        still_rest(t->graph, t->expected, &t->expected_state);
        compare_answers(t, fusuma_give_up(t->library, t->length, &t->library_state), plain_give_up(t->plain, t->length, &t->plain_state), 0);
        compare_both(t);
        return;
    }
    doing = "draw";
    still_drawn(t->graph, t->expected, &t->expected_state);
    compare_answers(t, fusuma_draw(t->library, t->length, &t->library_state), plain_draw(t->plain, t->length, &t->plain_state), 0);
    compare_both(t);
    out_of_turn(t, 0);
    doing = "close";
    still_give(t->graph, &collect, &answer);
    still_rest(t->graph, t->expected, &t->expected_state);
    compare_answers(t, fusuma_close(t->library, t->length, &t->library_state), plain_close(t->plain, t->length, &t->plain_state), live);
    compare_both(t);
}

/* A collection at once. The other collectors do it too, on copies. */
static void at_once(trio *t)
{
    static const call_form collect = { FUSUMA_COLLECT, 0, 0, 0, 0 };
    static uint32_t once[MOST_LENGTH + GUARD], lisp2[MOST_LENGTH + GUARD], table[16384];
    fusuma_state once_state = t->plain_state, lisp2_state = t->plain_state;
    answer_form answer;
    doing = "collect";
    last_count = 0;
    memcpy(once, t->plain, (t->length + GUARD) * sizeof *once);
    memcpy(lisp2, t->plain, (t->length + GUARD) * sizeof *lisp2);
    still_give(t->graph, &collect, &answer);
    still_rest(t->graph, t->expected, &t->expected_state);
    compare_answers(t, fusuma_collect(t->library, t->length, &t->library_state), plain_collect(t->plain, t->length, &t->plain_state), answer.number);
    compare_both(t);
    compare_answer(t, "lists followed once", plain_collect_once(once, t->length, &once_state), answer.number);
    compare(t, "lists followed once", once, &once_state);
    compare_answer(t, "Lisp2", lisp2_collect(lisp2, t->length, &lisp2_state, table), answer.number);
    compare(t, "Lisp2", lisp2, &lisp2_state);
}

/* Random calls. Most are such that they may be granted; some have one argument just outside of what is taken, or any word at all. */

typedef struct {
    uint32_t scheme, most_fields, most_rule;
    uint32_t making; /* of 100 calls so many make objects */
    uint32_t classes; /* of 100 of those so many make classes */
} taste;

static uint32_t strange_word(void)
{
    static const uint32_t words[] = { 4, 5, 31, 32, 33, 34, 63, 64, 255, 256, 0x1fffffff, 0x20000000, 0x7fffffff, 0x80000000, 0xe0000000,
                                      0xdfffffff, 0xffffffff };
    return below(4) == 0 ? random_word() : words[below(sizeof words / sizeof *words)];
}

/* A handle that holds the kind, if a few looks find one. */
static uint32_t handle_with(const still *g, uint32_t kind)
{
    uint32_t h = below(32);
    for (int looks = 0; looks < 12 && still_kind(g, h) != kind; looks++)
        h = below(32);
    return h;
}

/* Handle 31 is left empty more often than not, so that maps without parents can be made. */
static uint32_t target(void)
{
    return below(20) == 0 ? 31 : below(31);
}

static void random_call(const still *g, const taste *t, call_form *call)
{
    uint32_t *const arguments[4] = { &call->a, &call->b, &call->c, &call->d };
    for (int i = 0; i < 4; i++)
        *arguments[i] = strange_word();
    if (below(100) < t->making) {
        if (below(100) >= t->classes) {
            call->number = FUSUMA_RECORD;
            call->a = target();
            call->b = handle_with(g, 3);
        } else if (below(2)) {
            call->number = FUSUMA_MAP;
            call->a = target();
            call->b = t->scheme == FUSUMA_MASK && below(2) ? random_word() : below(t->most_rule + 1);
            call->c = below(32);
            call->d = below(2) ? 31 : handle_with(g, 4);
        } else {
            call->number = FUSUMA_LAYOUT;
            call->a = target();
            call->b = below(t->most_fields + 1);
            call->c = handle_with(g, 4);
        }
    } else {
        switch (below(22)) {
        case 0:
            call->number = FUSUMA_NUM;
            call->a = target();
            call->b = below(3) ? below(100) - 50 : strange_word();
            break;
        case 1:
            call->number = FUSUMA_CLEAR;
            call->a = target();
            break;
        case 2:
            call->number = FUSUMA_COPY;
            call->a = target();
            call->b = below(32);
            break;
        case 3:
        case 4:
            call->number = FUSUMA_LOAD;
            call->a = target();
            call->b = handle_with(g, 2);
            call->c = below(t->most_fields + 1);
            break;
        case 5:
        case 6:
        case 7:
        case 8:
        case 9:
            call->number = FUSUMA_SAVE;
            call->a = handle_with(g, 2);
            call->b = below(t->most_fields + 1);
            call->c = below(2) ? handle_with(g, 2) : below(32);
            break;
        case 10:
            call->number = FUSUMA_RAWLOAD;
            call->a = handle_with(g, 2);
            call->b = below(t->most_rule + 1);
            break;
        case 11:
            call->number = FUSUMA_RAWSAVE;
            call->a = handle_with(g, 2);
            call->b = below(t->most_rule + 1);
            call->c = below(2) ? below(800) | 2 : random_word();
            break;
        case 12:
            call->number = FUSUMA_KIND;
            call->a = below(32);
            break;
        case 13:
            call->number = FUSUMA_VALUE;
            call->a = handle_with(g, 1);
            break;
        case 14:
            call->number = FUSUMA_SAME;
            call->a = below(32);
            call->b = below(32);
            break;
        case 15:
        case 16:
            call->number = FUSUMA_PART;
            call->a = target();
            call->c = below(4);
            call->b = handle_with(g, call->c == 0 ? 2 : call->c == 1 ? 3 : 4);
            break;
        case 17:
            call->number = FUSUMA_FIGURE;
            call->a = handle_with(g, 2 + below(3));
            break;
        case 18:
            call->number = FUSUMA_RAWS;
            call->a = handle_with(g, 3);
            break;
        case 19:
            call->number = below(3) ? FUSUMA_FILL : FUSUMA_COLLECT;
            break;
        case 20:
            call->number = below(2) ? FUSUMA_STEPPED : FUSUMA_GIVEN_UP;
            break;
        default:
            call->number = below(4) ? below(20) : strange_word();
            for (int i = 0; i < 4; i++)
                *arguments[i] = below(40);
        }
    }
    if (below(24) == 0) {
        uint32_t i = below(4);
        *arguments[i] = strange_word();
    }
}

static call_form *add_call(call_form *next, uint32_t number, uint32_t a, uint32_t b, uint32_t c, uint32_t d)
{
    *next = (call_form){ number, a, b, c, d };
    return next + 1;
}

/* Fills the fields of a record with new ones, and goes on with the last of them: random calls alone make no graph that is wide and deep, in which the
 * pending places run out. */
static size_t burst(trio *t)
{
    enum { ROOT = 10, OWNER, LEAF, OF_MAP, OF_LAYOUT, EMPTY = 31 };
    call_form calls[MOST_CALLS], *next = calls;
    size_t given = 0;
    next = add_call(next, FUSUMA_CLEAR, EMPTY, 0, 0, 0);
    next = add_call(next, FUSUMA_MAP, OF_MAP, below(3), EMPTY, EMPTY);
    next = add_call(next, FUSUMA_LAYOUT, OF_LAYOUT, 1 + below(32), OF_MAP, 0);
    next = add_call(next, FUSUMA_RECORD, OWNER, OF_LAYOUT, 0, 0);
    next = add_call(next, FUSUMA_COPY, ROOT, OWNER, 0, 0);
    given += give(t, calls, next);
    for (int depth = 1 + (int)below(6); depth > 0; depth--) {
        for (uint32_t i = 0; i < 32; i++) {
            next = add_call(calls, FUSUMA_RECORD, LEAF, OF_LAYOUT, 0, 0);
            next = add_call(next, FUSUMA_SAVE, OWNER, i, LEAF, 0);
            if (below(4) == 0)
                next = add_call(next, FUSUMA_SAVE, LEAF, below(32), OWNER, 0);
            given += give(t, calls, next);
        }
        next = add_call(calls, FUSUMA_COPY, OWNER, LEAF, 0, 0);
        given += give(t, calls, next);
    }
    return given;
}

static size_t random_length(void)
{
    switch (below(16)) {
    case 0:
        return below(12);
    case 1:
    case 2:
    case 3:
        return below(60);
    case 4:
    case 5:
        return 300 + below(1700);
    case 6:
        return 16384 - 20 + below(80);
    default:
        return 60 + below(240);
    }
}

void trial(uint64_t seed, uint64_t count)
{
    static trio t;
    uint64_t heaps = 0, given = 0, steps = 0, collections = 0;
    seed_of_trial = seed;
    random_state = seed * 0x9e3779b97f4a7c15u + 0x2545f4914f6cdd1du;
    for (int i = 0; i < 16; i++)
        random_word();
    while (given < count) {
        taste taste;
        taste.scheme = below(2);
        taste.most_fields = below(3) ? 1 + below(8) : 32;
        taste.most_rule = below(3) ? below(4) : 34;
        taste.making = 5 + below(40);
        taste.classes = 5 + below(60);
        open_trio(&t, random_length(), taste.scheme);
        /* A large heap needs many calls to fill up. */
        uint64_t turns = t.length > 2000 ? 3000 : 300 + below(1500);
        if (t.length > 300) {
            taste.making = 40;
            taste.classes = 10;
        }
        heaps++;
        for (uint64_t turn = 0; turn < turns && given < count; turn++) {
            uint32_t kind = below(40);
            if (kind == 0) {
                by_steps(&t, below(3) == 0);
                steps++;
            } else if (kind == 1) {
                at_once(&t);
                collections++;
            } else if (kind == 2 && t.length > 300) {
                given += burst(&t);
            } else {
                call_form calls[MOST_CALLS], *next = calls;
                for (size_t n = 1 + (below(4) == 0 ? below(MOST_CALLS) : 0); n > 0; n--)
                    random_call(t.graph, &taste, next++);
                given += give(&t, calls, next);
            }
            if (plain_scans > 0)
                overflows++;
            if (plain_scans > most_scans)
                most_scans = plain_scans;
            plain_scans = 0;
        }
        still_free(t.graph);
    }
    printf("seed %" PRIu64 ": %" PRIu64 " calls to %" PRIu64 " heaps, %" PRIu64 " granted, refused", seed, given, heaps, granted);
    for (int i = 0; i < 64; i++)
        if (refused[i] > 0)
            printf(" %d: %" PRIu64, i, refused[i]);
    printf("; %" PRIu64 " collections at once, %" PRIu64 " by steps; the pending places ran out %" PRIu64 " times, %u scans at most\n", collections,
           steps, overflows, most_scans);
}

void replay(plan p, const heap *h)
{
    static trio t;
    open_trio(&t, p.length, p.scheme);
    for (size_t i = 0; i < h->count;) {
        size_t n = h->count - i < MOST_CALLS ? h->count - i : MOST_CALLS;
        i += give(&t, h->calls + i, h->calls + i + n);
    }
    doing = "building";
    if (memcmp(t.expected, h->words, p.length * sizeof *h->words) != 0)
        differ(&t, "built heap", "some word", 0, 0, 0);
    by_steps(&t, 1);
    by_steps(&t, 0);
    still_free(t.graph);
}
