/* Measures the library beside the plain heap: collections and calls, by time and by instructions. Nothing is measured before all have been found to give
 * the same words and answers.
 *
 *   bench                              check, then print the tables of times
 *   bench --check                      check only
 *   bench --trial SEED COUNT           random calls to the library, the plain heap and the still graph
 *   bench --list                       the names of what can be measured
 *   bench --once NAME CONFIG COUNT     one kind of work on one heap, so many times
 *   bench --count                      each kind of work once, in a fixed order: to be run under callgrind
 *   bench --table PREFIX               the tables of instructions, from the files that callgrind wrote during --count
 */
#define _POSIX_C_SOURCE 199309L /* for clock_gettime */

#include "plain.h"
#include "shapes.h"
#include "still.h"
#include "trial.h"

#include <inttypes.h>
#include <stdio.h>
#include <stdlib.h>
#include <string.h>
#include <time.h>

enum { MOST_WORDS = 16384 };

/* Collectors */

static int64_t library_steps(uint32_t *words, size_t length, fusuma_state *state)
{
    fusuma_begin(words, length, state);
    fusuma_draw(words, length, state);
    return fusuma_close(words, length, state);
}

static int64_t library_mark(uint32_t *words, size_t length, fusuma_state *state)
{
    int64_t live = fusuma_begin(words, length, state);
    fusuma_give_up(words, length, state);
    return live;
}

static int64_t plain_mark(uint32_t *words, size_t length, fusuma_state *state)
{
    int64_t live = plain_begin(words, length, state);
    plain_give_up(words, length, state);
    return live;
}

static int64_t lisp2(uint32_t *words, size_t length, fusuma_state *state)
{
    static uint32_t table[MOST_WORDS];
    return lisp2_collect(words, length, state, table);
}

typedef struct {
    const char *name;
    int64_t (*run)(uint32_t *words, size_t length, fusuma_state *state);
    int packs; /* or leaves the words as they were */
} collector;

enum { VERIFIED, STEPS, PLAIN, ONCE, TESTED, LISP2, MARK, PLAIN_MARK, COLLECTORS };

static const collector collectors[COLLECTORS] = {
    { "verified", fusuma_collect, 1 },   { "steps", library_steps, 1 }, { "plain", plain_collect, 1 },        { "once", plain_collect_once, 1 },
    { "tested", tested_collect, 1 },     { "lisp2", lisp2, 1 },         { "mark", library_mark, 0 },          { "plain-mark", plain_mark, 0 },
};

/* Lists of one call. The heap that they are given to has a map in handle 0, a layout of four fields in 1, of which the first is raw, records of it in 2 to 9,
 * numbers in 10 to 17, and a map with a name and a parent in 18. */

enum { LIST = 1000, FILLS = 20 };

typedef struct {
    const char *name;
    const char *title;
    uint32_t number;
    uint32_t args[4];  /* the first call's */
    uint32_t turns[4]; /* after so many calls the argument is the first call's again */
    plan plan;         /* the heap; shape CALLS stands for the one told above */
    uint32_t count;
} list;

enum { CALLS = SHAPES };

#define SMALL_HEAP { CALLS, MOST_WORDS, 0, 0 }

static const list lists[] = {
    { "num", "num", FUSUMA_NUM, { 20, 5, 0, 0 }, { 8, 100, 1, 1 }, SMALL_HEAP, LIST },
    { "clear", "clear", FUSUMA_CLEAR, { 20, 0, 0, 0 }, { 8, 1, 1, 1 }, SMALL_HEAP, LIST },
    { "copy", "copy", FUSUMA_COPY, { 20, 0, 0, 0 }, { 8, 20, 1, 1 }, SMALL_HEAP, LIST },
    { "map", "map", FUSUMA_MAP, { 20, 0, 10, 18 }, { 8, 4, 8, 1 }, SMALL_HEAP, LIST },
    { "layout", "layout", FUSUMA_LAYOUT, { 20, 0, 0, 0 }, { 8, 8, 1, 1 }, SMALL_HEAP, LIST },
    { "record", "record", FUSUMA_RECORD, { 20, 1, 0, 0 }, { 8, 1, 1, 1 }, SMALL_HEAP, LIST },
    { "load", "load", FUSUMA_LOAD, { 20, 2, 1, 0 }, { 8, 8, 3, 1 }, SMALL_HEAP, LIST },
    { "save", "save", FUSUMA_SAVE, { 2, 1, 10, 0 }, { 8, 3, 8, 1 }, SMALL_HEAP, LIST },
    { "rawload", "rawload", FUSUMA_RAWLOAD, { 2, 0, 0, 0 }, { 8, 1, 1, 1 }, SMALL_HEAP, LIST },
    { "rawsave", "rawsave", FUSUMA_RAWSAVE, { 2, 0, 7, 0 }, { 8, 1, 99, 1 }, SMALL_HEAP, LIST },
    { "kind", "kind", FUSUMA_KIND, { 0, 0, 0, 0 }, { 19, 1, 1, 1 }, SMALL_HEAP, LIST },
    { "value", "value", FUSUMA_VALUE, { 10, 0, 0, 0 }, { 8, 1, 1, 1 }, SMALL_HEAP, LIST },
    { "same", "same", FUSUMA_SAME, { 0, 0, 0, 0 }, { 19, 7, 1, 1 }, SMALL_HEAP, LIST },
    { "part", "part (of a record)", FUSUMA_PART, { 20, 2, 0, 0 }, { 8, 8, 1, 1 }, SMALL_HEAP, LIST },
    { "part-map", "part (of a map)", FUSUMA_PART, { 20, 18, 2, 0 }, { 8, 1, 2, 1 }, SMALL_HEAP, LIST },
    { "figure", "figure", FUSUMA_FIGURE, { 0, 0, 0, 0 }, { 10, 1, 1, 1 }, SMALL_HEAP, LIST },
    { "raws", "raws", FUSUMA_RAWS, { 1, 0, 0, 0 }, { 1, 1, 1, 1 }, SMALL_HEAP, LIST },
    { "refused", "load, refused with 23", FUSUMA_LOAD, { 20, 2, 0, 0 }, { 8, 8, 1, 1 }, SMALL_HEAP, LIST },
    { "fill", "fill of 1,024 words, half live", FUSUMA_FILL, { 0, 0, 0, 0 }, { 1, 1, 1, 1 }, { CHAINS, 1024, 50, 0 }, FILLS },
    { "churn", "record with its share of collections, 4,096 words, half live", FUSUMA_RECORD, { 3, 7, 0, 0 }, { 1, 1, 1, 1 }, { CHAINS, 4096, 50, 0 },
      2 * LIST },
};

enum { LISTS = sizeof lists / sizeof *lists, MOST_CALLS = 2 * LIST };

static heap build_for_calls(plan p)
{
    call_form calls[32] = { { FUSUMA_MAP, 0, 1, 31, 31 }, { FUSUMA_LAYOUT, 1, 4, 0, 0 } };
    answer_form answers[32];
    size_t count = 2;
    for (uint32_t i = 0; i < 8; i++) {
        calls[count++] = (call_form){ FUSUMA_RECORD, 2 + i, 1, 0, 0 };
        calls[count++] = (call_form){ FUSUMA_NUM, 10 + i, 100 * i, 0, 0 };
        calls[count++] = (call_form){ FUSUMA_SAVE, 2 + i, 2, 2 + i / 2, 0 };
    }
    calls[count++] = (call_form){ FUSUMA_MAP, 18, 1, 3, 0 };
    heap h = { .words = malloc(p.length * sizeof *h.words), .calls = malloc(sizeof calls), .count = count };
    if (h.words == NULL || h.calls == NULL || fusuma_new(h.words, p.length, &h.state, p.scheme) != p.length)
        exit(1);
    memcpy(h.calls, calls, sizeof calls);
    give_list(fusuma_give, h.words, p.length, &h.state, calls, count, answers);
    return h;
}

static heap build_any(plan p)
{
    return p.shape == CALLS ? build_for_calls(p) : build(p);
}

static void fill_list(const list *l, call_form *calls)
{
    for (uint32_t i = 0; i < l->count; i++)
        calls[i] = (call_form){ l->number, l->args[0] + i % l->turns[0], l->args[1] + i % l->turns[1], l->args[2] + i % l->turns[2],
                                l->args[3] + i % l->turns[3] };
}

/* One piece of work that is measured: a collection, or a list of calls. */
typedef struct {
    const collector *collector;
    giver *give;
    const call_form *calls;
    size_t count;
    uint32_t *words;
    size_t length;
    fusuma_state *state;
    answer_form *answers;
    int64_t answer;
} work;

/* Callgrind is told to look at this function alone, so it has to stay one: it is called by a pointer that the compiler cannot see through. */
void measured(work *w)
{
    if (w->collector != NULL)
        w->answer = w->collector->run(w->words, w->length, w->state);
    else
        w->answer = give_list(w->give, w->words, w->length, w->state, w->calls, w->count, w->answers);
}

static void (*volatile measure_work)(work *w) = measured;

/* Checks */

static void config_name(plan p, char *name)
{
    sprintf(name, "%s/%u/%u/%s", shape_names[p.shape], p.length, p.share, p.scheme == FUSUMA_MASK ? "mask" : "prefix");
}

static _Noreturn void differ(const char *config, const char *who, const char *what, uint64_t at)
{
    printf("DIFFERENT: %s on %s: %s %" PRIu64 "\n", who, config, what, at);
    exit(1);
}

static void compare(const char *config, const char *who, size_t length, const uint32_t *words, const fusuma_state *state, const uint32_t *wanted,
                    const fusuma_state *wanted_state)
{
    for (size_t p = 0; p < length; p++)
        if (words[p] != wanted[p])
            differ(config, who, "word", p);
    for (int h = 0; h < 32; h++)
        if (state->handles[h] != wanted_state->handles[h])
            differ(config, who, "handle", (uint64_t)h);
    if (state->low != wanted_state->low || state->high != wanted_state->high)
        differ(config, who, "the ends of the sides", 0);
    if (state->phase != wanted_state->phase || state->limit != wanted_state->limit || state->scheme != wanted_state->scheme)
        differ(config, who, "the state", 0);
}

/* A collector that packs leaves the words of the still graph, and one that gives up those of before. */
static void check_heap(plan p, const heap *h)
{
    static uint32_t words[MOST_WORDS], packed[MOST_WORDS];
    static const call_form collect = { FUSUMA_COLLECT, 0, 0, 0, 0 };
    fusuma_state state, packed_state;
    answer_form answer;
    char config[64];
    config_name(p, config);
    still *graph = still_new(p.length, p.scheme);
    for (size_t i = 0; i < h->count; i++)
        still_give(graph, &h->calls[i], &answer);
    still_rest(graph, packed, &packed_state);
    compare(config, "building", p.length, h->words, &h->state, packed, &packed_state);
    still_give(graph, &collect, &answer);
    still_rest(graph, packed, &packed_state);
    for (int c = 0; c < COLLECTORS; c++) {
        const collector *k = &collectors[c];
        memcpy(words, h->words, p.length * sizeof *words);
        state = h->state;
        if (k->run(words, p.length, &state) != answer.number)
            differ(config, k->name, "the live words", 0);
        compare(config, k->name, p.length, words, &state, k->packs ? packed : h->words, k->packs ? &packed_state : &h->state);
    }
    still_free(graph);
}

static void check_list(const list *l, uint32_t scheme)
{
    static uint32_t words[MOST_WORDS], wanted[MOST_WORDS];
    static call_form calls[MOST_CALLS];
    static answer_form answers[MOST_CALLS], wanted_answers[MOST_CALLS];
    static giver *const givers[2] = { fusuma_give, plain_give };
    static const char *const who[2] = { "verified", "plain" };
    fusuma_state state, wanted_state;
    plan p = l->plan;
    p.scheme = scheme;
    heap h = build_any(p);
    fill_list(l, calls);
    still *graph = still_new(p.length, p.scheme);
    for (size_t i = 0; i < h.count; i++)
        still_give(graph, &h.calls[i], answers);
    for (size_t i = 0; i < l->count; i++)
        still_give(graph, &calls[i], &wanted_answers[i]);
    still_rest(graph, wanted, &wanted_state);
    for (int g = 0; g < 2; g++) {
        memcpy(words, h.words, p.length * sizeof *words);
        state = h.state;
        if (give_list(givers[g], words, p.length, &state, calls, l->count, answers) != l->count)
            differ(l->name, who[g], "the number of calls", l->count);
        for (size_t i = 0; i < l->count; i++) {
            if (answers[i].granted != wanted_answers[i].granted || answers[i].number != wanted_answers[i].number ||
                answers[i].position != wanted_answers[i].position)
                differ(l->name, who[g], "the answer to call", i);
            if ((answers[i].granted == 1) != (strcmp(l->name, "refused") != 0))
                differ(l->name, who[g], "an unplanned refusal of call", i);
        }
        compare(l->name, who[g], p.length, words, &state, wanted, &wanted_state);
    }
    still_free(graph);
    unbuild(h);
}

/* Plans: every shape in every size and share under PREFIX, and the middle share under MASK. */

static const uint32_t sizes[] = { 256, 1024, 4096, 16384 };
static const uint32_t shares[] = { 10, 50, 90 };

enum { PLANS = SHAPES * 4 * 4 };

static plan plan_number(int i)
{
    plan p = { .shape = i / 16, .length = sizes[i / 4 % 4] };
    p.share = i % 4 < 3 ? shares[i % 4] : 50;
    p.scheme = i % 4 < 3 ? FUSUMA_PREFIX : FUSUMA_MASK;
    return p;
}

static void check_all(void)
{
    for (int shape = 0; shape < SHAPES; shape++)
        for (int size = 0; size < 4; size++)
            for (int share = 0; share < 3; share++)
                for (uint32_t scheme = 0; scheme < 2; scheme++) {
                    plan p = { shape, sizes[size], shares[share], scheme };
                    heap h = build(p);
                    check_heap(p, &h);
                    replay(p, &h);
                    unbuild(h);
                }
    for (int l = 0; l < LISTS; l++)
        for (uint32_t scheme = 0; scheme < 2; scheme++)
            check_list(&lists[l], scheme);
}

/* Times */

static double now(void)
{
    struct timespec t;
    clock_gettime(CLOCK_MONOTONIC, &t);
    return (double)t.tv_sec * 1e9 + (double)t.tv_nsec;
}

enum { ROUNDS = 100, CALL_ROUNDS = 400 };

/* The least time of a collection, in nanoseconds, for each collector. Small heaps are collected as many at once as fill the words of the largest, and are
 * put back outside of the time that is taken. The collectors take turns, so that what else the machine does hits all of them. */
static void time_heap(plan p, const heap *h, double *least)
{
    static uint32_t words[MOST_WORDS];
    static fusuma_state states[MOST_WORDS / 256];
    size_t copies = MOST_WORDS / p.length;
    for (int c = 0; c < COLLECTORS; c++)
        least[c] = 1e18;
    for (int round = 0; round < ROUNDS; round++) {
        for (int c = 0; c < COLLECTORS; c++) {
            for (size_t i = 0; i < copies; i++) {
                memcpy(words + i * p.length, h->words, p.length * sizeof *words);
                states[i] = h->state;
            }
            work w = { .collector = &collectors[c], .length = p.length };
            double start = now();
            for (size_t i = 0; i < copies; i++) {
                w.words = words + i * p.length;
                w.state = &states[i];
                measure_work(&w);
            }
            double taken = (now() - start) / (double)copies;
            if (taken < least[c])
                least[c] = taken;
        }
    }
}

/* The least time of a call in nanoseconds, through the library and through the plain heap. */
static void time_list(const list *l, uint32_t scheme, double *least)
{
    static uint32_t words[MOST_WORDS];
    static call_form calls[MOST_CALLS];
    static answer_form answers[MOST_CALLS];
    static giver *const givers[2] = { fusuma_give, plain_give };
    fusuma_state state;
    plan p = l->plan;
    p.scheme = scheme;
    heap h = build_any(p);
    fill_list(l, calls);
    least[0] = least[1] = 1e18;
    for (int round = 0; round < CALL_ROUNDS; round++) {
        for (int g = 0; g < 2; g++) {
            memcpy(words, h.words, p.length * sizeof *words);
            state = h.state;
            work w = { NULL, givers[g], calls, l->count, words, p.length, &state, answers, 0 };
            double start = now();
            measure_work(&w);
            double taken = (now() - start) / l->count;
            if (taken < least[g])
                least[g] = taken;
        }
    }
    unbuild(h);
}

/* Instructions. The same two functions as above in form: the work is done once in this order under callgrind, which writes one file for each piece; later
 * the files are read in the same order. */

static const char *files; /* what their names begin with; none while the work is done */
static int file_number;

static double instructions(void)
{
    char name[512], line[512];
    double total = -1;
    snprintf(name, sizeof name, "%s.%d", files, ++file_number);
    FILE *file = fopen(name, "r");
    if (file == NULL) {
        fprintf(stderr, "bench: no file %s\n", name);
        exit(1);
    }
    while (fgets(line, sizeof line, file) != NULL)
        if (strncmp(line, "totals:", 7) == 0)
            total = strtod(line + 7, NULL);
    fclose(file);
    if (total < 0) {
        fprintf(stderr, "bench: no total in %s\n", name);
        exit(1);
    }
    return total;
}

/* More files than pieces of work would mean that figures stand in the wrong rows. */
static void end_of_files(void)
{
    char name[512];
    snprintf(name, sizeof name, "%s.%d", files, file_number + 1);
    FILE *file = fopen(name, "r");
    if (file != NULL) {
        fprintf(stderr, "bench: %s is one file too many\n", name);
        exit(1);
    }
}

static double count_or_read(work *w)
{
    if (files != NULL)
        return instructions();
    measure_work(w);
    return 0;
}

static void count_heap(plan p, const heap *h, double *counts)
{
    static uint32_t words[MOST_WORDS];
    for (int c = 0; c < COLLECTORS; c++) {
        fusuma_state state = h->state;
        memcpy(words, h->words, p.length * sizeof *words);
        work w = { .collector = &collectors[c], .words = words, .length = p.length, .state = &state };
        counts[c] = count_or_read(&w);
    }
}

static void count_list(const list *l, uint32_t scheme, double *counts)
{
    static uint32_t words[MOST_WORDS];
    static call_form calls[MOST_CALLS];
    static answer_form answers[MOST_CALLS];
    static giver *const givers[2] = { fusuma_give, plain_give };
    plan p = l->plan;
    p.scheme = scheme;
    heap h = build_any(p);
    fill_list(l, calls);
    for (int g = 0; g < 2; g++) {
        fusuma_state state = h.state;
        memcpy(words, h.words, p.length * sizeof *words);
        work w = { NULL, givers[g], calls, l->count, words, p.length, &state, answers, 0 };
        counts[g] = count_or_read(&w) / l->count;
    }
    unbuild(h);
}

/* Tables */

/* A whole number with its thousands set apart. */
static void print_whole(double x)
{
    char digits[32];
    int length = snprintf(digits, sizeof digits, "%.0f", x);
    for (int i = 0; i < length; i++) {
        putchar(digits[i]);
        if ((length - 1 - i) % 3 == 0 && i < length - 1)
            putchar(',');
    }
}

static void print_heaps(void (*measure)(plan, const heap *, double *), const char *unit, double scale, int decimals)
{
    static const int columns[COLLECTORS] = { VERIFIED, STEPS, PLAIN, ONCE, TESTED, LISP2, MARK, PLAIN_MARK };
    printf("| shape | scheme | words | live %% | scans | verified | verified, by steps | plain | plain, lists once | plain, tested | Lisp2 | verified ÷ plain | "
           "verified ÷ tested | verified ÷ Lisp2 | marking verified | marking plain | ÷ |\n");
    printf("|---|---|--:|--:|--:|--:|--:|--:|--:|--:|--:|--:|--:|--:|--:|--:|--:|\n");
    for (int i = 0; i < PLANS; i++) {
        plan p = plan_number(i);
        heap h = build(p);
        double taken[COLLECTORS];
        int64_t live = plain_mark(h.words, p.length, &h.state);
        uint32_t scans = plain_scans;
        measure(p, &h, taken);
        unbuild(h);
        printf("| %s | %s | ", shape_names[p.shape], p.scheme == FUSUMA_MASK ? "MASK" : "PREFIX");
        print_whole(p.length);
        printf(" | %.0f | %u", 100.0 * (double)live / p.length, scans);
        for (int c = 0; c < COLLECTORS; c++) {
            if (c == MARK)
                printf(" | %.2f | %.2f | %.2f", taken[VERIFIED] / taken[PLAIN], taken[VERIFIED] / taken[TESTED], taken[VERIFIED] / taken[LISP2]);
            printf(" | ");
            if (decimals > 0)
                printf("%.*f", decimals, taken[columns[c]] / scale);
            else
                print_whole(taken[columns[c]] / scale);
        }
        printf(" | %.2f |\n", taken[MARK] / taken[PLAIN_MARK]);
    }
    printf("\nEach figure is %s. The heaps are full; live %% is the share of live words. Scans are those that marking needs because its 64 pending places ran "
           "out. Plain follows a list to its header and then renews it; \"lists once\" takes the tag from the side and follows it once; \"tested\" is plain "
           "with a test of each place and size, safe on any content. Lisp2 has a table beside the heap of as many words. Marking is begin and give up.\n",
           unit);
}

static void print_lists(void (*measure)(const list *, uint32_t, double *), const char *unit)
{
    printf("| call | verified, PREFIX | plain, PREFIX | ÷ | verified, MASK | plain, MASK | ÷ |\n");
    printf("|---|--:|--:|--:|--:|--:|--:|\n");
    for (int l = 0; l < LISTS; l++) {
        printf("| %s", lists[l].title);
        for (uint32_t scheme = 0; scheme < 2; scheme++) {
            double taken[2];
            measure(&lists[l], scheme, taken);
            printf(" | %.1f | %.1f | %.2f", taken[0], taken[1], taken[0] / taken[1]);
        }
        printf(" |\n");
    }
    printf("\nEach figure is %s.\n", unit);
}

/* One kind of work */

static int find_plan(const char *config, plan *p)
{
    char name[64];
    for (int shape = 0; shape < SHAPES; shape++)
        for (int size = 0; size < 4; size++)
            for (int share = 0; share < 3; share++)
                for (uint32_t scheme = 0; scheme < 2; scheme++) {
                    *p = (plan){ shape, sizes[size], shares[share], scheme };
                    config_name(*p, name);
                    if (strcmp(name, config) == 0)
                        return 1;
                }
    return 0;
}

static int find_list(const char *config, const list **l, uint32_t *scheme)
{
    char name[64];
    for (int i = 0; i < LISTS; i++)
        for (*scheme = 0; *scheme < 2; ++*scheme) {
            sprintf(name, "%s/%s", lists[i].name, *scheme == FUSUMA_MASK ? "mask" : "prefix");
            *l = &lists[i];
            if (strcmp(name, config) == 0)
                return 1;
        }
    return 0;
}

static int once(const char *name, const char *config, uint64_t count)
{
    static uint32_t words[MOST_WORDS];
    static call_form calls[MOST_CALLS];
    static answer_form answers[MOST_CALLS];
    fusuma_state state;
    work w = { .words = words, .state = &state, .calls = calls, .answers = answers };
    plan p;
    const list *l;
    uint32_t scheme;
    if (find_plan(config, &p)) {
        for (int c = 0; c < COLLECTORS; c++)
            if (strcmp(collectors[c].name, name) == 0)
                w.collector = &collectors[c];
    } else if (find_list(config, &l, &scheme)) {
        p = l->plan;
        p.scheme = scheme;
        fill_list(l, calls);
        w.count = l->count;
        if (strcmp(name, "verified") == 0)
            w.give = fusuma_give;
        else if (strcmp(name, "plain") == 0)
            w.give = plain_give;
    }
    /* `none` only puts the heap back, for those who take differences. */
    int none = strcmp(name, "none") == 0;
    if (!none && w.collector == NULL && w.give == NULL) {
        fprintf(stderr, "bench: no work %s on %s; bench --list tells the names\n", name, config);
        return 2;
    }
    heap h = build_any(p);
    w.length = p.length;
    for (uint64_t i = 0; i < count; i++) {
        memcpy(words, h.words, p.length * sizeof *words);
        state = h.state;
        if (!none)
            measure_work(&w);
    }
    unbuild(h);
    return 0;
}

static void print_names(void)
{
    char name[64];
    printf("work on heaps:");
    for (int c = 0; c < COLLECTORS; c++)
        printf(" %s", collectors[c].name);
    printf("\nwork on lists of calls: verified plain\nheaps:\n");
    for (int shape = 0; shape < SHAPES; shape++)
        for (int size = 0; size < 4; size++)
            for (int share = 0; share < 3; share++)
                for (uint32_t scheme = 0; scheme < 2; scheme++) {
                    config_name((plan){ shape, sizes[size], shares[share], scheme }, name);
                    printf("  %s\n", name);
                }
    printf("lists of calls, each /prefix and /mask:\n");
    for (int l = 0; l < LISTS; l++)
        printf("  %s (%u calls)\n", lists[l].name, lists[l].count);
}

int main(int count, char **words)
{
    if (count == 4 && strcmp(words[1], "--trial") == 0) {
        trial(strtoull(words[2], NULL, 10), strtoull(words[3], NULL, 10));
    } else if (count == 5 && strcmp(words[1], "--once") == 0) {
        return once(words[2], words[3], strtoull(words[4], NULL, 10));
    } else if (count == 2 && strcmp(words[1], "--list") == 0) {
        print_names();
    } else if (count == 2 && strcmp(words[1], "--check") == 0) {
        check_all();
        printf("all collectors give the same words on all heaps, and all lists the same answers\n");
    } else if (count == 2 && strcmp(words[1], "--count") == 0) {
        print_heaps(count_heap, "nothing", 1, 0);
        print_lists(count_list, "nothing");
    } else if (count == 3 && strcmp(words[1], "--table") == 0) {
        files = words[2];
        printf("### Collections, by instructions\n\n");
        print_heaps(count_heap, "the instructions of one collection", 1, 0);
        printf("\n### Calls, by instructions\n\n");
        print_lists(count_list, "the instructions of one call");
        end_of_files();
    } else if (count == 1) {
        check_all();
        printf("### Collections, by time\n\n");
        print_heaps(time_heap, "the least time of one collection in microseconds", 1000, 2);
        printf("\n### Calls, by time\n\n");
        print_lists(time_list, "the least time of one call in nanoseconds, in a list of many");
    } else {
        fprintf(stderr, "usage: bench [--check | --trial SEED COUNT | --list | --once NAME CONFIG COUNT | --count | --table PREFIX]\n");
        return 2;
    }
    return 0;
}
