/* A heap that packs itself, for C: records, layouts and maps in the caller's words, and 32 handles.
 *
 * The library is built by `rt lib` in crates/clib, which writes crates/clib/out/libclib.a. What the calls do, when they are refused and
 * which words they leave is in docs/HEAP.md. This page says how to use them from C.
 *
 * Rules of use
 * - The caller owns the words and the state. Both stay where they are put and are altered by no one else while a heap is in use, and
 *   they do not overlap. Every function is given the same words, of the same length, that `fusuma_new` was given. A length may be 0, that
 *   of a list of calls or of answers too, and NULL may stand for what has length 0.
 * - A heap uses the first 16,384 of the words at the most. Those behind stay as they are, as long as these functions alone wrote the
 *   words and the state. Where anyone else altered one of them, a call may reach the words behind too, as a `load` or `save` through a
 *   reference that leads there, and what it answers is not said; but no function reads or writes outside the words, the state and the
 *   lists that it is given, and each returns.
 * - The state is the heap's own: make it by `fusuma_new`, which may be called in any phase and forgets what was there, and alter nothing in it.
 * - A function that is called out of turn, an empty list of calls too, answers FUSUMA_OUT_OF_TURN: after begin only draw or give up may follow,
 *   after draw only close. One whose scheme is neither of the two answers FUSUMA_NO_SCHEME, in whichever phase. Both alter nothing: the words, the state and the
 *   answers stay as they are.
 * - No function allocates, calls back or keeps anything of its own. Two heaps may be used side by side, by two threads too.
 */
#ifndef FUSUMA_H
#define FUSUMA_H

#include <stddef.h>
#include <stdint.h>

#ifdef __cplusplus
extern "C" {
#endif

/* What a heap is between two calls, beside its words. */
typedef struct fusuma_state {
    uint32_t scheme;      /* FUSUMA_PREFIX or FUSUMA_MASK */
    uint32_t phase;       /* 0 resting, 1 begun, 2 drawn */
    uint32_t low;         /* where the records end */
    uint32_t high;        /* where the classes begin */
    uint32_t limit;       /* how many words the heap uses */
    uint32_t live;        /* while begun or drawn: the live words; at rest it says nothing */
    uint32_t handles[32]; /* the handles' words */
} fusuma_state;

/* Which fields of a record are raw, by the rule of its map: the first so many, or those whose bit is set. */
enum { FUSUMA_PREFIX = 0, FUSUMA_MASK = 1 };

/* Answers of a function that was not carried out; all others are 0 or more. */
enum {
    FUSUMA_OUT_OF_TURN = -1, /* the heap is not in the phase that the function asks for */
    FUSUMA_NO_SCHEME = -2    /* the scheme is neither of the two */
};

/* A call: its number, then its arguments from the left; those that it does not use are not looked at. The number n of `num` is a signed word. */
typedef struct fusuma_call {
    uint32_t number;
    uint32_t a, b, c, d;
} fusuma_call;

/* The first eighteen are the calls of docs/HEAP.md in its order; the last two are a collection by steps, and one that is begun and given up. */
enum {
    FUSUMA_NUM, FUSUMA_CLEAR, FUSUMA_COPY, FUSUMA_MAP, FUSUMA_LAYOUT, FUSUMA_RECORD, FUSUMA_LOAD, FUSUMA_SAVE, FUSUMA_RAWLOAD,
    FUSUMA_RAWSAVE, FUSUMA_KIND, FUSUMA_VALUE, FUSUMA_SAME, FUSUMA_PART, FUSUMA_FIGURE, FUSUMA_RAWS, FUSUMA_COLLECT, FUSUMA_FILL,
    FUSUMA_STEPPED, FUSUMA_GIVEN_UP
};

/* An answer. A call number that stands for no call is refused with 43 at 0. */
typedef struct fusuma_answer {
    uint32_t granted;  /* 1 if the call was granted, else 0 */
    uint32_t position; /* of the argument that was refused, from 1; 0 if there is none */
    int64_t number;    /* the call's answer, or the number of its refusal */
} fusuma_answer;

/* A new heap over the words: 0 in each that it uses, and empty handles. Answers how many words it uses. */
int64_t fusuma_new(uint32_t *words, size_t length, fusuma_state *state, uint32_t scheme);

/* Gives a list of calls to a resting heap, one after another, and writes their answers. Answers how many calls it gave: as many as there are,
 * and as have room for their answer. */
int64_t fusuma_give(uint32_t *words, size_t length, fusuma_state *state, const fusuma_call *calls, size_t calls_length, fusuma_answer *answers,
                    size_t answers_length);

/* A whole collection of a resting heap. Answers the live words. */
int64_t fusuma_collect(uint32_t *words, size_t length, fusuma_state *state);

/* A collection by steps: begin, then draw, then close; or begin, then give up. `fusuma_begin` and `fusuma_close` answer the live words, the others 0. */
int64_t fusuma_begin(uint32_t *words, size_t length, fusuma_state *state);
int64_t fusuma_draw(uint32_t *words, size_t length, fusuma_state *state);
int64_t fusuma_close(uint32_t *words, size_t length, fusuma_state *state);
int64_t fusuma_give_up(uint32_t *words, size_t length, fusuma_state *state);

#ifdef __cplusplus
}
#endif

#endif
