/* Calls and answers in the form that lists have in include/fusuma.h. It is told here alone, so that nothing else in this folder depends on it. */
#ifndef FORMS_H
#define FORMS_H

#include "../include/fusuma.h"

typedef fusuma_call call_form;
typedef fusuma_answer answer_form;

/* How much one call, and one answer, adds to the length of a list. */
enum { CALL_LENGTH = 1, ANSWER_LENGTH = 1 };

typedef const fusuma_call *call_list;
typedef fusuma_answer *answer_list;

typedef int64_t giver(uint32_t *words, size_t length, fusuma_state *state, call_list calls, size_t calls_length, answer_list answers,
                      size_t answers_length);

static inline int64_t give_list(giver *give, uint32_t *words, size_t length, fusuma_state *state, const call_form *calls, size_t count,
                                answer_form *answers)
{
    return give(words, length, state, calls, count * CALL_LENGTH, answers, count * ANSWER_LENGTH);
}

#endif
