/* The first calls of a heap in C, as README.md shows them: between the two lines that name it, this file and README.md are the same. */

/* README.md from here */
#include <inttypes.h>
#include <stdio.h>

#include "fusuma.h"

enum { WORDS = 1024, CALLS = 5 };

int main(void)
{
    static uint32_t words[WORDS];
    static const fusuma_call calls[CALLS] = {
        {FUSUMA_MAP, 0, 1, 31, 31},          /* handle 0: a map of rule 1, with no name and no parent */
        {FUSUMA_LAYOUT, 1, 3, 0, 0},         /* handle 1: a layout of three fields, the first of them raw */
        {FUSUMA_RECORD, 2, 1, 0, 0},         /* handle 2: a record of that layout */
        {FUSUMA_NUM, 3, (uint32_t)-7, 0, 0}, /* handle 3: -7, which the record's field 1 then holds */
        {FUSUMA_SAVE, 2, 1, 3, 0},
    };
    fusuma_answer answers[CALLS];
    fusuma_state state;

    fusuma_new(words, WORDS, &state, FUSUMA_PREFIX);
    fusuma_give(words, WORDS, &state, calls, CALLS, answers, CALLS);
    int64_t live = fusuma_collect(words, WORDS, &state);
    printf("%" PRId64 " words are live\n", live);
    return live == 14 ? 0 : 1;
}
/* README.md to here */
