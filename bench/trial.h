/* Random trials: the library, the plain heap and the still graph side by side. */
#ifndef TRIAL_H
#define TRIAL_H

#include "shapes.h"

/* Gives so many random calls, in many heaps, and compares every answer and every word. Ends the program where two differ. */
void trial(uint64_t seed, uint64_t count);

/* Gives the calls that built a heap to the plain heap and the still graph as well, and collects all three by steps. */
void replay(plan p, const heap *h);

#endif
