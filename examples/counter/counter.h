/* A counter modulo 3 of four threads. It is wait-free: a call ends after a bounded number of steps
 * of its own thread, wherever the others stop. */
#ifndef COUNTER_H
#define COUNTER_H
#include <stdbool.h>

struct counter;

/* A counter that is 0, or null if memory is out; and its end. Threads are 0 to 3. */
struct counter *counter_new(void);
void counter_free(struct counter *counter);

/* Adds 1 for a thread, and stores the count before. If another thread has been idle for long, the
 * answer is false until that one catches up. */
bool counter_increment(struct counter *counter, unsigned thread, unsigned *count);

/* For a thread that has been idle. */
bool counter_catch_up(struct counter *counter, unsigned thread);

/* For a thread that makes no more calls: it holds the others up no longer. */
void counter_leave(struct counter *counter, unsigned thread);

#endif
