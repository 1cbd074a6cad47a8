// The processors and threads of the program in a page: one processor, no thread beside the first.
// So the search starts none, and `serve` says that a thread cannot be started.
#include "types.h"

enum { TRY_AGAIN = 11, NOT_THERE = 38, PROCESSORS_ONLINE = 84 };

extern void rattle_set_errno(int of_call);

number sysconf(int name) {
    return name == PROCESSORS_ONLINE ? 1 : -1;
}

// Which processors there are is told by sysconf alone.
int sched_getaffinity(int process, word size, byte *mask) {
    rattle_set_errno(NOT_THERE);
    return -1;
}

// Waiting for another thread, which there is none of.
number syscall(number call, void *place, number of, number value, void *time, ...) {
    rattle_set_errno(NOT_THERE);
    return -1;
}

// Nor does anything in a page wait until a time.
int clock_gettime(int clock, void *time) {
    rattle_set_errno(NOT_THERE);
    return -1;
}

int sched_yield(void) {
    return 0;
}

int pthread_create(void *thread, void *attributes, void *function, void *argument) {
    return TRY_AGAIN;
}

word pthread_self(void) {
    return 1;
}

int pthread_detach(word thread) {
    return 0;
}

// No thread was started that could be waited for.
int pthread_join(word thread, void *result) {
    __builtin_trap();
}

int pthread_attr_init(void *attributes) {
    return 0;
}

int pthread_attr_setguardsize(void *attributes, word size) {
    return 0;
}

int pthread_attr_setstacksize(void *attributes, word size) {
    return 0;
}

int pthread_attr_destroy(void *attributes) {
    return 0;
}
