/* Refuses allocations of a program, or the start of one of its threads: loaded before the C library
   by LD_PRELOAD, as tests/system/memory/run does.
     REFUSE       the number of the call of malloc, calloc or realloc that is refused, counted from 1
     REFUSE_ALL   where it is set, so are all calls after it
     REFUSE_START the number of the call of pthread_create that is refused
     REFUSE_WORDS where it is set, the program itself says what is refused, by calls of malloc for a
                  size that is a word (below)
     REFUSE_TELL  where a byte goes for the first refusal, since the last word if there are words: 'p'
                  where the program itself asked, 'l' where a library did, 't' for a thread; and 'w'
                  for a word by which something is refused */
#define _GNU_SOURCE
#include <dlfcn.h>
#include <errno.h>
#include <pthread.h>
#include <stdlib.h>
#include <string.h>
#include <unistd.h>

extern void *__libc_malloc(size_t);
extern void *__libc_calloc(size_t, size_t);
extern void *__libc_realloc(void *, size_t);
extern char **environ;

static long number(const char *name) {
    size_t length = strlen(name);
    for (char **it = environ; it && *it; it++)
        if (!strncmp(*it, name, length) && (*it)[length] == '=') return atol(*it + length + 1);
    return -1;
}

static long calls = 0, starts = 0, told = 0;

static void tell(char who) {
    long where = number("REFUSE_TELL");
    if (where >= 0 && !__atomic_exchange_n(&told, 1, __ATOMIC_SEQ_CST) && write(where, &who, 1) != 1) abort();
}

/* The words, as crates/cn_base_tests/src/refused.rt has them: with ONE + n bytes call n from there on is
   refused, with ALL + n all behind it are too, and with NONE no more are. A word by which something is
   refused is refused itself, to show that it is heard; and so is NONE, where something was. */
enum { ONE = 1234000, ALL = 1235000, NONE = 1236000 };

static long refuse = -2, all, words;
static int was_refused;

static void begin(void) {
    all = number("REFUSE_ALL") >= 0;
    words = number("REFUSE_WORDS") >= 0;
    refuse = number("REFUSE");
}

static int is_word(size_t size) { return words && size > ONE && size <= NONE && size != ALL; }

static int hear(size_t size) {
    int answer = size == NONE ? was_refused : 1;
    refuse = size == NONE ? -1 : (long)(size % 1000);
    all = size > ALL;
    calls = told = was_refused = 0;
    if (size != NONE) {
        tell('w');
        told = 0;
    }
    return answer;
}

static int refused(size_t size, void *caller) {
    if (refuse == -2) begin();
    if (is_word(size)) return hear(size);
    if (refuse < 0) return 0;
    long now = __atomic_add_fetch(&calls, 1, __ATOMIC_SEQ_CST);
    if (now != refuse && !(all && now > refuse)) return 0;
    Dl_info asked;
    __atomic_store_n(&was_refused, 1, __ATOMIC_SEQ_CST);
    tell(dladdr(caller, &asked) && !strstr(asked.dli_fname, ".so") ? 'p' : 'l');
    errno = ENOMEM;
    return 1;
}

void *malloc(size_t size) { return refused(size, __builtin_return_address(0)) ? 0 : __libc_malloc(size); }

void *calloc(size_t count, size_t size) {
    return refused(count * size, __builtin_return_address(0)) ? 0 : __libc_calloc(count, size);
}

void *realloc(void *old, size_t size) { return refused(size, __builtin_return_address(0)) ? 0 : __libc_realloc(old, size); }

int pthread_create(pthread_t *thread, const pthread_attr_t *how, void *(*start)(void *), void *with) {
    int (*real)(pthread_t *, const pthread_attr_t *, void *(*)(void *), void *) = dlsym(RTLD_NEXT, "pthread_create");
    if (__atomic_add_fetch(&starts, 1, __ATOMIC_SEQ_CST) == number("REFUSE_START")) {
        tell('t');
        return EAGAIN;
    }
    return real(thread, how, start, with);
}
