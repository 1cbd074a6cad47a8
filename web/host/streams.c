// The words of the command line, the files and the streams of the program in a page, and its end.
// The page keeps them all in memory: web/page/host.js has the other side of each import.
#include "types.h"

#define PAGE(name) __attribute__((import_module("page"), import_name(name)))

// Up to `most` bytes of a word of the command line: its length, -1 where there is no such word, -2
// where it is longer.
PAGE("word") extern int page_word(half index, half to, half most);
// Opens a file for reading: its number, or -1 where the page has none of this name.
PAGE("open") extern int page_open(half name, half length);
// How many bytes it has put there, 0 at the end of the file, or -1.
PAGE("read") extern int page_read(int file, half to, half most);
// How many bytes it has taken, or an error as a number below 0.
PAGE("write") extern int page_write(int file, half from, half count);
PAGE("close") extern int page_close(int file);
// Ends the run with this status; it does not come back.
PAGE("exit") extern void page_exit(int status);

enum { NO_SUCH_FILE = 2, INPUT_OUTPUT = 5, MOST_AT_ONCE = 1 << 30 };

static half address_of(const byte *place) {
    return (half)(word)place;
}

static half at_once(word count) {
    return count < MOST_AT_ONCE ? (half)count : MOST_AT_ONCE;
}

static int error;

int rattle_errno(void) {
    return error;
}

void rattle_set_errno(int of_call) {
    error = of_call;
}

// What a call answers; where that is -1, this error is told.
static int told(int answer, int of_call) {
    if (answer < 0) {
        error = of_call;
    }
    return answer;
}

number rattle_arg(word index, byte *to, word most) {
    return page_word((half)index, address_of(to), at_once(most));
}

// A page has no environment.
number rattle_env(const byte *name, byte *to, word most) {
    return -1;
}

number rattle_env_at(word index, byte *to, word most) {
    return -1;
}

int open(const byte *name, int flags, ...) {
    half length = 0;
    while (name[length]) {
        length++;
    }
    return told(page_open(address_of(name), length), NO_SUCH_FILE);
}

number read(int file, byte *to, word most) {
    return told(page_read(file, address_of(to), at_once(most)), INPUT_OUTPUT);
}

number write(int file, const byte *from, word count) {
    int taken = page_write(file, address_of(from), at_once(count));
    return taken < 0 ? told(-1, -taken) : taken;
}

int close(int file) {
    return page_close(file);
}

// A page has no terminal.
int isatty(int file) {
    return 0;
}

void _exit(int status) {
    page_exit(status);
    __builtin_trap();
}

void abort(void) {
    __builtin_trap();
}

// A page has no signals.
number __sysv_signal(int signal, number handler) {
    return 0;
}

// The program's main function; in C it would have another name on this machine.
extern int program(int count, byte **words) __asm__("main");

// What the page calls: a run of the program, and the status that it ends with.
__attribute__((export_name("run"))) int run(void) {
    return program(0, 0);
}
