/* Readers and writers that fail, or that give or take little at a time: loaded before the C library by
   LD_PRELOAD, as tests/system/streams/run does.
     READER       the reader that is changed: the name of a file as the program opens it, or - for standard input
     READER_STEP  the most bytes that it gives a read
     READER_FAILS after how many bytes it fails
     READER_ENDLESS where it is set, it gives this byte without end, whatever the file holds
     READER_ERROR the number of its error
     WRITER_STEP, WRITER_FAILS, WRITER_ERROR    the same of standard output
     WRITER_ONCE  where it is set, it fails once, and then goes on
     WRITER_ZERO  after how many bytes it takes none, and tells of no error
     STREAMS_TELL where the numbers of reads, of bytes given, of writes and of tries to open the reader go at the end */
#define _GNU_SOURCE
#include <dlfcn.h>
#include <errno.h>
#include <fcntl.h>
#include <stdarg.h>
#include <stdio.h>
#include <stdlib.h>
#include <string.h>
#include <sys/syscall.h>
#include <unistd.h>

static long setting(const char *name, long otherwise) {
    const char *value = getenv(name);
    return value ? atol(value) : otherwise;
}

static int reader = -2;
static long reads, given, step, fails, endless, writes, taken, opens;

static void begin(void) {
    const char *name = getenv("READER");
    reader = name && !strcmp(name, "-") ? 0 : -1;
    step = setting("READER_STEP", 1L << 30);
    fails = setting("READER_FAILS", -1);
    endless = setting("READER_ENDLESS", -1);
}

int open(const char *path, int flags, ...) {
    va_list more;
    va_start(more, flags);
    int mode = flags & O_CREAT ? va_arg(more, int) : 0;
    va_end(more);
    if (reader == -2) begin();
    int file = syscall(SYS_openat, AT_FDCWD, path, flags, mode);
    const char *name = getenv("READER");
    if (name && !strcmp(name, path)) {
        opens++;
        if (file >= 0) reader = file;
    } else if (file >= 0 && file == reader) reader = -1; /* another file has the number of the reader, which is closed */
    return file;
}

ssize_t read(int file, void *buffer, size_t size) {
    if (reader == -2) begin();
    if (file != reader) return syscall(SYS_read, file, buffer, size);
    reads++;
    if (fails >= 0 && given >= fails) {
        errno = setting("READER_ERROR", EIO);
        return -1;
    }
    if (size > (size_t)step) size = step;
    if (fails >= 0 && size > (size_t)(fails - given)) size = fails - given;
    ssize_t count = size;
    if (endless >= 0) memset(buffer, endless, size);
    else count = syscall(SYS_read, file, buffer, size);
    if (count > 0) given += count;
    return count;
}

ssize_t write(int file, const void *buffer, size_t size) {
    if (file != 1) return syscall(SYS_write, file, buffer, size);
    long most = setting("WRITER_STEP", 1L << 30), fail = setting("WRITER_FAILS", -1), zero = setting("WRITER_ZERO", -1);
    static int has_failed;
    if (has_failed && setting("WRITER_ONCE", 0)) fail = -1;
    writes++;
    if (fail >= 0 && taken >= fail) {
        has_failed = 1;
        errno = setting("WRITER_ERROR", EIO);
        return -1;
    }
    if (zero >= 0 && taken >= zero) return 0;
    if (size > (size_t)most) size = most;
    if (fail >= 0 && size > (size_t)(fail - taken)) size = fail - taken;
    if (zero >= 0 && size > (size_t)(zero - taken)) size = zero - taken;
    ssize_t count = syscall(SYS_write, file, buffer, size);
    if (count > 0) taken += count;
    return count;
}

void _exit(int status) {
    long where = setting("STREAMS_TELL", -1);
    char text[100];
    int length = snprintf(text, sizeof text, "%ld %ld %ld %ld", reads, given, writes, opens);
    if (where >= 0 && syscall(SYS_write, where, text, length) != length) abort();
    for (;;) syscall(SYS_exit_group, status);
}
