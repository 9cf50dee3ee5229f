// Makes calls of the system fail in one program, for faults.py: it is loaded before the C library.
//
// FAULT is a kind and the number of a call, as "alloc 5": of the kind `alloc` (malloc, realloc) the
// fifth call fails; of `call` (open, read, write) the fifth; of `from` the fifth allocation and all
// after it. `short 5` has reads and writes from the fifth on move one byte, `part 5` a third of the
// bytes, `signal 5` has the fifth end as if a signal came, and `zero 5` has writes move nothing.
// COUNTS names a file for how many allocations and calls there were.
#include <errno.h>
#include <fcntl.h>
#include <stdarg.h>
#include <stdio.h>
#include <stdlib.h>
#include <string.h>
#include <sys/syscall.h>
#include <unistd.h>

extern void *__libc_malloc(size_t size);
extern void *__libc_realloc(void *old, size_t size);

static char kind[16];
static long number, allocations, calls;
static int started;

__attribute__((constructor)) static void start(void) {
    const char *fault = getenv("FAULT");
    if (fault) sscanf(fault, "%15s %ld", kind, &number);
    started = 1;
}

__attribute__((destructor)) static void finish(void) {
    char text[64];
    const char *path = getenv("COUNTS");
    started = 0;
    if (!path) return;
    int file = syscall(SYS_open, path, O_WRONLY | O_CREAT | O_TRUNC, 0600);
    int length = snprintf(text, sizeof text, "%ld %ld\n", allocations, calls);
    syscall(SYS_write, file, text, length);
    syscall(SYS_close, file);
}

static int is(const char *word) { return strcmp(kind, word) == 0; }

static int refuses(void) {
    if (!started) return 0;
    allocations++;
    return (is("alloc") && allocations == number) || (is("from") && allocations >= number);
}

// Whether the call that begins fails, and the error then.
static int fails(void) {
    calls++;
    if (calls == number && is("call")) return errno = EIO, 1;
    if (calls == number && is("signal")) return errno = EINTR, 1;
    return 0;
}

static size_t at_most(size_t count) {
    if (calls < number || count < 2) return count;
    if (is("short")) return 1;
    return is("part") ? (count + 2) / 3 : count;
}

void *malloc(size_t size) {
    if (refuses()) return errno = ENOMEM, NULL;
    return __libc_malloc(size);
}

void *realloc(void *old, size_t size) {
    if (refuses()) return errno = ENOMEM, NULL;
    return __libc_realloc(old, size);
}

int open(const char *path, int flags, ...) {
    va_list rest;
    va_start(rest, flags);
    int mode = va_arg(rest, int);
    va_end(rest);
    return fails() ? -1 : syscall(SYS_open, path, flags, mode);
}

ssize_t read(int file, void *bytes, size_t count) {
    return fails() ? -1 : syscall(SYS_read, file, bytes, at_most(count));
}

ssize_t write(int file, const void *bytes, size_t count) {
    if (fails()) return -1;
    if (is("zero") && calls >= number) return 0;
    return syscall(SYS_write, file, bytes, at_most(count));
}
