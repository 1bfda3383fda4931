/* Loaded before the C library's functions: kills the process that it is loaded into. With KILLED_CALL=N that is in its N-th
 * call of open, write or fsync, the first being 1, a write behind KILLED_PART hundredths of its bytes. With KILLED_AFTER=N it
 * is N microseconds after its start. With COUNT_CALLS set, the number of these calls is written to standard error at the end. */
#define _GNU_SOURCE
#include <dlfcn.h>
#include <signal.h>
#include <stdarg.h>
#include <stdio.h>
#include <stdlib.h>
#include <sys/time.h>
#include <sys/types.h>

static unsigned long calls, killed_call, killed_part;
static int (*next_open)(const char *, int, ...);
static ssize_t (*next_write)(int, const void *, size_t);
static int (*next_fsync)(int);

static unsigned long number_of(const char *name) {
    const char *number = getenv(name);
    return number ? strtoul(number, NULL, 10) : 0;
}

__attribute__((constructor)) static void begin(void) {
    unsigned long after = number_of("KILLED_AFTER");
    struct itimerval timer = {{0, 0}, {after / 1000000, after % 1000000}};
    next_open = dlsym(RTLD_NEXT, "open");
    next_write = dlsym(RTLD_NEXT, "write");
    next_fsync = dlsym(RTLD_NEXT, "fsync");
    killed_call = number_of("KILLED_CALL");
    killed_part = number_of("KILLED_PART");
    if (after) setitimer(ITIMER_REAL, &timer, NULL);
}

static int is_last(void) {
    calls += 1;
    return calls == killed_call;
}

int open(const char *path, int flags, ...) {
    va_list rest;
    mode_t mode;
    va_start(rest, flags);
    mode = va_arg(rest, mode_t);
    va_end(rest);
    if (is_last()) raise(SIGKILL);
    return next_open(path, flags, mode);
}

ssize_t write(int file, const void *piece, size_t size) {
    if (!is_last()) return next_write(file, piece, size);
    next_write(file, piece, size * killed_part / 100);
    raise(SIGKILL);
    return -1;
}

int fsync(int file) {
    if (is_last()) raise(SIGKILL);
    return next_fsync(file);
}

__attribute__((destructor)) static void tell(void) {
    if (getenv("COUNT_CALLS")) fprintf(stderr, "%lu\n", calls);
}
