// A library to be loaded before the C library (LD_PRELOAD), by bench/refused and bench/failing: it counts the calls of a
// program for memory, of `read` and of `write`, and makes some of them fail.
//
//     FAULT=alloc|read|write   which calls
//     FIRST=N LAST=M           the Nth to the Mth of them, from 1; without LAST all from the Nth on
//     HOW=NUMBER               they fail with this error number; HOW=short: they move one byte
//     COUNTS=FILE              the numbers of calls of each kind are written there at the end
#define _GNU_SOURCE
#include <dlfcn.h>
#include <errno.h>
#include <fcntl.h>
#include <limits.h>
#include <stdatomic.h>
#include <stdio.h>
#include <stdlib.h>
#include <string.h>
#include <unistd.h>

enum kind { ALLOC, READ, WRITE, KINDS };

static const char *const names[KINDS] = {"alloc", "read", "write"};
static atomic_long counts[KINDS];
static int chosen = -1, error;
static long first, last;

static void *(*real_malloc)(size_t);
static void *(*real_realloc)(void *, size_t);
static ssize_t (*real_read)(int, void *, size_t);
static ssize_t (*real_write)(int, const void *, size_t);
static void (*real_exit)(int);

static void find(void) {
    real_malloc = dlsym(RTLD_NEXT, "malloc");
    real_realloc = dlsym(RTLD_NEXT, "realloc");
    real_read = dlsym(RTLD_NEXT, "read");
    real_write = dlsym(RTLD_NEXT, "write");
    real_exit = dlsym(RTLD_NEXT, "_exit");
}

__attribute__((constructor)) static void begin(void) {
    const char *fault = getenv("FAULT"), *from = getenv("FIRST"), *to = getenv("LAST"), *how = getenv("HOW");
    find();
    first = from ? atol(from) : 1;
    last = to ? atol(to) : LONG_MAX;
    error = how && strcmp(how, "short") ? atoi(how) : 0;
    for (int kind = 0; fault && kind < KINDS; kind++)
        if (!strcmp(fault, names[kind]))
            chosen = kind;
    // What was asked for before belongs to the loading.
    for (int kind = 0; kind < KINDS; kind++)
        atomic_store(&counts[kind], 0);
}

// Whether this call is one of those that are to go wrong.
static int is_bad(enum kind kind) {
    long call = atomic_fetch_add(&counts[kind], 1) + 1;
    return (int)kind == chosen && first <= call && call <= last;
}

static void tell(void) {
    static atomic_int told;
    const char *path = getenv("COUNTS");
    char text[100];
    if (!path || atomic_exchange(&told, 1))
        return;
    int length = snprintf(text, sizeof text, "%ld %ld %ld\n", counts[ALLOC], counts[READ], counts[WRITE]);
    int file = open(path, O_WRONLY | O_CREAT | O_TRUNC, 0600);
    if (file >= 0) {
        ssize_t done = real_write(file, text, length);
        (void)done;
        close(file);
    }
}

__attribute__((destructor)) static void end(void) {
    tell();
}

void _exit(int status) {
    tell();
    real_exit(status);
    __builtin_unreachable();
}

void *malloc(size_t size) {
    if (!real_malloc)
        find();
    if (is_bad(ALLOC)) {
        errno = ENOMEM;
        return NULL;
    }
    return real_malloc(size);
}

void *realloc(void *old, size_t size) {
    if (!real_realloc)
        find();
    if (is_bad(ALLOC)) {
        errno = ENOMEM;
        return NULL;
    }
    return real_realloc(old, size);
}

ssize_t read(int file, void *buffer, size_t size) {
    if (file == 0 && is_bad(READ)) {
        if (error) {
            errno = error;
            return -1;
        }
        size = size > 1 ? 1 : size;
    }
    return real_read(file, buffer, size);
}

ssize_t write(int file, const void *buffer, size_t size) {
    if ((file == 1 || file == 2) && is_bad(WRITE)) {
        if (error) {
            errno = error;
            return -1;
        }
        size = size > 1 ? 1 : size;
    }
    return real_write(file, buffer, size);
}

ssize_t __write(int file, const void *buffer, size_t size) {
    return write(file, buffer, size);
}
