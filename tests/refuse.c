// Stands before the C library of a program (LD_PRELOAD) and lets one call go wrong: the REFUSE_AT-th of its allocations
// (REFUSE_WHAT=alloc), of its threads (thread), of its reads (read), or of its writes but those to standard error (write).
// An allocation answers that there is no memory, a thread is not started. A read or write fails with the number REFUSE_AS, or if that is `none` gives or takes
// nothing, or if it is `short` moves one byte. Once that call is made there is a file REFUSE_TOLD.
#define _GNU_SOURCE
#include <dlfcn.h>
#include <errno.h>
#include <fcntl.h>
#include <pthread.h>
#include <stdatomic.h>
#include <stddef.h>
#include <stdlib.h>
#include <string.h>
#include <sys/syscall.h>
#include <unistd.h>

extern void *__libc_malloc(size_t size);
extern void *__libc_calloc(size_t count, size_t size);
extern void *__libc_realloc(void *old, size_t size);
extern void *__libc_memalign(size_t align, size_t size);

static const char *what = "", *as = "", *marker = "";
static long at;
static atomic_long calls;
static atomic_int started;

__attribute__((constructor)) static void start(void) {
    const char *word = getenv("REFUSE_WHAT");
    if (!word || !getenv("REFUSE_AT") || !getenv("REFUSE_TOLD"))
        return;
    what = word;
    as = getenv("REFUSE_AS") ? getenv("REFUSE_AS") : "";
    marker = getenv("REFUSE_TOLD");
    at = atol(getenv("REFUSE_AT"));
    started = 1;
}

// Whether this is the call that goes wrong; if so, the file is made that says so.
static int is_refused(const char *kind) {
    if (!started || strcmp(what, kind) || atomic_fetch_add(&calls, 1) + 1 != at)
        return 0;
    close(open(marker, O_WRONLY | O_CREAT, 0600));
    return 1;
}

static void *no_memory(void) {
    errno = ENOMEM;
    return NULL;
}

void *malloc(size_t size) {
    return is_refused("alloc") ? no_memory() : __libc_malloc(size);
}

void *calloc(size_t count, size_t size) {
    return is_refused("alloc") ? no_memory() : __libc_calloc(count, size);
}

void *realloc(void *old, size_t size) {
    return is_refused("alloc") ? no_memory() : __libc_realloc(old, size);
}

void *aligned_alloc(size_t align, size_t size) {
    return is_refused("alloc") ? no_memory() : __libc_memalign(align, size);
}

int posix_memalign(void **result, size_t align, size_t size) {
    if (is_refused("alloc"))
        return ENOMEM;
    *result = __libc_memalign(align, size);
    return *result ? 0 : ENOMEM;
}

int pthread_create(pthread_t *thread, const pthread_attr_t *how, void *(*start)(void *), void *given) {
    int (*create)(pthread_t *, const pthread_attr_t *, void *(*)(void *), void *) = dlsym(RTLD_NEXT, "pthread_create");
    return is_refused("thread") ? EAGAIN : create(thread, how, start, given);
}

// What a call that goes wrong answers, if it does not move one byte.
static ssize_t wrong(void) {
    if (!strcmp(as, "none"))
        return 0;
    errno = atoi(as);
    return -1;
}

ssize_t read(int file, void *space, size_t size) {
    if (is_refused("read")) {
        if (strcmp(as, "short"))
            return wrong();
        size = size < 1 ? size : 1;
    }
    return syscall(SYS_read, file, space, size);
}

ssize_t write(int file, const void *bytes, size_t size) {
    if (file != STDERR_FILENO && is_refused("write")) {
        if (strcmp(as, "short"))
            return wrong();
        size = size < 1 ? size : 1;
    }
    return syscall(SYS_write, file, bytes, size);
}

ssize_t __write(int file, const void *bytes, size_t size) {
    return write(file, bytes, size);
}
