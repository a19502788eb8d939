/* Refuses the N-th request for memory or for a thread, N from the environment variable REFUSE, and says on the file of the environment
   variable REFUSED that it did. At the end it writes the number of blocks that were given out and not given back into the
   file of the environment variable LEFT. To be preloaded under the program. */
#define _GNU_SOURCE
#include <dlfcn.h>
#include <errno.h>
#include <fcntl.h>
#include <pthread.h>
#include <stddef.h>
#include <stdio.h>
#include <stdlib.h>
#include <string.h>
#include <sys/syscall.h>
#include <unistd.h>

static _Atomic long requests;
static _Atomic long left;

/* Writes a text into the file that an environment variable names, with no request for memory of its own. */
static void note(const char *variable, const char *text) {
    const char *path = getenv(variable);
    int file = path == NULL ? -1 : open(path, O_WRONLY | O_CREAT | O_TRUNC, 0600);
    if (file >= 0) {
        ssize_t written = write(file, text, strlen(text));
        (void)written;
        close(file);
    }
}

/* Whether this request is the one. */
static int refused(void) {
    const char *which = getenv("REFUSE");
    long number = ++requests;
    if (which == NULL || number != atol(which)) {
        return 0;
    }
    note("REFUSED", "refused\n");
    errno = ENOMEM;
    return 1;
}

/* Counts a block that was given out. */
static void *counted(void *block) {
    left += block != NULL;
    return block;
}

void *malloc(size_t size) {
    static void *(*next)(size_t);
    if (next == NULL) {
        next = (void *(*)(size_t))dlsym(RTLD_NEXT, "malloc");
    }
    return refused() ? NULL : counted(next(size));
}

void *calloc(size_t count, size_t size) {
    static void *(*next)(size_t, size_t);
    if (next == NULL) {
        next = (void *(*)(size_t, size_t))dlsym(RTLD_NEXT, "calloc");
    }
    return refused() ? NULL : counted(next(count, size));
}

void *realloc(void *block, size_t size) {
    static void *(*next)(void *, size_t);
    if (next == NULL) {
        next = (void *(*)(void *, size_t))dlsym(RTLD_NEXT, "realloc");
    }
    if (refused()) {
        return NULL;
    }
    return block == NULL ? counted(next(block, size)) : next(block, size);
}

void *aligned_alloc(size_t align, size_t size) {
    static void *(*next)(size_t, size_t);
    if (next == NULL) {
        next = (void *(*)(size_t, size_t))dlsym(RTLD_NEXT, "aligned_alloc");
    }
    return refused() ? NULL : counted(next(align, size));
}

int posix_memalign(void **block, size_t align, size_t size) {
    static int (*next)(void **, size_t, size_t);
    if (next == NULL) {
        next = (int (*)(void **, size_t, size_t))dlsym(RTLD_NEXT, "posix_memalign");
    }
    if (refused()) {
        return ENOMEM;
    }
    int status = next(block, align, size);
    left += status == 0;
    return status;
}

void free(void *block) {
    static void (*next)(void *);
    if (next == NULL) {
        next = (void (*)(void *))dlsym(RTLD_NEXT, "free");
    }
    left -= block != NULL;
    next(block);
}

int pthread_create(pthread_t *thread, const pthread_attr_t *attributes, void *(*run)(void *), void *with) {
    static int (*next)(pthread_t *, const pthread_attr_t *, void *(*)(void *), void *);
    if (next == NULL) {
        next = (int (*)(pthread_t *, const pthread_attr_t *, void *(*)(void *), void *))dlsym(RTLD_NEXT, "pthread_create");
    }
    return refused() ? EAGAIN : next(thread, attributes, run, with);
}

__attribute__((destructor)) static void at_the_end(void) {
    char text[32];
    snprintf(text, sizeof text, "%ld\n", left);
    note("LEFT", text);
}

/* A program that may have threads ends by this, which runs no destructor. */
void _exit(int status) {
    at_the_end();
    syscall(SYS_exit_group, status);
    __builtin_unreachable();
}
