/* Refuses memory requests: a library to preload into a program.

   It counts the program's calls of malloc, realloc and pthread_create, from 1. It refuses the call whose number is in the
   environment variable REFUSE_AT and, if REFUSE_ON is set, each one after it too. At exit it writes the number of calls, and
   how many of them were for threads, to the file that REFUSE_COUNT names. At each call of write it adds a line to the file
   that REFUSE_WRITES names: the number of calls so far, and how many bytes are to be written. */
#define _GNU_SOURCE
#include <dlfcn.h>
#include <errno.h>
#include <fcntl.h>
#include <pthread.h>
#include <stdatomic.h>
#include <stdio.h>
#include <stdlib.h>
#include <sys/syscall.h>
#include <unistd.h>

extern void *__libc_malloc(size_t size);
extern void *__libc_realloc(void *old, size_t size);

static atomic_ulong calls, threads;
static unsigned long refuse_at;
static int refuse_on;

__attribute__((constructor)) static void begin(void) {
    const char *at = getenv("REFUSE_AT");
    refuse_on = getenv("REFUSE_ON") != NULL;
    atomic_store(&calls, 0);
    refuse_at = at ? strtoul(at, NULL, 10) : 0;
}

/* The program ends by this call, so the number of calls is written here. */
void _exit(int status) {
    const char *name = getenv("REFUSE_COUNT");
    int file = name ? open(name, O_WRONLY | O_CREAT | O_TRUNC, 0600) : -1;
    if (file >= 0) {
        char text[64];
        int length = snprintf(text, sizeof text, "%lu %lu\n", atomic_load(&calls), atomic_load(&threads));
        if (syscall(SYS_write, file, text, length) != length) status = 99;
    }
    syscall(SYS_exit_group, status);
    __builtin_unreachable();
}

ssize_t write(int file, const void *bytes, size_t count) {
    const char *name = getenv("REFUSE_WRITES");
    int log = name ? open(name, O_WRONLY | O_CREAT | O_APPEND, 0600) : -1;
    if (log >= 0) {
        char text[64];
        int length = snprintf(text, sizeof text, "%lu %zu\n", atomic_load(&calls), count);
        if (syscall(SYS_write, log, text, length) != length) abort();
        close(log);
    }
    return syscall(SYS_write, file, bytes, count);
}

static int is_refused(void) {
    unsigned long call = atomic_fetch_add(&calls, 1) + 1;
    return refuse_at != 0 && (call == refuse_at || (refuse_on && call > refuse_at));
}

void *malloc(size_t size) {
    if (is_refused()) {
        errno = ENOMEM;
        return NULL;
    }
    return __libc_malloc(size);
}

void *realloc(void *old, size_t size) {
    if (is_refused()) {
        errno = ENOMEM;
        return NULL;
    }
    return __libc_realloc(old, size);
}

int pthread_create(pthread_t *thread, const pthread_attr_t *attributes, void *(*start)(void *), void *argument) {
    static int (*next)(pthread_t *, const pthread_attr_t *, void *(*)(void *), void *);
    atomic_fetch_add(&threads, 1);
    if (is_refused()) return EAGAIN;
    if (!next) *(void **)&next = dlsym(RTLD_NEXT, "pthread_create");
    return next(thread, attributes, start, argument);
}
