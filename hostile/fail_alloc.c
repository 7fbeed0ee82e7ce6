/* Fails one request for memory: the FAIL_ALLOC-th, counted from 1 over all threads, and with FAIL_MANY so many from it on.
   Without FAIL_ALLOC it fails none. A thread that is to be made is a request too. The file COUNT_ALLOC gets the count.
   It leaves calloc alone, which rr doesn't call, but the loader does. */
#define _GNU_SOURCE
#include <dlfcn.h>
#include <errno.h>
#include <fcntl.h>
#include <pthread.h>
#include <stdatomic.h>
#include <stddef.h>
#include <stdio.h>
#include <stdlib.h>
#include <sys/syscall.h>
#include <unistd.h>

static atomic_ulong count;
static unsigned long wanted, many;
static int known;
static const char *file;

static int fails(void)
{
    if (!known) {
        const char *first = getenv("FAIL_ALLOC"), *all = getenv("FAIL_MANY");
        known = 1;
        wanted = first ? strtoul(first, NULL, 10) : 0;
        many = all ? strtoul(all, NULL, 10) : 1;
        file = getenv("COUNT_ALLOC");
    }
    unsigned long number = atomic_fetch_add(&count, 1) + 1;
    return wanted && number >= wanted && number - wanted < many;
}

static void *refused(void)
{
    errno = ENOMEM;
    return NULL;
}

void *malloc(size_t size)
{
    static void *(*real)(size_t);
    if (!real)
        real = dlsym(RTLD_NEXT, "malloc");
    return fails() ? refused() : real(size);
}

void *realloc(void *old, size_t size)
{
    static void *(*real)(void *, size_t);
    if (!real)
        real = dlsym(RTLD_NEXT, "realloc");
    return fails() ? refused() : real(old, size);
}

int posix_memalign(void **to, size_t alignment, size_t size)
{
    static int (*real)(void **, size_t, size_t);
    if (!real)
        real = dlsym(RTLD_NEXT, "posix_memalign");
    return fails() ? ENOMEM : real(to, alignment, size);
}

void *aligned_alloc(size_t alignment, size_t size)
{
    static void *(*real)(size_t, size_t);
    if (!real)
        real = dlsym(RTLD_NEXT, "aligned_alloc");
    return fails() ? refused() : real(alignment, size);
}

int pthread_create(pthread_t *thread, const pthread_attr_t *how, void *(*body)(void *), void *argument)
{
    static int (*real)(pthread_t *, const pthread_attr_t *, void *(*)(void *), void *);
    if (!real)
        real = dlsym(RTLD_NEXT, "pthread_create");
    return fails() ? EAGAIN : real(thread, how, body, argument);
}

/* Takes no memory: what the process asked for is told by a plain write. */
__attribute__((destructor)) static void tell(void)
{
    char text[32];
    int length = snprintf(text, sizeof text, "%lu\n", count);
    int to = file ? open(file, O_WRONLY | O_CREAT | O_TRUNC, 0600) : -1;
    if (to >= 0) {
        ssize_t written = write(to, text, length);
        (void)written;
        close(to);
    }
}

/* A program with threads ends by this call, and no destructor runs. */
void _exit(int status)
{
    tell();
    syscall(SYS_exit_group, status);
    __builtin_unreachable();
}
