/* Loaded ahead of the C library: the thread numbered REFUSE_THREAD, counted from 1, can't be made, nor any after it with
   REFUSE_FROM_ON=1. */
#define _GNU_SOURCE
#include <dlfcn.h>
#include <errno.h>
#include <pthread.h>
#include <stdatomic.h>
#include <stdlib.h>
#include <unistd.h>

static atomic_long calls;

static long number_of(const char *name) {
    const char *text = getenv(name);
    return text ? atol(text) : 0;
}

int pthread_create(pthread_t *thread, const pthread_attr_t *attributes, void *(*start)(void *), void *argument) {
    static int (*next)(pthread_t *, const pthread_attr_t *, void *(*)(void *), void *);
    if (!next) {
        next = (int (*)(pthread_t *, const pthread_attr_t *, void *(*)(void *), void *))dlsym(RTLD_NEXT, "pthread_create");
    }
    long call = atomic_fetch_add(&calls, 1) + 1;
    long refused = number_of("REFUSE_THREAD");
    if (call == refused || (call > refused && number_of("REFUSE_FROM_ON") == 1)) {
        (void)!write(2, "refused\n", 8);
        return EAGAIN;
    }
    return next(thread, attributes, start, argument);
}
