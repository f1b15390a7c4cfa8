/* Refuses one allocation of a program: built as a shared library and loaded before the C library (LD_PRELOAD), it stands
 * in the place of malloc and realloc, and of pthread_create, as a thread takes memory too. A block that is made smaller
 * is no allocation.
 *
 * Which allocation it refuses is said by an order. The environment can give one, for the whole program:
 *
 *     REFUSE=N      the Nth allocation is refused, N from 1
 *     REFUSED=FILE  this file is made when it is
 *
 * and so can the program, by a request for ORDER + N bytes, which is refused like any request of that size: the Nth
 * allocation behind it is refused too. A later order stands in the place of an earlier one. */
#define _GNU_SOURCE
#include <dlfcn.h>
#include <errno.h>
#include <fcntl.h>
#include <malloc.h>
#include <pthread.h>
#include <stdatomic.h>
#include <stddef.h>
#include <stdlib.h>
#include <unistd.h>

#define ORDER ((size_t)1 << 62)
#define MOST_ORDERED ((size_t)1 << 20)

extern void *__libc_malloc(size_t size);
extern void *__libc_realloc(void *block, size_t size);

/* How many allocations there are up to the one that is refused, itself counted; at 0 and below none is. */
static atomic_long left;
static const char *mark;

__attribute__((constructor)) static void read_order(void) {
    const char *nth = getenv("REFUSE");
    mark = getenv("REFUSED");
    atomic_store(&left, nth ? atol(nth) : 0);
}

static int is_refused(void) {
    int saved = errno;
    if (atomic_load(&left) <= 0 || atomic_fetch_sub(&left, 1) != 1) {
        return 0;
    }
    int file = mark ? open(mark, O_WRONLY | O_CREAT, 0600) : -1;
    if (file >= 0) {
        close(file);
    }
    errno = saved;
    return 1;
}

static int is_order(size_t size) {
    if (size < ORDER || size - ORDER > MOST_ORDERED) {
        return 0;
    }
    atomic_store(&left, (long)(size - ORDER));
    return 1;
}

void *malloc(size_t size) {
    if (is_order(size) || is_refused()) {
        errno = ENOMEM;
        return NULL;
    }
    return __libc_malloc(size);
}

void *realloc(void *block, size_t size) {
    int grows = !block || size > malloc_usable_size(block);
    if (is_order(size) || (grows && is_refused())) {
        errno = ENOMEM;
        return NULL;
    }
    return __libc_realloc(block, size);
}

int pthread_create(pthread_t *thread, const pthread_attr_t *attributes, void *(*start)(void *), void *argument) {
    static int (*create)(pthread_t *, const pthread_attr_t *, void *(*)(void *), void *);
    if (is_refused()) {
        return EAGAIN;
    }
    if (!create) {
        *(void **)&create = dlsym(RTLD_NEXT, "pthread_create");
    }
    return create(thread, attributes, start, argument);
}
