/* Refuses one request for memory or for a thread: the one whose number REFUSE_AT gives, counted from 1 over all calls of
   malloc, calloc, realloc, aligned_alloc, posix_memalign and pthread_create, of all threads. It is preloaded before the C
   library, and makes the file that REFUSE_MARK names when it refuses. Without REFUSE_AT the program says itself which. */
#define _GNU_SOURCE
#include <dlfcn.h>
#include <errno.h>
#include <fcntl.h>
#include <pthread.h>
#include <stdatomic.h>
#include <stdlib.h>
#include <unistd.h>

/* What a program says of refusals it says by a request of at least 2 to the 40 bytes, which no program makes otherwise. With so
   many times 2 to the 40 bytes, and N more:
   1: the Nth request from here on is refused, and none where N is 0. The answer is no memory.
   2: no more is counted. The answer is no memory where a request was refused since 1.
   3: the answer is no memory where the number of requests that were counted has bit N. */
enum { SAID_FROM = 40, REFUSE = 1, STOP = 2, COUNT = 3 };

static atomic_bool counting;
static atomic_bool refused;
static atomic_ulong asked;
static atomic_ulong refused_at;

static void begin(unsigned long at)
{
    atomic_store(&asked, 0);
    atomic_store(&refused, 0);
    atomic_store(&refused_at, at);
    atomic_store(&counting, 1);
}

static void __attribute__((constructor)) begin_at_once(void)
{
    const char *at = getenv("REFUSE_AT");
    if (at)
        begin(strtoul(at, NULL, 10));
}

static int is_refused(void)
{
    const char *mark = getenv("REFUSE_MARK");
    if (!atomic_load(&counting) || atomic_fetch_add(&asked, 1) + 1 != atomic_load(&refused_at))
        return 0;
    atomic_store(&refused, 1);
    if (mark)
        close(open(mark, O_WRONLY | O_CREAT, 0644));
    /* as the C library does it, which looks at this where it starts a thread */
    errno = ENOMEM;
    return 1;
}

#define NEXT(name, type) ((type)dlsym(RTLD_NEXT, name))

/* What is answered to a program that says something: whether there is no memory. */
static int is_denied(size_t size)
{
    unsigned long number = size & (((size_t)1 << SAID_FROM) - 1);
    switch (size >> SAID_FROM) {
    case REFUSE:
        begin(number);
        return 1;
    case STOP:
        atomic_store(&counting, 0);
        return atomic_load(&refused);
    case COUNT:
        return atomic_load(&asked) >> number & 1;
    default:
        return 1;
    }
}

void *malloc(size_t size)
{
    if (size >> SAID_FROM)
        return is_denied(size) ? NULL : NEXT("malloc", void *(*)(size_t))(1);
    return is_refused() ? NULL : NEXT("malloc", void *(*)(size_t))(size);
}

void *calloc(size_t count, size_t size)
{
    return is_refused() ? NULL : NEXT("calloc", void *(*)(size_t, size_t))(count, size);
}

void *realloc(void *old, size_t size)
{
    return is_refused() ? NULL : NEXT("realloc", void *(*)(void *, size_t))(old, size);
}

void *aligned_alloc(size_t alignment, size_t size)
{
    return is_refused() ? NULL : NEXT("aligned_alloc", void *(*)(size_t, size_t))(alignment, size);
}

int posix_memalign(void **place, size_t alignment, size_t size)
{
    return is_refused() ? ENOMEM
                        : NEXT("posix_memalign", int (*)(void **, size_t, size_t))(place, alignment, size);
}

int pthread_create(pthread_t *thread, const pthread_attr_t *attributes, void *(*start)(void *), void *argument)
{
    return is_refused() ? EAGAIN
                        : NEXT("pthread_create", int (*)(pthread_t *, const pthread_attr_t *, void *(*)(void *), void *))(
                              thread, attributes, start, argument);
}
