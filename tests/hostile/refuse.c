/* Preloaded before the C library: refuses the request for memory with the number REFUSE_AT, counted from 1 over
   malloc, calloc, realloc, aligned_alloc, posix_memalign and memalign, of all threads; and the start of a thread with the
   number REFUSE_THREAD. A request for exactly REFUSE_FROM bytes is refused, and so is each that comes after it. At the
   end of the process three numbers are written to the descriptor COUNT_TO, in decimal: that of all requests, that of the
   threads that were started, and that of the requests from the one for REFUSE_FROM bytes on. */
#define _GNU_SOURCE
#include <dlfcn.h>
#include <errno.h>
#include <pthread.h>
#include <stdio.h>
#include <stdlib.h>
#include <sys/syscall.h>
#include <unistd.h>

extern void *__libc_malloc(size_t size);
extern void *__libc_calloc(size_t count, size_t size);
extern void *__libc_realloc(void *old, size_t size);
extern void *__libc_memalign(size_t alignment, size_t size);

typedef int starter(pthread_t *, const pthread_attr_t *, void *(*)(void *), void *);

static unsigned long requests, refused_at, refused_from, starts, started, refused_thread, last;
static int count_to = -1;
static starter *start_thread;

static unsigned long number(const char *name)
{
    const char *value = getenv(name);
    return value ? strtoul(value, NULL, 10) : 0;
}

/* What is asked for before this is the loader's. */
__attribute__((constructor)) static void begin(void)
{
    const char *to = getenv("COUNT_TO");
    start_thread = (starter *)dlsym(RTLD_NEXT, "pthread_create");
    refused_at = number("REFUSE_AT");
    refused_from = number("REFUSE_FROM");
    refused_thread = number("REFUSE_THREAD");
    count_to = to ? atoi(to) : -1;
    __atomic_store_n(&requests, 0, __ATOMIC_SEQ_CST);
}

__attribute__((destructor)) static void end(void)
{
    char text[96];
    int length = snprintf(text, sizeof text, "%lu %lu %lu", __atomic_load_n(&requests, __ATOMIC_SEQ_CST),
                          __atomic_load_n(&started, __ATOMIC_SEQ_CST), __atomic_load_n(&last, __ATOMIC_SEQ_CST));
    if (count_to >= 0)
        syscall(SYS_write, count_to, text, (size_t)length);
    count_to = -1;
}

void _exit(int status)
{
    end();
    for (;;)
        syscall(SYS_exit_group, status);
}

int pthread_create(pthread_t *thread, const pthread_attr_t *how, void *(*task)(void *), void *given)
{
    int fault = EAGAIN;
    if (__atomic_add_fetch(&starts, 1, __ATOMIC_SEQ_CST) != refused_thread)
        fault = start_thread(thread, how, task, given);
    if (fault == 0)
        __atomic_add_fetch(&started, 1, __ATOMIC_SEQ_CST);
    return fault;
}

static int refused(size_t size)
{
    unsigned long request = __atomic_add_fetch(&requests, 1, __ATOMIC_SEQ_CST);
    int is_last = refused_from != 0 && (size == refused_from || __atomic_load_n(&last, __ATOMIC_SEQ_CST) != 0);
    if (is_last)
        __atomic_add_fetch(&last, 1, __ATOMIC_SEQ_CST);
    if (request != refused_at && !is_last)
        return 0;
    errno = ENOMEM;
    return 1;
}

void *malloc(size_t size)
{
    return refused(size) ? NULL : __libc_malloc(size);
}

void *calloc(size_t count, size_t size)
{
    return refused(count * size) ? NULL : __libc_calloc(count, size);
}

void *realloc(void *old, size_t size)
{
    return refused(size) ? NULL : __libc_realloc(old, size);
}

void *memalign(size_t alignment, size_t size)
{
    return refused(size) ? NULL : __libc_memalign(alignment, size);
}

void *aligned_alloc(size_t alignment, size_t size)
{
    return refused(size) ? NULL : __libc_memalign(alignment, size);
}

int posix_memalign(void **made, size_t alignment, size_t size)
{
    void *memory = refused(size) ? NULL : __libc_memalign(alignment, size);
    if (memory != NULL)
        *made = memory;
    return memory != NULL ? 0 : ENOMEM;
}
