/* Makes an allocation of a program fail, or the start of a thread: LD_PRELOAD names this library, and the environment
 * says which.
 *
 *   REFUSE_MEMORY=N        the Nth allocation fails
 *   REFUSE_MEMORY_FROM=N   so does each one after it
 *   REFUSE_THREAD=N        the Nth start of a thread fails
 *   REFUSE_NOTE=FILE       at its end the program's numbers of allocations, of threads that it started, of threads that
 *                          allocated, and of kilobytes of memory at most are written to the file
 */
#define _GNU_SOURCE
#include <dlfcn.h>
#include <errno.h>
#include <fcntl.h>
#include <pthread.h>
#include <stdatomic.h>
#include <stdio.h>
#include <stdlib.h>
#include <string.h>
#include <sys/syscall.h>
#include <unistd.h>

static atomic_long allocations, threads, allocating;
static __thread int has_allocated;
static long refused_allocation, refused_from, refused_thread;
static const char *note;

static long number(const char *name)
{
    const char *text = getenv(name);
    return text ? atol(text) : 0;
}

__attribute__((constructor)) static void begin(void)
{
    note = getenv("REFUSE_NOTE");
    refused_thread = number("REFUSE_THREAD");
    refused_from = number("REFUSE_MEMORY_FROM");
    refused_allocation = number("REFUSE_MEMORY");
    allocations = 0;
    allocating = 0;
    has_allocated = 0;
}

/* The most memory that the program had so far, in kilobytes, or 0 if the system does not tell. */
static long greatest_memory(void)
{
    char text[4096];
    int file = open("/proc/self/status", O_RDONLY);
    ssize_t length = file < 0 ? 0 : read(file, text, sizeof text - 1);
    if (file >= 0)
        close(file);
    text[length > 0 ? length : 0] = 0;
    const char *line = strstr(text, "VmHWM:");
    return line ? atol(line + strlen("VmHWM:")) : 0;
}

/* The programs of Rattle end by this call. */
void _exit(int status)
{
    int file = note ? open(note, O_WRONLY | O_CREAT | O_TRUNC, 0600) : -1;
    if (file >= 0) {
        char text[96];
        int length = snprintf(text, sizeof text, "%ld %ld %ld %ld\n", atomic_load(&allocations), atomic_load(&threads),
                              atomic_load(&allocating), greatest_memory());
        if (write(file, text, length) < 0)
            status = 99;
        close(file);
    }
    for (;;)
        syscall(SYS_exit_group, status);
}

/* Whether the allocation that is asked for now fails. */
static int refuses(void)
{
    long count = atomic_fetch_add(&allocations, 1) + 1;
    if (!has_allocated) {
        has_allocated = 1;
        atomic_fetch_add(&allocating, 1);
    }
    if (count != refused_allocation && !(refused_from && count >= refused_from))
        return 0;
    errno = ENOMEM;
    return 1;
}

extern void *__libc_malloc(size_t);
extern void *__libc_calloc(size_t, size_t);
extern void *__libc_realloc(void *, size_t);
extern void *__libc_memalign(size_t, size_t);

void *malloc(size_t size)
{
    return refuses() ? NULL : __libc_malloc(size);
}

void *calloc(size_t count, size_t size)
{
    return refuses() ? NULL : __libc_calloc(count, size);
}

void *realloc(void *old, size_t size)
{
    return refuses() ? NULL : __libc_realloc(old, size);
}

void *memalign(size_t alignment, size_t size)
{
    return refuses() ? NULL : __libc_memalign(alignment, size);
}

void *aligned_alloc(size_t alignment, size_t size)
{
    return memalign(alignment, size);
}

int posix_memalign(void **place, size_t alignment, size_t size)
{
    void *memory = memalign(alignment, size);
    if (!memory)
        return ENOMEM;
    *place = memory;
    return 0;
}

int pthread_create(pthread_t *thread, const pthread_attr_t *attributes, void *(*start)(void *), void *argument)
{
    static int (*create)(pthread_t *, const pthread_attr_t *, void *(*)(void *), void *);
    if (atomic_fetch_add(&threads, 1) + 1 == refused_thread)
        return EAGAIN;
    if (!create)
        create = (int (*)(pthread_t *, const pthread_attr_t *, void *(*)(void *), void *))dlsym(RTLD_NEXT, "pthread_create");
    return create(thread, attributes, start, argument);
}
