/* Refuses one request for memory of the program that it is preloaded into: the N-th, where REFUSE_AT is N. As
 * it does so it writes `!` to the descriptor that REFUSE_TOLD names, and at the end of the program how many
 * requests there were. */
#define _GNU_SOURCE
#include <dlfcn.h>
#include <errno.h>
#include <stdatomic.h>
#include <stdio.h>
#include <stdlib.h>
#include <unistd.h>

static atomic_long count;
static long refused_at;
static int told = -1;

static void *(*real_malloc)(size_t);
static void *(*real_calloc)(size_t, size_t);
static void *(*real_realloc)(void *, size_t);
static int (*real_posix_memalign)(void **, size_t, size_t);
static void *(*real_aligned_alloc)(size_t, size_t);
static void *(*real_memalign)(size_t, size_t);

/* What a request is handed on to, and the words of the trial. */
static void find(void)
{
    if (real_malloc)
        return;
    const char *at = getenv("REFUSE_AT"), *descriptor = getenv("REFUSE_TOLD");
    refused_at = at ? atol(at) : 0;
    told = descriptor ? atoi(descriptor) : -1;
    real_calloc = dlsym(RTLD_NEXT, "calloc");
    real_realloc = dlsym(RTLD_NEXT, "realloc");
    real_posix_memalign = dlsym(RTLD_NEXT, "posix_memalign");
    real_aligned_alloc = dlsym(RTLD_NEXT, "aligned_alloc");
    real_memalign = dlsym(RTLD_NEXT, "memalign");
    real_malloc = dlsym(RTLD_NEXT, "malloc");
}

/* Whether this request is the one to refuse. */
static int is_refused(void)
{
    find();
    if (atomic_fetch_add(&count, 1) + 1 != refused_at)
        return 0;
    if (told >= 0 && write(told, "!", 1) != 1)
        _exit(99);
    errno = ENOMEM;
    return 1;
}

void *malloc(size_t size)
{
    return is_refused() ? NULL : real_malloc(size);
}

void *calloc(size_t many, size_t size)
{
    return is_refused() ? NULL : real_calloc(many, size);
}

void *realloc(void *old, size_t size)
{
    return is_refused() ? NULL : real_realloc(old, size);
}

int posix_memalign(void **found, size_t align, size_t size)
{
    return is_refused() ? ENOMEM : real_posix_memalign(found, align, size);
}

void *aligned_alloc(size_t align, size_t size)
{
    return is_refused() ? NULL : real_aligned_alloc(align, size);
}

void *memalign(size_t align, size_t size)
{
    return is_refused() ? NULL : real_memalign(align, size);
}

__attribute__((destructor)) static void tell(void)
{
    char text[24];
    int size = snprintf(text, sizeof text, "%ld", atomic_load(&count));
    if (told >= 0 && write(told, text, (size_t)size) != size)
        _exit(99);
}
