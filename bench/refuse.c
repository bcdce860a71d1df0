/* Makes one allocation of a program fail: the one with the number in the variable REFUSE, from 1; with REFUSE_LATER, also each later
   one. Then it creates the file that REFUSED names. It is built as a library that is loaded before those of the program: see
   refused_growths. */
#define _GNU_SOURCE
#include <dlfcn.h>
#include <errno.h>
#include <fcntl.h>
#include <stdlib.h>
#include <unistd.h>

static long wanted = -1;
static long count = 0;

static int is_refused(void)
{
    if (wanted < 0) {
        const char *number = getenv("REFUSE");
        wanted = number ? atol(number) : 0;
    }
    count += 1;
    if (count == wanted || (wanted > 0 && count > wanted && getenv("REFUSE_LATER"))) {
        const char *mark = getenv("REFUSED");
        if (mark)
            close(open(mark, O_CREAT | O_WRONLY, 0600));
        errno = ENOMEM;
        return 1;
    }
    return 0;
}

void *malloc(size_t size)
{
    static void *(*next)(size_t);
    if (!next)
        next = (void *(*)(size_t))dlsym(RTLD_NEXT, "malloc");
    return is_refused() ? NULL : next(size);
}

void *realloc(void *old, size_t size)
{
    static void *(*next)(void *, size_t);
    if (!next)
        next = (void *(*)(void *, size_t))dlsym(RTLD_NEXT, "realloc");
    return is_refused() ? NULL : next(old, size);
}

void *aligned_alloc(size_t alignment, size_t size)
{
    static void *(*next)(size_t, size_t);
    if (!next)
        next = (void *(*)(size_t, size_t))dlsym(RTLD_NEXT, "aligned_alloc");
    return is_refused() ? NULL : next(alignment, size);
}

int posix_memalign(void **at, size_t alignment, size_t size)
{
    static int (*next)(void **, size_t, size_t);
    if (!next)
        next = (int (*)(void **, size_t, size_t))dlsym(RTLD_NEXT, "posix_memalign");
    return is_refused() ? ENOMEM : next(at, alignment, size);
}
