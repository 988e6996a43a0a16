/* To be preloaded into a program: refuses its request for memory number REFUSE, counted from 1, and where REFUSE_REST is set
   all later ones. At the first that is refused it adds a byte to the file REFUSED. tests/support/refusing.py builds and uses it, for ./dev oom. */
#define _GNU_SOURCE
#include <dlfcn.h>
#include <errno.h>
#include <fcntl.h>
#include <stdlib.h>
#include <unistd.h>

static long asked, wanted;
static int rest;

/* What is asked for before this is the loader's. */
__attribute__((constructor)) static void begin(void)
{
    const char *number = getenv("REFUSE");
    rest = getenv("REFUSE_REST") != NULL;
    wanted = number ? atol(number) : 0;
}

static void mark(void)
{
    const char *path = getenv("REFUSED");
    int file = path ? open(path, O_WRONLY | O_APPEND) : -1;
    if (file < 0 || write(file, "x", 1) != 1)
        _exit(99);
    close(file);
}

static int refused(void)
{
    if (wanted == 0 || ++asked < wanted || (asked > wanted && !rest))
        return 0;
    if (asked == wanted)
        mark();
    errno = ENOMEM;
    return 1;
}

/* The C library's own function of this name. */
#define NEXT(name)                                     \
    static __typeof__(&name) next;                     \
    if (!next)                                         \
        next = (__typeof__(&name))dlsym(RTLD_NEXT, #name)

void *malloc(size_t size)
{
    NEXT(malloc);
    return refused() ? NULL : next(size);
}

void *calloc(size_t count, size_t size)
{
    NEXT(calloc);
    return refused() ? NULL : next(count, size);
}

void *realloc(void *old, size_t size)
{
    NEXT(realloc);
    return refused() ? NULL : next(old, size);
}

void *aligned_alloc(size_t align, size_t size)
{
    NEXT(aligned_alloc);
    return refused() ? NULL : next(align, size);
}

int posix_memalign(void **out, size_t align, size_t size)
{
    NEXT(posix_memalign);
    return refused() ? ENOMEM : next(out, align, size);
}
