/*
 * malloc and realloc of the C library, except that one request gets no memory: the one with the number
 * REFUSED_REQUEST of the environment, counted from 1. It is preloaded (LD_PRELOAD). When the request comes, a line on
 * standard error says so.
 */
#include <stddef.h>
#include <stdlib.h>
#include <unistd.h>

extern void *__libc_malloc(size_t size);
extern void *__libc_realloc(void *old, size_t size);

static unsigned long refused;
static unsigned long requests;

__attribute__((constructor)) static void begin(void)
{
    const char *number = getenv("REFUSED_REQUEST");
    refused = number ? strtoul(number, NULL, 10) : 0;
    requests = 0;
}

static int is_refused(void)
{
    static const char told[] = "a request for memory is refused\n";
    if (refused == 0 || __atomic_add_fetch(&requests, 1, __ATOMIC_RELAXED) != refused)
        return 0;
    (void)!write(STDERR_FILENO, told, sizeof told - 1);
    return 1;
}

void *malloc(size_t size)
{
    return is_refused() ? NULL : __libc_malloc(size);
}

void *realloc(void *old, size_t size)
{
    return is_refused() ? NULL : __libc_realloc(old, size);
}
