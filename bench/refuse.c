/* Refuses one allocation of a program, or that one and all behind it. Stands in front of the C library:
 *   cc -O2 -shared -fPIC bench/refuse.c -o refuse.so
 *   REFUSE=K [REFUSE_ALL=1] COUNT=FILE LD_PRELOAD=./refuse.so PROGRAM WORDS
 * Allocation number K, from 1, answers null; 0 refuses none. How many were asked for is written to FILE as the program ends.
 */
#include <errno.h>
#include <fcntl.h>
#include <stdio.h>
#include <stdlib.h>
#include <unistd.h>

extern void *__libc_malloc(size_t);
extern void *__libc_calloc(size_t, size_t);
extern void *__libc_realloc(void *, size_t);
extern void *__libc_memalign(size_t, size_t);

static unsigned long asked, refused;
static int all, counting;

__attribute__((constructor)) static void begin(void)
{
    const char *number = getenv("REFUSE");
    refused = number ? strtoul(number, NULL, 10) : 0;
    all = getenv("REFUSE_ALL") != NULL;
    counting = 1;
}

__attribute__((destructor)) static void end(void)
{
    const char *path = getenv("COUNT");
    char text[32];
    int size, file;
    counting = 0;
    if (!path)
        return;
    file = open(path, O_WRONLY | O_CREAT | O_TRUNC, 0600);
    size = snprintf(text, sizeof text, "%lu\n", asked);
    if (write(file, text, size) != size)
        _exit(99);
    close(file);
}

static int is_refused(void)
{
    if (!counting)
        return 0;
    asked++;
    return refused && (asked == refused || (all && asked > refused));
}

void *malloc(size_t size)
{
    return is_refused() ? NULL : __libc_malloc(size);
}

void *calloc(size_t count, size_t size)
{
    return is_refused() ? NULL : __libc_calloc(count, size);
}

void *realloc(void *old, size_t size)
{
    return is_refused() ? NULL : __libc_realloc(old, size);
}

void *memalign(size_t align, size_t size)
{
    return is_refused() ? NULL : __libc_memalign(align, size);
}

void *aligned_alloc(size_t align, size_t size)
{
    return memalign(align, size);
}

int posix_memalign(void **made, size_t align, size_t size)
{
    void *block = memalign(align, size);
    if (!block)
        return ENOMEM;
    *made = block;
    return 0;
}
