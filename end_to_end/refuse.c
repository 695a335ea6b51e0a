/* A library that is loaded into a program before the C library, and refuses one of its allocations.
 *
 * REFUSE=N has the Nth allocation refused, counted from 1 and from the start of the process. Where that happens, one byte is
 * written to the file descriptor 9.
 */
#include <errno.h>
#include <stddef.h>
#include <stdint.h>
#include <stdlib.h>
#include <unistd.h>

extern void *__libc_malloc(size_t size);
extern void *__libc_calloc(size_t count, size_t size);
extern void *__libc_realloc(void *block, size_t size);
extern void *__libc_memalign(size_t align, size_t size);

static unsigned long left;

__attribute__((constructor)) static void begin(void)
{
    const char *number = getenv("REFUSE");
    left = number ? strtoul(number, NULL, 10) : 0;
}

static int refuses(void)
{
    if (left == 0 || --left > 0)
        return 0;
    if (write(9, "!", 1) != 1)
        _exit(99);
    errno = ENOMEM;
    return 1;
}

void *malloc(size_t size)
{
    return refuses() ? NULL : __libc_malloc(size);
}

void *calloc(size_t count, size_t size)
{
    return refuses() ? NULL : __libc_calloc(count, size);
}

void *realloc(void *block, size_t size)
{
    return refuses() ? NULL : __libc_realloc(block, size);
}

void *reallocarray(void *block, size_t count, size_t size)
{
    size_t bytes;
    if (__builtin_mul_overflow(count, size, &bytes)) {
        errno = ENOMEM;
        return NULL;
    }
    return realloc(block, bytes);
}

void *memalign(size_t align, size_t size)
{
    return refuses() ? NULL : __libc_memalign(align, size);
}

void *aligned_alloc(size_t align, size_t size)
{
    return memalign(align, size);
}

int posix_memalign(void **block, size_t align, size_t size)
{
    if (refuses())
        return ENOMEM;
    void *found = __libc_memalign(align, size);
    if (found == NULL)
        return ENOMEM;
    *block = found;
    return 0;
}
