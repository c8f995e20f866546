/* Preloaded into a program, refuses one of its requests for memory: the one whose number, from 1, REFUSE holds. At the program's end
   it writes how many requests there were to the file that REQUESTS names. */
#include <errno.h>
#include <stddef.h>
#include <stdio.h>
#include <stdlib.h>

extern void *__libc_malloc(size_t size);
extern void *__libc_calloc(size_t count, size_t size);
extern void *__libc_realloc(void *block, size_t size);
extern void *__libc_memalign(size_t alignment, size_t size);

static unsigned long refused, made;

__attribute__((constructor)) static void begin(void)
{
    const char *number = getenv("REFUSE");
    refused = number ? strtoul(number, NULL, 10) : 0;
    made = 0;
}

__attribute__((destructor)) static void end(void)
{
    const char *name = getenv("REQUESTS");
    unsigned long requests = made;
    FILE *file = name ? fopen(name, "w") : NULL;
    if (file == NULL)
        return;
    fprintf(file, "%lu\n", requests);
    fclose(file);
}

static int refuses(void)
{
    if (++made != refused)
        return 0;
    errno = ENOMEM;
    return 1;
}

void *malloc(size_t size) { return refuses() ? NULL : __libc_malloc(size); }

void *calloc(size_t count, size_t size) { return refuses() ? NULL : __libc_calloc(count, size); }

void *realloc(void *block, size_t size) { return refuses() ? NULL : __libc_realloc(block, size); }

void *memalign(size_t alignment, size_t size) { return refuses() ? NULL : __libc_memalign(alignment, size); }

void *aligned_alloc(size_t alignment, size_t size) { return refuses() ? NULL : __libc_memalign(alignment, size); }

int posix_memalign(void **block, size_t alignment, size_t size)
{
    void *made_block = refuses() ? NULL : __libc_memalign(alignment, size);
    if (made_block == NULL)
        return ENOMEM;
    *block = made_block;
    return 0;
}
