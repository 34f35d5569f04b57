/* To be preloaded by a program: counts the octets that it has taken of the heap and not given back, as `malloc_usable_size`
 * tells each block's. What the C library keeps for itself, of blocks that were given back among others, isn't counted.
 *
 * HEAP_COUNT_FILE: a file of eight octets at least, whose first eight are the count. */
#define _GNU_SOURCE
#include <fcntl.h>
#include <malloc.h>
#include <stdatomic.h>
#include <stddef.h>
#include <stdlib.h>
#include <sys/mman.h>
#include <unistd.h>

extern void *__libc_malloc(size_t), *__libc_calloc(size_t, size_t), *__libc_realloc(void *, size_t);
extern void __libc_free(void *);

static atomic_long at_first;
static atomic_long *count = &at_first;

/* Runs before the program's `main`, in its one thread. */
__attribute__((constructor)) static void begin(void)
{
    const char *name = getenv("HEAP_COUNT_FILE");
    int file = name ? open(name, O_RDWR | O_CLOEXEC) : -1;
    if (file < 0) abort();
    atomic_long *shared = mmap(NULL, sizeof *shared, PROT_READ | PROT_WRITE, MAP_SHARED, file, 0);
    close(file);
    if (shared == MAP_FAILED) abort();
    atomic_store(shared, atomic_load(&at_first));
    count = shared;
}

static void *taken(void *block)
{
    if (block) atomic_fetch_add(count, (long)malloc_usable_size(block));
    return block;
}

void *malloc(size_t size)
{
    return taken(__libc_malloc(size));
}

void *calloc(size_t number, size_t size)
{
    return taken(__libc_calloc(number, size));
}

void *realloc(void *block, size_t size)
{
    long before = block ? (long)malloc_usable_size(block) : 0;
    void *after = __libc_realloc(block, size);
    if (after || size == 0) atomic_fetch_sub(count, before);
    return taken(after);
}

void free(void *block)
{
    if (block) atomic_fetch_sub(count, (long)malloc_usable_size(block));
    __libc_free(block);
}
