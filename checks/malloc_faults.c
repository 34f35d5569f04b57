/* To be preloaded by a program: refuses the one allocation whose number, from 1, the variable REFUSED_ALLOCATION has, and
 * tells at the end, on standard error, how many there were. With the variable REFUSED_BEHIND_ACCEPT they are counted from
 * the first connection on that the program accepts; with REFUSED_BETWEEN_WRITES behind its first write to standard output,
 * up to the second one. Threads may allocate at the same time. */
#include <errno.h>
#include <stdatomic.h>
#include <stdio.h>
#include <stdlib.h>
#include <sys/syscall.h>
#include <unistd.h>

extern void *__libc_malloc(size_t);
extern void *__libc_calloc(size_t, size_t);
extern void *__libc_realloc(void *, size_t);

static atomic_long refused;
static atomic_long count;
static atomic_bool counts;
static int is_between_writes;
static atomic_int writes;

__attribute__((constructor)) static void begin(void)
{
    const char *number = getenv("REFUSED_ALLOCATION");
    refused = number ? atol(number) : 0;
    is_between_writes = getenv("REFUSED_BETWEEN_WRITES") != NULL;
    counts = !is_between_writes && getenv("REFUSED_BEHIND_ACCEPT") == NULL;
}

__attribute__((destructor)) static void end(void)
{
    fprintf(stderr, "allocations %ld\n", atomic_load(&count));
}

/* So ends a program that may have threads; it runs no destructors. */
void _exit(int status)
{
    end();
    syscall(SYS_exit_group, status);
    abort();
}

/* As sys/socket.h has it, which may declare its second parameter as a union. */
int accept4(int listener, void *address, unsigned int *length, int flags)
{
    int connection = (int)syscall(SYS_accept4, listener, address, length, flags);
    if (connection >= 0)
        counts = 1;
    return connection;
}

ssize_t write(int descriptor, const void *octets, size_t count)
{
    ssize_t written = syscall(SYS_write, descriptor, octets, count);
    if (is_between_writes && descriptor == STDOUT_FILENO)
        counts = atomic_fetch_add(&writes, 1) == 0;
    return written;
}

ssize_t __write(int descriptor, const void *octets, size_t count)
{
    return write(descriptor, octets, count);
}

/* One more allocation; whether it is refused. */
static int is_refused(void)
{
    if (!counts || atomic_fetch_add(&count, 1) + 1 != refused)
        return 0;
    errno = ENOMEM;
    return 1;
}

void *malloc(size_t size)
{
    return is_refused() ? NULL : __libc_malloc(size);
}

void *calloc(size_t number, size_t size)
{
    return is_refused() ? NULL : __libc_calloc(number, size);
}

void *realloc(void *block, size_t size)
{
    return is_refused() ? NULL : __libc_realloc(block, size);
}
