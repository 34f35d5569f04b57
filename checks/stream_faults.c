/* To be preloaded by a program: makes the reads of its standard input and the writes of its standard output short,
 * interrupted or failing, as variables of the environment say, and tells at the end, on standard error, what it did.
 *
 * READ_MOST, WRITE_MOST: how many octets a call takes at most.
 * READ_INTERRUPTED, WRITE_INTERRUPTED: 1 where each call is interrupted once before it is made.
 * READ_FAULT: the error with which reads fail at the end of the input.
 * WRITE_ROOM, WRITE_FAULT: how many octets are written, and the error with which writes fail behind them. */
#include <errno.h>
#include <limits.h>
#include <stdio.h>
#include <stdlib.h>
#include <sys/syscall.h>
#include <unistd.h>

struct stream {
    size_t most;
    size_t room;
    int fault;
    int interrupts;
    int was_interrupted;
    long calls;
    long interrupted;
    long failed;
};

static struct stream input, output;

static long number_of(const char *name, long otherwise)
{
    const char *number = getenv(name);
    return number ? atol(number) : otherwise;
}

__attribute__((constructor)) static void begin(void)
{
    input.most = number_of("READ_MOST", LONG_MAX);
    input.interrupts = number_of("READ_INTERRUPTED", 0);
    input.fault = number_of("READ_FAULT", 0);
    output.most = number_of("WRITE_MOST", LONG_MAX);
    output.interrupts = number_of("WRITE_INTERRUPTED", 0);
    output.room = number_of("WRITE_ROOM", LONG_MAX);
    output.fault = number_of("WRITE_FAULT", EIO);
}

__attribute__((destructor)) static void end(void)
{
    fprintf(stderr, "reads %ld interrupted %ld failed %ld\n", input.calls, input.interrupted, input.failed);
    fprintf(stderr, "writes %ld interrupted %ld failed %ld\n", output.calls, output.interrupted, output.failed);
}

/* So ends a program that may have threads; it runs no destructors. */
void _exit(int status)
{
    end();
    syscall(SYS_exit_group, status);
    abort();
}

/* Whether the call is interrupted; if it isn't, it is counted. */
static int interrupts(struct stream *it)
{
    it->was_interrupted = it->interrupts && !it->was_interrupted;
    if (it->was_interrupted) {
        it->interrupted++;
        errno = EINTR;
    } else {
        it->calls++;
    }
    return it->was_interrupted;
}

static ssize_t fails(struct stream *it)
{
    it->failed++;
    errno = it->fault;
    return -1;
}

static size_t least(size_t one, size_t other)
{
    return one < other ? one : other;
}

ssize_t read(int descriptor, void *octets, size_t count)
{
    if (descriptor != STDIN_FILENO) return syscall(SYS_read, descriptor, octets, count);
    if (interrupts(&input)) return -1;
    ssize_t taken = syscall(SYS_read, descriptor, octets, least(count, input.most));
    return taken == 0 && count && input.fault ? fails(&input) : taken;
}

ssize_t write(int descriptor, const void *octets, size_t count)
{
    if (descriptor != STDOUT_FILENO) return syscall(SYS_write, descriptor, octets, count);
    if (interrupts(&output)) return -1;
    if (count && !output.room) return fails(&output);
    ssize_t taken = syscall(SYS_write, descriptor, octets, least(count, least(output.most, output.room)));
    if (taken > 0) output.room -= taken;
    return taken;
}

ssize_t __write(int descriptor, const void *octets, size_t count)
{
    return write(descriptor, octets, count);
}
