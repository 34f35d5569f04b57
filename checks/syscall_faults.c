/* To be preloaded by a program: bends what the system tells it, for peers at some addresses, and the time.
 *
 * 127.101.0.N: connecting fails with the error of this number; 127.102.C.N: reading does, behind C reads that don't;
 * 127.103.C.N: writing does, behind C writes; 127.104.0.N: accepting a connection does, which is closed.
 * 127.105.0.N: a call reads or writes N octets at most, and is interrupted once before it is made.
 * 127.106.0.N: a thread that has read from it takes N hundredths of a second each time that it reads the time of day.
 * 127.107.0.N: of what is written to it the system keeps some N kB at most until it reads.
 * OPENED_AS_IT_IS: the path of a file that is opened as it stands where it was to be made anew.
 * TIME_OF_DAY: a file with the time of day in milliseconds since 1970, which stands still until the file is written, how many
 * hundredths of a second a thread without a peer takes each time that it reads it, and how many milliseconds the monotonic clock
 * is ahead; eight octets each. */
#include <errno.h>
#include <fcntl.h>
#include <stdarg.h>
#include <stdatomic.h>
#include <stddef.h>
#include <stdint.h>
#include <stdlib.h>
#include <string.h>
#include <sys/mman.h>
#include <sys/syscall.h>
#include <time.h>
#include <unistd.h>

enum { CONNECTING = 101, READING, WRITING, ACCEPTING, INTERRUPTED, SLOW, NARROW };

/* Of sys/socket.h. */
enum { SOL_SOCKET = 1, SO_SNDBUF = 7 };

/* An address of IPv4, whose family is 2; sys/socket.h may declare addresses as unions. */
struct address {
    unsigned short family, port;
    unsigned char host[4];
    unsigned char rest[120];
};

/* How often a connection may still be read, and written, before that fails. */
enum { MOST_CONNECTIONS = 1024 };
static atomic_int reads_left[MOST_CONNECTIONS], writes_left[MOST_CONNECTIONS];

static const volatile int64_t *time_of_day;
static _Thread_local long slow_by;
static _Thread_local int has_peer, was_interrupted;

__attribute__((constructor)) static void begin(void)
{
    const char *name = getenv("TIME_OF_DAY");
    int file = name ? open(name, O_RDONLY | O_CLOEXEC) : -1;
    if (file < 0)
        return;
    void *octets = mmap(NULL, 3 * sizeof *time_of_day, PROT_READ, MAP_SHARED, file, 0);
    time_of_day = octets == MAP_FAILED ? NULL : octets;
    close(file);
}

/* What is bent for an address, and its last octet; 0 where nothing is. */
static int bent(const struct address *it, int *last)
{
    int is_bent = it->family == 2 && it->host[0] == 127 && it->host[1] >= CONNECTING && it->host[1] <= NARROW;
    *last = it->host[3];
    return is_bent ? it->host[1] : 0;
}

static int bent_for(int connection, int *last)
{
    struct address peer = {0};
    unsigned int length = sizeof peer;
    return syscall(SYS_getpeername, connection, &peer, &length) == 0 ? bent(&peer, last) : 0;
}

static int fails(int error)
{
    errno = error;
    return -1;
}

/* A new connection to this address may be read and written as often as its third octet says, and has the room to write that
 * it is to have. */
static void begin_calls(int connection, const struct address *it)
{
    int last, room;
    reads_left[connection % MOST_CONNECTIONS] = writes_left[connection % MOST_CONNECTIONS] = it->host[2];
    if (bent(it, &last) != NARROW)
        return;
    /* The system takes twice of it, half for its own needs. */
    room = last * 1024;
    syscall(SYS_setsockopt, connection, SOL_SOCKET, SO_SNDBUF, &room, sizeof room);
}

/* Whether this call is interrupted; the next one of its thread isn't. */
static int interrupts(void)
{
    was_interrupted = !was_interrupted;
    return was_interrupted;
}

int connect(int connection, const void *address, unsigned int length)
{
    int last;
    if (length >= 8 && bent(address, &last) == CONNECTING)
        return fails(last);
    if (length >= 8)
        begin_calls(connection, address);
    return (int)syscall(SYS_connect, connection, address, length);
}

int accept4(int listener, void *address, unsigned int *length, int flags)
{
    struct address peer = {0};
    unsigned int size = sizeof peer;
    int connection = (int)syscall(SYS_accept4, listener, address, length, flags), last;
    if (connection >= 0 && syscall(SYS_getpeername, connection, &peer, &size) == 0)
        begin_calls(connection, &peer);
    if (connection < 0 || bent_for(connection, &last) != ACCEPTING)
        return connection;
    close(connection);
    return fails(last);
}

ssize_t recv(int connection, void *octets, size_t count, int flags)
{
    int last, what = bent_for(connection, &last);
    ssize_t got;
    if (what == READING && reads_left[connection % MOST_CONNECTIONS] <= 0)
        return fails(last);
    if (what == INTERRUPTED && interrupts())
        return fails(EINTR);
    if (what == INTERRUPTED && count > (size_t)last)
        count = last;
    has_peer = 1;
    slow_by = what == SLOW ? last : 0;
    got = syscall(SYS_recvfrom, connection, octets, count, flags, NULL, NULL);
    if (got > 0)
        reads_left[connection % MOST_CONNECTIONS]--;
    return got;
}

ssize_t send(int connection, const void *octets, size_t count, int flags)
{
    int last, what = bent_for(connection, &last);
    if (what == WRITING && writes_left[connection % MOST_CONNECTIONS]-- <= 0)
        return fails(last);
    if (what == INTERRUPTED && interrupts())
        return fails(EINTR);
    if (what == INTERRUPTED && count > (size_t)last)
        count = last;
    return syscall(SYS_sendto, connection, octets, count, flags, NULL, 0);
}

int open(const char *name, int flags, ...)
{
    const char *as_it_is = getenv("OPENED_AS_IT_IS");
    unsigned int mode = 0;
    if (flags & O_CREAT) {
        va_list rest;
        va_start(rest, flags);
        mode = va_arg(rest, unsigned int);
        va_end(rest);
    }
    if (as_it_is && strcmp(name, as_it_is) == 0)
        flags &= ~O_EXCL;
    return (int)syscall(SYS_openat, AT_FDCWD, name, flags, mode);
}

static void rest_for(long hundredths)
{
    struct timespec pause = {hundredths / 100, hundredths % 100 * 10000000};
    if (hundredths)
        nanosleep(&pause, NULL);
}

static int monotonic_time(struct timespec *time)
{
    int status = (int)syscall(SYS_clock_gettime, CLOCK_MONOTONIC, time);
    time->tv_sec += time_of_day ? time_of_day[2] / 1000 : 0;
    return status;
}

int clock_gettime(clockid_t clock, struct timespec *time)
{
    if (clock == CLOCK_MONOTONIC)
        return monotonic_time(time);
    if (clock != CLOCK_REALTIME)
        return (int)syscall(SYS_clock_gettime, clock, time);
    rest_for(has_peer || !time_of_day ? slow_by : time_of_day[1]);
    if (!time_of_day)
        return (int)syscall(SYS_clock_gettime, clock, time);
    time->tv_sec = time_of_day[0] / 1000;
    time->tv_nsec = time_of_day[0] % 1000 * 1000000;
    return 0;
}
