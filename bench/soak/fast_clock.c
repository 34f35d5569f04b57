/* To be preloaded by a program: clocks that are many times as fast. What the program is shown as the time, monotonic
 * or since 1970, goes on from the moment at which the fast clocks began; sleeps and time-outs of the system stay as
 * they are.
 *
 * FAST_CLOCK_TIMES: how many times as fast the monotonic clock is.
 * FAST_CLOCK_WALL_TIMES: how many times as fast the other one is.
 * FAST_CLOCK_BEGAN: what the system's monotonic clock showed when they began, in nanoseconds; so it shows then, too.
 * FAST_CLOCK_WALL: the nanoseconds since 1970 that the other one showed then. */
#define _GNU_SOURCE
#include <stdint.h>
#include <stdlib.h>
#include <sys/syscall.h>
#include <time.h>
#include <unistd.h>

static int64_t times, wall_times, began, wall;

static int64_t number_of(const char *name)
{
    const char *number = getenv(name);
    if (!number) abort();
    return atoll(number);
}

__attribute__((constructor)) static void begin(void)
{
    times = number_of("FAST_CLOCK_TIMES");
    wall_times = number_of("FAST_CLOCK_WALL_TIMES");
    began = number_of("FAST_CLOCK_BEGAN");
    wall = number_of("FAST_CLOCK_WALL");
}

int clock_gettime(clockid_t clock, struct timespec *time)
{
    if (clock != CLOCK_MONOTONIC && clock != CLOCK_REALTIME) return syscall(SYS_clock_gettime, clock, time);
    int status = syscall(SYS_clock_gettime, CLOCK_MONOTONIC, time);
    int64_t passed = time->tv_sec * INT64_C(1000000000) + time->tv_nsec - began;
    int64_t shown = clock == CLOCK_MONOTONIC ? began + times * passed : wall + wall_times * passed;
    time->tv_sec = shown / 1000000000;
    time->tv_nsec = shown % 1000000000;
    return status;
}
