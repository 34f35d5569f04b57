/* To be preloaded by a program that Rattle compiled (x86-64): tells how long its locks are held. At the end it writes a line
 * into the file that the variable LOCK_TIMES names: of the lock that was held longest in all, how long it was held, how long
 * whoever wanted it waited, and when in the run the longest of each began. Where the variable LOCK_CLOCK is `processor` a
 * hold is as long as its thread ran meanwhile, so that what others took of the processor isn't counted. Percentiles are up
 * to a sixteenth above what they are.
 *
 * A `Mutex` of `std` has no call that could be replaced: it is a word that `lock cmpxchg` takes (from 1 or 4 to 0 or 2) and
 * gives back (from 0 or 2 to 1). So each of these instructions is replaced, before the program begins, by a jump to a copy
 * of it between two calls of this library. */
#define _GNU_SOURCE
#include <link.h>
#include <stdint.h>
#include <stdio.h>
#include <stdlib.h>
#include <string.h>
#include <sys/mman.h>
#include <sys/syscall.h>
#include <time.h>
#include <unistd.h>

/* The calls are made where the program expects none, and save the general registers alone. */
#define HOOK __attribute__((target("general-regs-only"), noinline)) static
#define PART __attribute__((target("general-regs-only"), always_inline)) static inline

enum { LOCKS = 1024, BUCKETS = 61 * 16, COPIES = 1 << 20, COPY = 256, PAGE = 4096, ZERO_FLAG = 0x40, RSP = 4 };

/* Durations by a clock, in buckets: 16 of one unit each, then 16 between each power of two and the next. */
struct durations {
    uint64_t count, sum, longest, longest_at;
    uint64_t buckets[BUCKETS];
};

/* What is written by whoever has the lock. */
struct times {
    uint64_t *lock;
    uint64_t got, since;
    struct durations holds, waits;
};

static struct times all[LOCKS];
static uint64_t began, began_ns;
static int by_processor, has_ended, replaced, left_alone;
static uint8_t *copies;
/* The lock that a thread wants, and since when. */
static __thread __attribute__((tls_model("initial-exec"))) uint64_t *wanted;
static __thread __attribute__((tls_model("initial-exec"))) uint64_t asked;

PART uint64_t ticks(void)
{
    return __builtin_ia32_rdtsc();
}

/* The nanoseconds that this thread has run, by a system call of its own. */
PART uint64_t run_ns(void)
{
    struct timespec time;
    long status = SYS_clock_gettime;
    __asm__ volatile("syscall" : "+a"(status) : "D"((long)CLOCK_THREAD_CPUTIME_ID), "S"(&time) : "rcx", "r11", "memory");
    return time.tv_sec * UINT64_C(1000000000) + time.tv_nsec;
}

/* The times of a lock, or none where there are too many. */
PART struct times *times_of(uint64_t *lock)
{
    uintptr_t place = (uintptr_t)lock / 8 * 31;
    for (int probe = 0; probe < LOCKS; probe++) {
        struct times *times = &all[(place + probe) % LOCKS];
        uint64_t *none = NULL;
        if (times->lock == lock ||
            __atomic_compare_exchange_n(&times->lock, &none, lock, 0, __ATOMIC_ACQ_REL, __ATOMIC_ACQUIRE) || none == lock)
            return times;
    }
    return NULL;
}

PART void add(struct durations *durations, uint64_t duration, uint64_t at)
{
    int power = duration < 16 ? 4 : 63 - __builtin_clzll(duration);
    uint64_t place = duration < 16 ? duration : (uint64_t)(power - 3) * 16 + (duration >> (power - 4)) % 16;
    durations->buckets[place]++;
    durations->count++;
    durations->sum += duration;
    if (duration > durations->longest) {
        durations->longest = duration;
        durations->longest_at = at;
    }
}

/* Before a word is written `new` where it is `current`. */
HOOK void before(uint64_t *lock, uint64_t current, uint64_t new)
{
    struct times *times;
    if (new != 1 || (current != 0 && current != 2) || !(times = times_of(lock)) || !times->got)
        return;
    add(&times->holds, (by_processor ? run_ns() : ticks()) - times->since, times->got);
    times->got = 0;
}

/* After that, where the word was `found`. */
HOOK void after(uint64_t *lock, uint64_t found, uint64_t new, uint64_t flags)
{
    struct times *times;
    uint64_t now;
    if (!(flags & ZERO_FLAG)) {
        if (new == 0 && wanted != lock) {
            wanted = lock;
            asked = ticks();
        }
        return;
    }
    if ((found != 1 && found != 4) || (new != 0 && new != 2) || !(times = times_of(lock)))
        return;
    now = ticks();
    add(&times->waits, wanted == lock ? now - asked : 0, now);
    wanted = NULL;
    times->got = now;
    times->since = by_processor ? run_ns() : now;
}

/* Whether an instruction has its operand on the stack. */
static int is_on_stack(const uint8_t *instruction)
{
    return (instruction[4] & 7) == RSP && (instruction[5] & 7) == RSP && !(instruction[1] & 1);
}

static uint8_t *put(uint8_t *to, const void *octets, size_t count)
{
    return (uint8_t *)memcpy(to, octets, count) + count;
}

/* Writes a call of a hook with the operands of an instruction: its address, rax, its register and the flags. */
static uint8_t *put_call(uint8_t *to, const uint8_t *instruction, size_t size, uintptr_t hook)
{
    uint8_t rex = instruction[1], modrm = instruction[4], from = (modrm >> 3 & 7) | (rex & 4) << 1;
    /* lea -128(%rsp), %rsp (there the program may have something), pushfq, push %rax, %rcx, %rdx, %rsi, %rdi, %r8 to %r11 */
    to = put(to, "\x48\x8d\x64\x24\x80\x9c\x50\x51\x52\x56\x57\x41\x50\x41\x51\x41\x52\x41\x53", 19);
    /* push the register; push %rax; lea the operand, %rdi; pop %rsi; pop %rdx; mov 72(%rsp), %rcx */
    to = put(to, (uint8_t[]){from & 8 ? 0x41 : 0x40, 0x50 | (from & 7), 0x50}, 3);
    to = put(to, (uint8_t[]){0x48 | (rex & 3), 0x8d, (modrm & 0xc7) | 7 << 3}, 3);
    to = put(to, instruction + 5, size - 5);
    /* add $224, %rdi, where the stack has been put lower by so much */
    if (is_on_stack(instruction))
        to = put(to, "\x48\x81\xc7\xe0\0\0\0", 7);
    to = put(to, "\x5e\x5a\x48\x8b\x4c\x24\x48", 7);
    /* push %rbp; mov %rsp, %rbp; and $-16, %rsp; mov the hook, %rax; call *%rax; mov %rbp, %rsp; pop %rbp */
    to = put(to, "\x55\x48\x89\xe5\x48\x83\xe4\xf0\x48\xb8", 10);
    to = put(to, &hook, 8);
    to = put(to, "\xff\xd0\x48\x89\xec\x5d", 6);
    /* pop %r11 to %r8, %rdi, %rsi, %rdx, %rcx, %rax; popfq; lea 128(%rsp), %rsp */
    return put(to, "\x41\x5b\x41\x5a\x41\x59\x41\x58\x5f\x5e\x5a\x59\x58\x9d\x48\x8d\xa4\x24\x80\0\0\0", 22);
}

static uint8_t *put_jump(uint8_t *to, const uint8_t *target)
{
    int32_t distance = target - (to + 5);
    return put(put(to, "\xe9", 1), &distance, 4);
}

/* The size of a `lock cmpxchg` of 64 bits; 0 for anything else, and where its operand isn't the same elsewhere. */
static size_t size_of(const uint8_t *at)
{
    uint8_t mod = at[4] >> 6, low = at[4] & 7;
    if (at[0] != 0xf0 || (at[1] & 0xf8) != 0x48 || at[2] != 0x0f || at[3] != 0xb1 || mod == 3)
        return 0;
    /* Its place is told from that of the instruction: a variable of the program, not a lock of its threads. */
    if (mod == 0 && low == 5) {
        left_alone++;
        return 0;
    }
    if (mod == 0)
        return low != RSP ? 5 : (at[5] & 7) == 5 ? 10 : 6;
    return 5 + (low == RSP) + (mod == 1 ? 1 : 4);
}

static void replace(uint8_t *at, size_t size)
{
    uint8_t *copy = copies + (size_t)replaced * COPY, *end;
    if ((size_t)(replaced + 1) * COPY > COPIES) {
        left_alone++;
        return;
    }
    end = put(put_call(copy, at, size, (uintptr_t)before), at, size);
    put_jump(put_call(end, at, size, (uintptr_t)after), at + size);
    put_jump(at, copy);
    replaced++;
}

/* Replaces the instructions of the program itself, which is the first that is told of. */
static int prepare(struct dl_phdr_info *info, size_t unused, void *none)
{
    (void)unused, (void)none;
    for (int part = 0; part < info->dlpi_phnum; part++) {
        const ElfW(Phdr) *header = &info->dlpi_phdr[part];
        uint8_t *first = (uint8_t *)(info->dlpi_addr + header->p_vaddr), *end = first + header->p_filesz;
        uintptr_t page = (uintptr_t)first / PAGE * PAGE;
        if (header->p_type != PT_LOAD || !(header->p_flags & PF_X))
            continue;
        for (uintptr_t near = page - COPIES * 64; !copies && near > page - COPIES * 1024; near -= COPIES) {
            void *room = mmap((void *)near, COPIES, PROT_READ | PROT_WRITE | PROT_EXEC,
                MAP_PRIVATE | MAP_ANONYMOUS | MAP_FIXED_NOREPLACE, -1, 0);
            copies = room == MAP_FAILED ? NULL : room;
        }
        if (!copies || mprotect((void *)page, end - (uint8_t *)page, PROT_READ | PROT_WRITE | PROT_EXEC))
            return 1;
        for (uint8_t *at = first; at + 10 <= end; at++) {
            size_t size = size_of(at);
            if (size) {
                replace(at, size);
                at += size - 1;
            }
        }
        mprotect((void *)page, end - (uint8_t *)page, PROT_READ | PROT_EXEC);
    }
    return 1;
}

static uint64_t wall_ns(void)
{
    struct timespec time;
    clock_gettime(CLOCK_MONOTONIC, &time);
    return time.tv_sec * UINT64_C(1000000000) + time.tv_nsec;
}

__attribute__((constructor)) static void begin(void)
{
    const char *clock = getenv("LOCK_CLOCK");
    by_processor = clock && !strcmp(clock, "processor");
    began = ticks();
    began_ns = wall_ns();
    if (getenv("LOCK_TIMES"))
        dl_iterate_phdr(prepare, NULL);
}

/* What so many of a thousand are no longer than. */
static double percentile(const struct durations *durations, uint64_t thousandths)
{
    uint64_t rest = durations->count * thousandths / 1000, place = 0, above;
    while (place < BUCKETS - 1 && durations->buckets[place] <= rest)
        rest -= durations->buckets[place++];
    above = place < 16 ? place : ((place % 16 + 17) << (place / 16 - 1)) - 1;
    return above < durations->longest ? above : durations->longest;
}

/* Writes durations whose unit is so long, where a tick takes so many nanoseconds. */
static void tell(FILE *file, const char *name, const struct durations *durations, double unit, double tick)
{
    double us = unit / 1e3;
    fprintf(file, "%s us p50 %.2f p99 %.2f p99.9 %.2f longest %.2f (after %.3f s)", name, percentile(durations, 500) * us,
        percentile(durations, 990) * us, percentile(durations, 999) * us, durations->longest * us,
        durations->longest ? (durations->longest_at - began) * tick / 1e9 : 0);
}

__attribute__((destructor)) static void end(void)
{
    const char *name = getenv("LOCK_TIMES");
    const struct times *most = all;
    double run = wall_ns() - began_ns, tick = run / (ticks() - began), unit = by_processor ? 1 : tick;
    FILE *file = NULL;
    if (!__atomic_exchange_n(&has_ended, 1, __ATOMIC_ACQ_REL) && name)
        file = fopen(name, "a");
    if (!file)
        return;
    for (int place = 1; place < LOCKS; place++)
        if (all[place].holds.sum > most->holds.sum)
            most = &all[place];
    fprintf(file, "taken %llu times, held %.1f %% of the time; ", (unsigned long long)most->holds.count,
        100 * most->holds.sum * unit / run);
    tell(file, "held", &most->holds, unit, tick);
    tell(file, "; waited for", &most->waits, tick, tick);
    fprintf(file, "; %d instructions replaced, %d left alone\n", replaced, left_alone);
    fclose(file);
}

/* So ends a program that may have threads; it runs no destructors. */
void _exit(int status)
{
    end();
    syscall(SYS_exit_group, status);
    abort();
}
