/* Counts how many turns of work each thread of a program does, and lets threads wait for one another at chosen places. The threads run an instruction at a time, and
 * each is looked at: a turn of work is one `pause` of the processor. A test tool for x86-64, loaded before the C library.
 *
 * What a thread does has a kind: it begins, makes a turn of work, sleeps, wakes up, wakes others, ends. A stop is a turn of work or a sleep. Threads are numbered
 * from 0, as they are made. APF_HOLDS says who waits for whom: by `1.turn.2:0.sleep.1` thread 1 waits at its second turn until thread 0 sleeps for the first time,
 * or has ended. Where that takes very long the program ends with status 99.
 *
 * APF_PLACES has the places of the program at which a `pause` is a turn of work: a thread that waits for a lock makes some, too. Where it has none, each place is
 * noted. APF_COUNTS names a file of zeros. In it stand, in numbers of eight bytes, what each thread did of each kind, and then each place with its number of turns. */
#define _GNU_SOURCE
#include <dlfcn.h>
#include <errno.h>
#include <fcntl.h>
#include <link.h>
#include <linux/futex.h>
#include <pthread.h>
#include <sched.h>
#include <signal.h>
#include <stdarg.h>
#include <stdint.h>
#include <stdio.h>
#include <stdlib.h>
#include <string.h>
#include <sys/mman.h>
#include <sys/syscall.h>
#include <time.h>
#include <ucontext.h>
#include <unistd.h>

enum { BEGIN, TURN, SLEEP, STOP, WOKEN, WAKE, END, KINDS, THREADS = 64, PLACES = 64, HOLDS = 1024, LONGEST = 60 };
static const char *const NAMES[KINDS] = {"begin", "turn", "sleep", "stop", "woken", "wake", "end"};

static struct {
    int64_t counts[THREADS][KINDS];
    struct { int64_t at, turns; } places[PLACES];
} *told;

static struct { int thread, kind, other, other_kind; long count, other_count; } holds[HOLDS];
static uintptr_t base, work[PLACES];
static int holds_in_all, places_in_all, threads_in_all;
static __thread int own = -1;

static int64_t read_count(int thread, int kind) { return __atomic_load_n(&told->counts[thread][kind], __ATOMIC_SEQ_CST); }

/* The thread does something of this kind once more, and waits where it is to. */
static void does(int kind) {
    if (kind == TURN || kind == SLEEP)
        does(STOP);
    long count = __atomic_add_fetch(&told->counts[own][kind], 1, __ATOMIC_SEQ_CST);
    for (int hold = 0; hold < holds_in_all; hold++) {
        if (holds[hold].thread != own || holds[hold].kind != kind || holds[hold].count != count)
            continue;
        int other = holds[hold].other;
        for (time_t begin = time(NULL); read_count(other, holds[hold].other_kind) < holds[hold].other_count && !read_count(other, END); sched_yield())
            if (time(NULL) - begin > LONGEST)
                _exit(99);
    }
}

/* Whether a `pause` at this place is a turn of work. */
static int is_work(int64_t at) {
    for (int place = 0; place < places_in_all; place++)
        if ((int64_t)work[place] == at)
            return 1;
    for (int place = 0; place < PLACES && !places_in_all; place++) {
        int64_t there = 0;
        if (__atomic_compare_exchange_n(&told->places[place].at, &there, at, 0, __ATOMIC_SEQ_CST, __ATOMIC_SEQ_CST) || there == at)
            return __atomic_add_fetch(&told->places[place].turns, 1, __ATOMIC_SEQ_CST) > 0;
    }
    return 0;
}

/* Before each instruction of a thread. */
static void looks(int number, siginfo_t *info, void *context) {
    (void)number, (void)info;
    int before = errno;
    const uint8_t *next = (const uint8_t *)((ucontext_t *)context)->uc_mcontext.gregs[REG_RIP];
    if (next[0] == 0xf3 && next[1] == 0x90 && is_work((uintptr_t)next - base))
        does(TURN);
    errno = before;
}

/* From now on the processor stops at each instruction of this thread, or no more. */
static void steps(int is_on) {
    if (is_on)
        __asm__ volatile("sub $128, %%rsp\n pushfq\n orq $0x100, (%%rsp)\n popfq\n add $128, %%rsp" ::: "cc", "memory");
    else
        __asm__ volatile("sub $128, %%rsp\n pushfq\n andq $~0x100, (%%rsp)\n popfq\n add $128, %%rsp" ::: "cc", "memory");
}

struct begun { void *(*runs)(void *); void *with; int number; };

static void *begins(void *with) {
    struct begun begun = *(struct begun *)with;
    free(with);
    own = begun.number;
    does(BEGIN);
    steps(1);
    void *answer = begun.runs(begun.with);
    steps(0);
    does(END);
    return answer;
}

int pthread_create(pthread_t *thread, const pthread_attr_t *how, void *(*runs)(void *), void *with) {
    int (*create)(pthread_t *, const pthread_attr_t *, void *(*)(void *), void *);
    *(void **)&create = dlsym(RTLD_NEXT, "pthread_create");
    struct begun *begun = told && threads_in_all < THREADS ? malloc(sizeof *begun) : NULL;
    if (!begun)
        return create(thread, how, runs, with);
    *begun = (struct begun){runs, with, threads_in_all++};
    return create(thread, how, begins, begun);
}

/* The program's calls of the system, by which its threads sleep and wake others. */
long syscall(long number, ...) {
    long word[6], answer;
    va_list rest;
    va_start(rest, number);
    for (int at = 0; at < 6; at++)
        word[at] = va_arg(rest, long);
    va_end(rest);
    int call = number == SYS_futex && own >= 0 ? word[1] & FUTEX_CMD_MASK : -1;
    if (call == FUTEX_WAIT || call == FUTEX_WAIT_BITSET)
        does(SLEEP);
    register long fourth __asm__("r10") = word[3], fifth __asm__("r8") = word[4], sixth __asm__("r9") = word[5];
    __asm__ volatile("syscall" : "=a"(answer) : "a"(number), "D"(word[0]), "S"(word[1]), "d"(word[2]), "r"(fourth), "r"(fifth), "r"(sixth) : "rcx", "r11", "memory");
    if (call == FUTEX_WAIT || call == FUTEX_WAIT_BITSET)
        does(WOKEN);
    if (call == FUTEX_WAKE || call == FUTEX_WAKE_BITSET)
        does(WAKE);
    if (answer > -4096 && answer < 0) {
        errno = -answer;
        return -1;
    }
    return answer;
}

static int kind_of(const char *name) {
    for (int kind = 0; kind < KINDS; kind++)
        if (!strcmp(NAMES[kind], name))
            return kind;
    _exit(98);
}

/* The program comes first. */
static int takes_base(struct dl_phdr_info *info, size_t size, void *with) {
    (void)size;
    *(uintptr_t *)with = info->dlpi_addr;
    return 1;
}

__attribute__((constructor)) static void reads_what_is_asked(void) {
    const char *counts = getenv("APF_COUNTS"), *text = getenv("APF_HOLDS"), *places = getenv("APF_PLACES");
    int file = counts ? open(counts, O_RDWR) : -1, read;
    void *shared = file < 0 ? MAP_FAILED : mmap(NULL, sizeof *told, PROT_READ | PROT_WRITE, MAP_SHARED, file, 0);
    if (shared == MAP_FAILED)
        return;
    close(file);
    dl_iterate_phdr(takes_base, &base);
    while (places && places_in_all < PLACES && sscanf(places, "%lx%n", &work[places_in_all], &read) == 1) {
        places_in_all++;
        places += read;
    }
    while (text && *text) {
        char kind[8], other_kind[8];
        int thread, other;
        long count, other_count;
        if (holds_in_all == HOLDS || sscanf(text, "%d.%7[a-z].%ld:%d.%7[a-z].%ld%n", &thread, kind, &count, &other, other_kind, &other_count, &read) != 6 || other >= THREADS)
            _exit(98);
        holds[holds_in_all].thread = thread, holds[holds_in_all].kind = kind_of(kind), holds[holds_in_all].count = count;
        holds[holds_in_all].other = other, holds[holds_in_all].other_kind = kind_of(other_kind), holds[holds_in_all].other_count = other_count;
        holds_in_all++;
        text += read;
        while (*text == ' ')
            text++;
    }
    struct sigaction looking = {.sa_sigaction = looks, .sa_flags = SA_SIGINFO};
    sigaction(SIGTRAP, &looking, NULL);
    told = shared;
}
