/* Refuses one allocation of a program: the one whose number, from 1, is in APF_REFUSE. Where APF_TOGETHER is set, it refuses that many
 * in a row. When it refuses, it makes the file that APF_REFUSED names. Where APF_LEAST is set, those of fewer bytes are not counted. A test tool, loaded
 * before the C library.
 *
 * Where APF_RUNS names two files that are open, as "ASKS ANSWERS", the program is loaded once, and runs from its first
 * line on in a child for each number that is asked for: the one of the allocation that is refused then. An ask is eight
 * bytes. An answer is four times eight, the status, whether it was refused, and the lengths of output and errors, and these.
 *
 * Where APF_FORKS is set too, the program is of one thread, and the numbers that are asked for mostly ascend. Then one run goes on to the allocation that is
 * asked for, and a child of it, with copies of what was printed, goes on without that one: what comes before it is not run anew. Where a run comes to its end,
 * that is the answer, and where a lower number is asked for, another run begins. */
#define _GNU_SOURCE
#include <errno.h>
#include <fcntl.h>
#include <stdint.h>
#include <stdio.h>
#include <stdlib.h>
#include <string.h>
#include <sys/mman.h>
#include <sys/wait.h>
#include <unistd.h>

extern void *__libc_malloc(size_t size);
extern void *__libc_calloc(size_t count, size_t size);
extern void *__libc_realloc(void *old, size_t size);
extern void *__libc_memalign(size_t alignment, size_t size);

static long count;
/* whether this run goes on to the allocation that is asked for, and the one that it is without, if it is a child of such a run */
static int is_followed;
static long without;

static void follow(long number);

/* What the one that begins runs sees too: the number that is asked for, or 0 where none is; whether a run ended since that lies behind it; and whether an
 * allocation was refused. */
static struct { int64_t number, is_behind, is_refused; } *asked;

static int refuses(size_t size) {
    const char *which = getenv("APF_REFUSE"), *together = getenv("APF_TOGETHER"), *least = getenv("APF_LEAST");
    if ((!which && !is_followed && !without) || (least && size < (size_t)atol(least)))
        return 0;
    long number = __atomic_add_fetch(&count, 1, __ATOMIC_SEQ_CST);
    if (is_followed)
        follow(number);
    if (is_followed)
        return 0;
    long behind = number - (without ? without : atol(which));
    if (behind < 0 || behind >= (together ? atol(together) : 1))
        return 0;
    if (asked)
        asked->is_refused = 1;
    const char *name = getenv("APF_REFUSED");
    int file = name ? open(name, O_CREAT | O_WRONLY, 0600) : -1;
    if (file >= 0)
        close(file);
    errno = ENOMEM;
    return 1;
}

void *malloc(size_t size) { return refuses(size) ? NULL : __libc_malloc(size); }
void *calloc(size_t n, size_t size) { return refuses(n * size) ? NULL : __libc_calloc(n, size); }
void *realloc(void *old, size_t size) { return refuses(size) ? NULL : __libc_realloc(old, size); }
void *aligned_alloc(size_t alignment, size_t size) { return refuses(size) ? NULL : __libc_memalign(alignment, size); }
void *memalign(size_t alignment, size_t size) { return refuses(size) ? NULL : __libc_memalign(alignment, size); }

int posix_memalign(void **to, size_t alignment, size_t size) {
    if (refuses(size))
        return ENOMEM;
    void *made = __libc_memalign(alignment, size);
    if (!made)
        return ENOMEM;
    *to = made;
    return 0;
}

static int takes(int file, void *to, size_t length) {
    for (ssize_t more; length; to = (char *)to + more, length -= more)
        if ((more = read(file, to, length)) <= 0)
            return 0;
    return 1;
}

static int gives(int file, const void *from, size_t length) {
    for (ssize_t more; length; from = (const char *)from + more, length -= more)
        if ((more = write(file, from, length)) <= 0)
            return 0;
    return 1;
}

// What was written to a file since it was made empty, which is passed on.
static int passes(int file, int64_t length, int to) {
    void *written = length ? mmap(NULL, length, PROT_READ, MAP_SHARED, file, 0) : NULL;
    int given = written != MAP_FAILED && gives(to, written, length);
    if (length && written != MAP_FAILED)
        munmap(written, length);
    return given;
}

static int is_empty(int file) { return ftruncate(file, 0) == 0 && lseek(file, 0, SEEK_SET) == 0; }

/* A short answer is one piece. */
static int answers_with(int answers, int status, const int *printed) {
    int64_t told[4] = {WIFEXITED(status) ? WEXITSTATUS(status) : -WTERMSIG(status), asked->is_refused, lseek(printed[0], 0, SEEK_END), lseek(printed[1], 0, SEEK_END)};
    char piece[4096];
    asked->is_refused = 0;
    if (told[2] + told[3] > (int64_t)(sizeof piece - sizeof told))
        return gives(answers, told, sizeof told) && passes(printed[0], told[2], answers) && passes(printed[1], told[3], answers);
    memcpy(piece, told, sizeof told);
    return pread(printed[0], piece + sizeof told, told[2], 0) == told[2] && pread(printed[1], piece + sizeof told + told[2], told[3], 0) == told[3] &&
           gives(answers, piece, sizeof told + told[2] + told[3]);
}

static int asks, answers;
/* what a child prints, behind what was printed before it */
static int copies[2];

/* the most that are open, and how many are closed in a row where there is none behind them */
enum { OPEN_FILES = 64, CLOSED = 8 };

static int copy(int from, int to) {
    char piece[4096];
    off_t at = 0;
    for (ssize_t more; (more = pread(from, piece, sizeof piece, at)) > 0; at += more)
        if (!gives(to, piece, more))
            return 0;
    return 1;
}

/* Before the allocation of this number: as often as it is asked for, a child goes on without it. */
static void follow(long number) {
    while (asked->number == number) {
        off_t places[OPEN_FILES];
        int files = 0;
        /* the child moves the places in files that both have open */
        for (int closed = 0; files < OPEN_FILES && closed < CLOSED; files++) {
            places[files] = lseek(files, 0, SEEK_CUR);
            closed = places[files] < 0 && errno == EBADF ? closed + 1 : 0;
        }
        for (int file = 0; file < 2; file++)
            if (!is_empty(copies[file]) || !copy(file + 1, copies[file]))
                _exit(125);
        pid_t child = fork();
        if (child == 0) {
            if (dup2(copies[0], 1) < 0 || dup2(copies[1], 2) < 0)
                _exit(125);
            close(asks);
            close(answers);
            is_followed = 0;
            without = number;
            return;
        }
        int status;
        if (child < 0 || waitpid(child, &status, 0) != child || !answers_with(answers, status, copies))
            _exit(125);
        for (int file = 0; file < files; file++)
            if (places[file] >= 0)
                lseek(file, places[file], SEEK_SET);
        if (!takes(asks, &asked->number, sizeof asked->number))
            asked->number = 0;
        if (asked->number < number) {
            asked->is_behind = 1;
            _exit(0);
        }
    }
}

__attribute__((constructor)) static void runs(void) {
    const char *files = getenv("APF_RUNS"), *forks = getenv("APF_FORKS");
    int printed[2];
    if (!files || sscanf(files, "%d %d", &asks, &answers) != 2)
        return;
    unsetenv("APF_RUNS");
    printed[0] = memfd_create("output", MFD_CLOEXEC);
    printed[1] = memfd_create("errors", MFD_CLOEXEC);
    if (printed[0] < 0 || printed[1] < 0)
        _exit(125);
    void *shared = mmap(NULL, sizeof *asked, PROT_READ | PROT_WRITE, MAP_SHARED | MAP_ANONYMOUS, -1, 0);
    if (shared == MAP_FAILED)
        _exit(125);
    asked = shared;
    if (forks) {
        copies[0] = memfd_create("output", MFD_CLOEXEC);
        copies[1] = memfd_create("errors", MFD_CLOEXEC);
        if (copies[0] < 0 || copies[1] < 0)
            _exit(125);
    }
    for (int64_t number; forks ? asked->number || takes(asks, &asked->number, sizeof number) : takes(asks, &number, sizeof number);) {
        lseek(0, 0, SEEK_SET);
        if (!is_empty(printed[0]) || !is_empty(printed[1]))
            _exit(125);
        pid_t child = fork();
        if (child == 0 && forks) {
            if (dup2(printed[0], 1) < 0 || dup2(printed[1], 2) < 0)
                _exit(125);
            is_followed = 1;
            return;
        }
        if (child == 0) {
            char text[24];
            snprintf(text, sizeof text, "%lld", (long long)number);
            if (dup2(printed[0], 1) < 0 || dup2(printed[1], 2) < 0 || setenv("APF_REFUSE", text, 1) != 0)
                _exit(125);
            close(asks);
            close(answers);
            return;
        }
        int status;
        if (child < 0 || waitpid(child, &status, 0) != child)
            _exit(125);
        int is_told = forks && asked->is_behind;
        if (!is_told && !answers_with(answers, status, printed))
            _exit(125);
        if (forks) {
            asked->number = is_told ? asked->number : 0;
            asked->is_behind = 0;
        }
    }
    _exit(0);
}
