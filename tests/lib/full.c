/* Refuses one write of a program to its standard output, as a disk does that is full: the one whose number, from 1, is in APF_FULL. What comes behind it finds
 * room. A test tool, loaded before the C library. */
#define _GNU_SOURCE
#include <errno.h>
#include <stdlib.h>
#include <sys/syscall.h>
#include <unistd.h>

static long count;

static ssize_t writes(int file, const void *from, size_t length) {
    const char *which = getenv("APF_FULL");
    if (file == 1 && which && __atomic_add_fetch(&count, 1, __ATOMIC_SEQ_CST) == atol(which)) {
        errno = ENOSPC;
        return -1;
    }
    return syscall(SYS_write, file, from, length);
}

ssize_t write(int file, const void *from, size_t length) { return writes(file, from, length); }
ssize_t __write(int file, const void *from, size_t length) { return writes(file, from, length); }
