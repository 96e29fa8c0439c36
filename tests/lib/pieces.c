/* Cuts what a program reads of standard input into pieces of at most APF_EACH bytes. Where APF_FAILS_AT is set, the read of that number, from 1, fails with
 * the error APF_ERROR, and takes nothing. A test tool, loaded before the C library. */
#define _GNU_SOURCE
#include <errno.h>
#include <stdlib.h>
#include <sys/syscall.h>
#include <unistd.h>

ssize_t read(int file, void *to, size_t length) {
    static long count;
    if (file == 0) {
        const char *fails_at = getenv("APF_FAILS_AT");
        size_t each = (size_t)atol(getenv("APF_EACH"));
        if (fails_at && ++count == atol(fails_at)) {
            errno = atoi(getenv("APF_ERROR"));
            return -1;
        }
        length = length < each ? length : each;
    }
    return syscall(SYS_read, file, to, length);
}
