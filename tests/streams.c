// Makes streams fail: reads of standard input after READ bytes, or the WRITE-th write to standard output, from 1, which fails, or
// takes no byte where NOTHING is set. With PIECES set, each read of standard input gives one byte at most; with SHORT set, each
// write to standard output takes one byte at most.
#define _GNU_SOURCE
#include <errno.h>
#include <stdlib.h>
#include <sys/syscall.h>
#include <unistd.h>

static long number(const char *name, long otherwise) {
    const char *text = getenv(name);
    return text == NULL ? otherwise : atol(text);
}

ssize_t read(int from, void *to, size_t size) {
    static long given;
    if (from != 0) return syscall(SYS_read, from, to, size);
    long left = number("READ", -1) - given;
    if (left == 0) {
        errno = EIO;
        return -1;
    }
    if (left > 0 && size > (size_t)left) size = left;
    if (getenv("PIECES") != NULL && size > 1) size = 1;
    ssize_t got = syscall(SYS_read, from, to, size);
    if (got > 0 && getenv("READ") != NULL) given += got;
    return got;
}

ssize_t write(int to, const void *from, size_t size) {
    static long count;
    if (to == 1 && ++count == number("WRITE", 0)) {
        if (getenv("NOTHING") != NULL) return 0;
        errno = EIO;
        return -1;
    }
    if (to == 1 && getenv("SHORT") != NULL && size > 1) size = 1;
    return syscall(SYS_write, to, from, size);
}

ssize_t __write(int to, const void *from, size_t size) { return write(to, from, size); }
