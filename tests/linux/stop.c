// Counts the calls by which a program changes something below STOP_ROOT: a folder that is made or removed, and text that is written
// into a file. The one whose number, from 1, stands in STOP_FAIL fails with the number in STOP_ERRNO and is not made; the process is
// killed behind the one in STOP_KILL.
#define _GNU_SOURCE
#include <dlfcn.h>
#include <errno.h>
#include <fcntl.h>
#include <signal.h>
#include <stdarg.h>
#include <stdlib.h>
#include <string.h>
#include <sys/stat.h>
#include <unistd.h>

static char counted[1024];
static int calls;

static int below(const char *path) {
    const char *root = getenv("STOP_ROOT");
    return root && strncmp(path, root, strlen(root)) == 0;
}

static int number_is(const char *name) {
    const char *number = getenv(name);
    return number && calls == atoi(number);
}

static int fails(void) {
    calls++;
    if (number_is("STOP_FAIL")) errno = atoi(getenv("STOP_ERRNO"));
    return number_is("STOP_FAIL");
}

static void done(void) {
    if (number_is("STOP_KILL")) raise(SIGKILL);
}

int mkdir(const char *path, mode_t mode) {
    int (*real)(const char *, mode_t) = dlsym(RTLD_NEXT, "mkdir");
    if (!below(path)) return real(path, mode);
    if (fails()) return -1;
    int answer = real(path, mode);
    done();
    return answer;
}

int rmdir(const char *path) {
    int (*real)(const char *) = dlsym(RTLD_NEXT, "rmdir");
    if (!below(path)) return real(path);
    if (fails()) return -1;
    int answer = real(path);
    done();
    return answer;
}

static int opened(const char *name, const char *path, int flags, mode_t mode) {
    int (*real)(const char *, int, ...) = dlsym(RTLD_NEXT, name);
    int file = real(path, flags, mode);
    if (file >= 0 && file < 1024) counted[file] = below(path) && (flags & O_ACCMODE) != O_RDONLY;
    return file;
}

int open(const char *path, int flags, ...) {
    va_list rest;
    va_start(rest, flags);
    mode_t mode = va_arg(rest, mode_t);
    va_end(rest);
    return opened("open", path, flags, mode);
}

// What Python's os.open calls.
int open64(const char *path, int flags, ...) {
    va_list rest;
    va_start(rest, flags);
    mode_t mode = va_arg(rest, mode_t);
    va_end(rest);
    return opened("open64", path, flags, mode);
}

ssize_t write(int file, const void *text, size_t length) {
    ssize_t (*real)(int, const void *, size_t) = dlsym(RTLD_NEXT, "write");
    if (file < 3 || file >= 1024 || !counted[file]) return real(file, text, length);
    if (fails()) return -1;
    ssize_t answer = real(file, text, length);
    done();
    return answer;
}
