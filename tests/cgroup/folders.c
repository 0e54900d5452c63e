// Lets a plain folder stand for a cgroup v2 tree: below FOLDERS_ROOT a folder that is made gets the files of a group, a write
// replaces a file's text, one of `cpuset.cpus` that of `cpuset.cpus.effective` too (or puts FOLDERS_OTHER there, if that is
// set), and a folder that is removed takes its files with it. The call whose number, from 1, stands in FOLDERS_FAIL fails with
// the number in FOLDERS_ERRNO; the process ends behind the call in FOLDERS_KILL; the write in FOLDERS_SHORT takes one byte alone;
// and with FOLDERS_BUSY set no folder is removed, since it is busy. Each call is a line of the file FOLDERS_LOG: a file that is
// opened to be written (open) or to be read (read), or is not there (absent), a write, a folder, a lock of FOLDERS_ROOT itself; or,
// outside of FOLDERS_ROOT, a folder that is made or removed, a link that is removed, or a file that is opened to be written.
#define _GNU_SOURCE
#include <dlfcn.h>
#include <errno.h>
#include <fcntl.h>
#include <signal.h>
#include <stdarg.h>
#include <stdio.h>
#include <stdlib.h>
#include <string.h>
#include <sys/file.h>
#include <sys/stat.h>
#include <unistd.h>

static const char *files[] = {"cpuset.cpus", "cpuset.mems", "cpuset.cpus.effective", "cgroup.kill", "cgroup.subtree_control", "cgroup.procs"};
static char opened[1024][512];
static int calls;

static int below(const char *path) {
    const char *root = getenv("FOLDERS_ROOT");
    return root && strncmp(path, root, strlen(root)) == 0;
}

static void put_line(const char *line, int size) {
    static ssize_t (*real)(int, const void *, size_t);
    if (!real) real = dlsym(RTLD_NEXT, "write");
    static int (*really_open)(const char *, int, ...);
    if (!really_open) really_open = dlsym(RTLD_NEXT, "open");
    int file = really_open(getenv("FOLDERS_LOG"), O_WRONLY | O_APPEND);
    if (file < 0 || real(file, line, size) != size) _exit(99);
    close(file);
}

static void tell_outside(const char *what, const char *path) {
    char line[8192];
    if (getenv("FOLDERS_LOG")) put_line(line, snprintf(line, sizeof line, "outside %s %s\n", what, path));
}

static void tell(const char *what, const char *path, const char *text, size_t length, int error) {
    char line[8192];
    int size = snprintf(line, sizeof line, "%s %s%s%.*s%s%s\n", what, path + strlen(getenv("FOLDERS_ROOT")), length ? " " : "", (int)length, text,
                        error ? " !" : "", error ? strerror(error) : "");
    put_line(line, size);
}

static int number_is(const char *name) {
    const char *number = getenv(name);
    return number && calls == atoi(number);
}

static int fails(const char *what, const char *path, const char *text, size_t length) {
    const char *number = getenv("FOLDERS_ERRNO");
    calls++;
    if (!number_is("FOLDERS_FAIL")) return 0;
    int error = number ? atoi(number) : EBUSY;
    tell(what, path, text, length, error);
    errno = error;
    return 1;
}

static void done(const char *what, const char *path, const char *text, size_t length, int error) {
    tell(what, path, text, length, error);
    if (number_is("FOLDERS_KILL")) raise(SIGKILL);
    errno = error;
}

static void put(const char *folder, const char *name, const char *text, size_t length) {
    char path[1024];
    snprintf(path, sizeof path, "%s/%s", folder, name);
    FILE *file = fopen(path, "w");
    if (file) {
        fwrite(text, 1, length, file);
        fclose(file);
    }
}

int mkdir(const char *path, mode_t mode) {
    static int (*real)(const char *, mode_t);
    if (!real) real = dlsym(RTLD_NEXT, "mkdir");
    if (!below(path)) {
        tell_outside("mkdir", path);
        return real(path, mode);
    }
    if (fails("mkdir", path, "", 0)) return -1;
    int answer = real(path, mode), error = answer ? errno : 0;
    for (unsigned i = 0; !answer && i < sizeof files / sizeof *files; i++) put(path, files[i], "", 0);
    done("mkdir", path, "", 0, error);
    return answer;
}

static int really_unlink(const char *path) {
    static int (*real)(const char *);
    if (!real) real = dlsym(RTLD_NEXT, "unlink");
    return real(path);
}

int unlink(const char *path) {
    if (!below(path)) tell_outside("unlink", path);
    return really_unlink(path);
}

int rmdir(const char *path) {
    static int (*real)(const char *);
    if (!real) real = dlsym(RTLD_NEXT, "rmdir");
    if (!below(path)) {
        tell_outside("rmdir", path);
        return real(path);
    }
    if (fails("rmdir", path, "", 0)) return -1;
    if (getenv("FOLDERS_BUSY")) {
        done("rmdir", path, "", 0, EBUSY);
        return -1;
    }
    for (unsigned i = 0; i < sizeof files / sizeof *files; i++) {
        char name[1024];
        snprintf(name, sizeof name, "%s/%s", path, files[i]);
        really_unlink(name);
    }
    int answer = real(path);
    done("rmdir", path, "", 0, answer ? errno : 0);
    return answer;
}

int flock(int file, int how) {
    static int (*real)(int, int);
    if (!real) real = dlsym(RTLD_NEXT, "flock");
    const char *root = getenv("FOLDERS_ROOT");
    if (fails("lock", root, "", 0)) return -1;
    int answer = real(file, how);
    done("lock", root, "", 0, answer ? errno : 0);
    return answer;
}

int open(const char *path, int flags, ...) {
    static int (*real)(const char *, int, ...);
    va_list rest;
    va_start(rest, flags);
    int mode = va_arg(rest, int);
    va_end(rest);
    if (!real) real = dlsym(RTLD_NEXT, "open");
    const char *what = (flags & O_ACCMODE) == O_RDONLY ? "read" : "open";
    if (!below(path) && (flags & O_ACCMODE) != O_RDONLY) tell_outside("open", path);
    if (below(path) && fails(what, path, "", 0)) return -1;
    int file = real(path, flags, mode), error = errno;
    if (below(path)) done(file < 0 ? "absent" : what, path, "", 0, 0);
    errno = error;
    if (file >= 0 && file < 1024) snprintf(opened[file], sizeof *opened, "%s", below(path) && (flags & O_ACCMODE) == O_WRONLY ? path : "");
    return file;
}

ssize_t write(int file, const void *text, size_t length) {
    static ssize_t (*real)(int, const void *, size_t);
    if (!real) real = dlsym(RTLD_NEXT, "write");
    if (file < 3 || file >= 1024 || !*opened[file]) return real(file, text, length);
    char path[512];
    snprintf(path, sizeof path, "%s", opened[file]);
    size_t shown = length && ((const char *)text)[length - 1] == '\n' ? length - 1 : length;
    if (fails("write", path, text, shown)) return -1;
    if (number_is("FOLDERS_SHORT")) length = 1;
    if (ftruncate(file, 0)) return -1;
    ssize_t answer = real(file, text, length);
    size_t folder = strlen(path) - strlen("/cpuset.cpus");
    if (strlen(path) > strlen("/cpuset.cpus") && strcmp(path + folder, "/cpuset.cpus") == 0) {
        const char *other = getenv("FOLDERS_OTHER");
        char above[512];
        snprintf(above, sizeof above, "%.*s", (int)folder, path);
        put(above, "cpuset.cpus.effective", other ? other : text, other ? strlen(other) : length);
    }
    done("write", path, text, shown, 0);
    return answer;
}
