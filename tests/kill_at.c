// The library that tests/copies.py preloads: it kills the program before one of its calls that change a file.
//
// The calls are those that make, write, cut or sync a file or a folder, and those on standard streams don't count. The process is killed
// before the call KILL_AT, from 1 on.
#define _GNU_SOURCE
#include <dlfcn.h>
#include <fcntl.h>
#include <signal.h>
#include <stdarg.h>
#include <stdatomic.h>
#include <stdlib.h>
#include <sys/stat.h>
#include <sys/types.h>
#include <sys/uio.h>
#include <unistd.h>

static atomic_long calls;

static void *next(const char *name) {
    void *found = dlsym(RTLD_NEXT, name);
    if (found == NULL) abort();
    return found;
}

static void count(void) {
    const char *at = getenv("KILL_AT");
    if (at != NULL && atomic_fetch_add(&calls, 1) + 1 == atol(at)) kill(getpid(), SIGKILL);
}

ssize_t write(int fd, const void *bytes, size_t size) {
    if (fd > 2) count();
    return ((ssize_t(*)(int, const void *, size_t))next("write"))(fd, bytes, size);
}

ssize_t writev(int fd, const struct iovec *parts, int number) {
    if (fd > 2) count();
    return ((ssize_t(*)(int, const struct iovec *, int))next("writev"))(fd, parts, number);
}

ssize_t pwrite(int fd, const void *bytes, size_t size, off_t at) {
    count();
    return ((ssize_t(*)(int, const void *, size_t, off_t))next("pwrite"))(fd, bytes, size, at);
}

ssize_t pwrite64(int fd, const void *bytes, size_t size, off64_t at) {
    count();
    return ((ssize_t(*)(int, const void *, size_t, off64_t))next("pwrite64"))(fd, bytes, size, at);
}

int ftruncate(int fd, off_t length) {
    count();
    return ((int (*)(int, off_t))next("ftruncate"))(fd, length);
}

int ftruncate64(int fd, off64_t length) {
    count();
    return ((int (*)(int, off64_t))next("ftruncate64"))(fd, length);
}

int fsync(int fd) {
    count();
    return ((int (*)(int))next("fsync"))(fd);
}

int fdatasync(int fd) {
    count();
    return ((int (*)(int))next("fdatasync"))(fd);
}

int mkdir(const char *path, mode_t mode) {
    count();
    return ((int (*)(const char *, mode_t))next("mkdir"))(path, mode);
}

static mode_t mode_of(int flags, va_list more) {
    if (!(flags & O_CREAT)) return 0;
    count();
    return va_arg(more, mode_t);
}

int open(const char *path, int flags, ...) {
    va_list more;
    va_start(more, flags);
    mode_t mode = mode_of(flags, more);
    va_end(more);
    return ((int (*)(const char *, int, ...))next("open"))(path, flags, mode);
}

int open64(const char *path, int flags, ...) {
    va_list more;
    va_start(more, flags);
    mode_t mode = mode_of(flags, more);
    va_end(more);
    return ((int (*)(const char *, int, ...))next("open64"))(path, flags, mode);
}

int openat(int folder, const char *path, int flags, ...) {
    va_list more;
    va_start(more, flags);
    mode_t mode = mode_of(flags, more);
    va_end(more);
    return ((int (*)(int, const char *, int, ...))next("openat"))(folder, path, flags, mode);
}
