// The library that tests/system_faults.py preloads: it fails one call of the program on the logs of its folder.
//
// A line of FAULT_REPORT has the number of a call from 1, its name, the file and its result, and `fault` if it was made to fail. The
// call FAULT_AT fails, and none if that is 0. FAULT_KIND says how:
//
//   EIO, ENOSPC, EINTR   it fails with this error, and does nothing
//   short                it reads or writes half of its bytes, and of one byte none
//   torn                 it writes half of its bytes, and fails with EIO
//   lost                 it syncs nothing and fails with EIO, and what was written since the last sync of the file is gone
//   stop                 the process is killed before the call
//   power                the same, and of both files what was written since their last syncs is gone
#define _GNU_SOURCE
#include <dlfcn.h>
#include <errno.h>
#include <fcntl.h>
#include <signal.h>
#include <stdarg.h>
#include <stdatomic.h>
#include <stdio.h>
#include <stdlib.h>
#include <string.h>
#include <sys/stat.h>
#include <unistd.h>

enum { LONGEST = 1 << 20 };

// A descriptor of a log or of the folder, and what the last sync of a log left.
struct file {
    const char *name;
    int fd;
    ssize_t length;
    char *synced;
};

static struct file files[3] = {{"keys.log", -1, 0, NULL}, {"names.log", -1, 0, NULL}, {".", -1, 0, NULL}};
static atomic_long count;
static int report_out = -1;

// The number of the call that this thread makes.
static _Thread_local long number;

static void *next(const char *name) {
    void *found = dlsym(RTLD_NEXT, name);
    if (found == NULL) abort();
    return found;
}

static ssize_t real_pread(int fd, void *bytes, size_t size, off_t at) {
    return ((ssize_t(*)(int, void *, size_t, off_t))next("pread"))(fd, bytes, size, at);
}

static ssize_t real_pwrite(int fd, const void *bytes, size_t size, off_t at) {
    return ((ssize_t(*)(int, const void *, size_t, off_t))next("pwrite"))(fd, bytes, size, at);
}

static int real_truncate(int fd, off_t length) {
    return ((int (*)(int, off_t))next("ftruncate"))(fd, length);
}

static struct file *file_of(int fd) {
    for (int place = 0; place < 3; place++)
        if (fd >= 0 && files[place].fd == fd) return &files[place];
    return NULL;
}

static struct file *file_at(const char *path) {
    if (strcmp(path, ".") == 0) return &files[2];
    const char *name = strrchr(path, '/');
    name = name == NULL ? path : name + 1;
    for (int place = 0; place < 2; place++)
        if (strcmp(name, files[place].name) == 0) return &files[place];
    return NULL;
}

static void keep(struct file *file) {
    if (file == &files[2]) return;
    if (file->synced == NULL) file->synced = malloc(LONGEST);
    file->length = real_pread(file->fd, file->synced, LONGEST, 0);
    if (file->length < 0 || file->length == LONGEST) abort();
}

static void restore(struct file *file) {
    if (file == &files[2] || file->fd < 0) return;
    if (real_truncate(file->fd, 0) != 0 || real_pwrite(file->fd, file->synced, file->length, 0) != file->length) abort();
}

static int is_kind(const char *kind) {
    const char *wanted = getenv("FAULT_KIND");
    return wanted != NULL && strcmp(kind, wanted) == 0;
}

__attribute__((constructor)) static void open_report(void) {
    const char *path = getenv("FAULT_REPORT");
    if (path == NULL) return;
    report_out = ((int (*)(const char *, int, ...))next("open"))(path, O_WRONLY | O_CREAT | O_APPEND | O_CLOEXEC, 0600);
}

static void report(const char *call, const struct file *file, long result, int is_fault) {
    char line[128];
    int size = snprintf(line, sizeof line, "%ld %s %s %ld%s\n", number, call, file->name, result, is_fault ? " fault" : "");
    if (report_out >= 0 && write(report_out, line, size) != size) abort();
}

// Counts a call, and returns whether it is the one that fails. A stop of the process happens here.
static int is_due(const char *call, struct file *file) {
    const char *at = getenv("FAULT_AT");
    number = atomic_fetch_add(&count, 1) + 1;
    if (at == NULL || number != atol(at)) return 0;
    if (is_kind("stop") || is_kind("power")) {
        report(call, file, -1, 1);
        for (int place = 0; is_kind("power") && place < 2; place++) restore(&files[place]);
        kill(getpid(), SIGKILL);
    }
    return 1;
}

// Sets the error with which a call fails that does nothing, and returns whether it is of such a kind.
static int fails(const char *call, struct file *file) {
    int error = is_kind("EIO") ? EIO : is_kind("ENOSPC") ? ENOSPC : is_kind("EINTR") ? EINTR : 0;
    if (error == 0) return 0;
    report(call, file, -1, 1);
    errno = error;
    return 1;
}

static int opened(struct file *file, int fd) {
    if (fd < 0) return fd;
    file->fd = fd;
    keep(file);
    return fd;
}

static int open_file(const char *path, int flags, mode_t mode) {
    struct file *file = file_at(path);
    int fd, fault = file != NULL && is_due("open", file);
    if (fault && fails("open", file)) return -1;
    fd = ((int (*)(const char *, int, ...))next("open"))(path, flags, mode);
    if (file == NULL) return fd;
    report("open", file, fd, 0);
    return opened(file, fd);
}

int open(const char *path, int flags, ...) {
    va_list rest;
    va_start(rest, flags);
    mode_t mode = flags & O_CREAT ? va_arg(rest, mode_t) : 0;
    va_end(rest);
    return open_file(path, flags, mode);
}

int open64(const char *path, int flags, ...) {
    va_list rest;
    va_start(rest, flags);
    mode_t mode = flags & O_CREAT ? va_arg(rest, mode_t) : 0;
    va_end(rest);
    return open_file(path, flags, mode);
}

int close(int fd) {
    struct file *file = file_of(fd);
    if (file != NULL) file->fd = -1;
    return ((int (*)(int))next("close"))(fd);
}

ssize_t pread(int fd, void *bytes, size_t size, off_t at) {
    struct file *file = file_of(fd);
    int fault = file != NULL && is_due("read", file);
    if (fault && fails("read", file)) return -1;
    ssize_t result = real_pread(fd, bytes, size, at);
    int is_short = fault && is_kind("short") && result > 1;
    if (is_short) result /= 2;
    if (file != NULL) report("read", file, result, is_short);
    return result;
}

ssize_t pread64(int fd, void *bytes, size_t size, off_t at) {
    return pread(fd, bytes, size, at);
}

ssize_t pwrite(int fd, const void *bytes, size_t size, off_t at) {
    struct file *file = file_of(fd);
    int fault = file != NULL && is_due("write", file);
    if (fault && fails("write", file)) return -1;
    int is_cut = fault && (is_kind("short") || is_kind("torn"));
    size_t part = is_cut ? size / 2 : size;
    ssize_t result = part == 0 ? 0 : real_pwrite(fd, bytes, part, at);
    if (is_cut && is_kind("torn")) result = -1;
    if (file != NULL) report("write", file, result, is_cut);
    if (is_cut && is_kind("torn")) errno = EIO;
    return result;
}

ssize_t pwrite64(int fd, const void *bytes, size_t size, off_t at) {
    return pwrite(fd, bytes, size, at);
}

static int sync_file(const char *call, int fd) {
    struct file *file = file_of(fd);
    int fault = file != NULL && is_due("sync", file);
    if (fault && fails("sync", file)) return -1;
    if (fault && is_kind("lost")) {
        report("sync", file, -1, 1);
        restore(file);
        errno = EIO;
        return -1;
    }
    int result = ((int (*)(int))next(call))(fd);
    if (file == NULL) return result;
    report("sync", file, result, 0);
    if (result == 0) keep(file);
    return result;
}

int fsync(int fd) {
    return sync_file("fsync", fd);
}

int fdatasync(int fd) {
    return sync_file("fdatasync", fd);
}

int ftruncate(int fd, off_t length) {
    struct file *file = file_of(fd);
    int fault = file != NULL && is_due("cut", file);
    if (fault && fails("cut", file)) return -1;
    int result = real_truncate(fd, length);
    if (file != NULL) report("cut", file, result, 0);
    return result;
}

int ftruncate64(int fd, off_t length) {
    return ftruncate(fd, length);
}

int flock(int fd, int operation) {
    struct file *file = file_of(fd);
    int fault = file != NULL && is_due("lock", file);
    if (fault && fails("lock", file)) return -1;
    int result = ((int (*)(int, int))next("flock"))(fd, operation);
    if (file != NULL) report("lock", file, result, 0);
    return result;
}

int statx(int fd, const char *restrict path, int flags, unsigned int mask, struct statx *restrict found) {
    struct file *file = path[0] == 0 ? file_of(fd) : NULL;
    int fault = file != NULL && is_due("length", file);
    if (fault && fails("length", file)) return -1;
    int result = ((int (*)(int, const char *, int, unsigned int, struct statx *))next("statx"))(fd, path, flags, mask, found);
    if (file != NULL) report("length", file, result, 0);
    return result;
}
