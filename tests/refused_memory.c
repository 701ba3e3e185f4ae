// The library that tests/memory preloads: it refuses one allocation of the program.
//
// Allocations are counted from 1, from the moment at which the program first opens a file; what the loader takes before that is left
// alone. The allocation REFUSED_AT is refused, and none if that is 0. The file MEMORY_REPORT, which has eight bytes, has the number of
// allocations, since the program may end without a word to libraries. The random source is the file RANDOM_SEED, so that the program
// draws the same words in each run.
#define _GNU_SOURCE
#include <dlfcn.h>
#include <errno.h>
#include <fcntl.h>
#include <stdarg.h>
#include <stdatomic.h>
#include <stdlib.h>
#include <string.h>
#include <sys/mman.h>
#include <sys/stat.h>
#include <unistd.h>

extern void *__libc_malloc(size_t);
extern void *__libc_calloc(size_t, size_t);
extern void *__libc_realloc(void *, size_t);
extern void *__libc_memalign(size_t, size_t);

static atomic_long own_count;
static atomic_long *made = &own_count;
static long refused_at;
static atomic_int is_counting;

static int is_refused(void) {
    if (!is_counting || ++*made != refused_at) return 0;
    errno = ENOMEM;
    return 1;
}

void *malloc(size_t size) {
    return is_refused() ? NULL : __libc_malloc(size);
}

void *calloc(size_t count, size_t size) {
    return is_refused() ? NULL : __libc_calloc(count, size);
}

void *realloc(void *old, size_t size) {
    return is_refused() ? NULL : __libc_realloc(old, size);
}

void *aligned_alloc(size_t align, size_t size) {
    return is_refused() ? NULL : __libc_memalign(align, size);
}

int posix_memalign(void **to, size_t align, size_t size) {
    if (is_refused()) return ENOMEM;
    *to = __libc_memalign(align, size);
    return *to == NULL ? ENOMEM : 0;
}

// Has the file of the report count the allocations, if there is one.
static void share_count(const char *path) {
    int file = path == NULL || *path == 0 ? -1 : ((int (*)(const char *, int, ...))dlsym(RTLD_NEXT, "open"))(path, O_RDWR);
    if (file < 0) return;
    void *shared = mmap(NULL, sizeof *made, PROT_READ | PROT_WRITE, MAP_SHARED, file, 0);
    if (shared != MAP_FAILED) made = shared;
    close(file);
}

static const char *path_for(const char *path) {
    if (!is_counting) {
        const char *wanted = getenv("REFUSED_AT");
        refused_at = wanted == NULL ? 0 : atol(wanted);
        share_count(getenv("MEMORY_REPORT"));
        is_counting = 1;
    }
    return strcmp(path, "/dev/urandom") == 0 ? getenv("RANDOM_SEED") : path;
}

typedef int (*opener)(const char *, int, ...);
typedef int (*opener_at)(int, const char *, int, ...);

static mode_t mode_of(int flags, va_list rest) {
    return flags & (O_CREAT | __O_TMPFILE) ? va_arg(rest, mode_t) : 0;
}

#define OPEN(name)                                                    \
    int name(const char *path, int flags, ...) {                      \
        va_list rest;                                                 \
        va_start(rest, flags);                                        \
        mode_t mode = mode_of(flags, rest);                           \
        va_end(rest);                                                 \
        return ((opener)dlsym(RTLD_NEXT, #name))(path_for(path), flags, mode); \
    }

#define OPEN_AT(name)                                                 \
    int name(int folder, const char *path, int flags, ...) {          \
        va_list rest;                                                 \
        va_start(rest, flags);                                        \
        mode_t mode = mode_of(flags, rest);                           \
        va_end(rest);                                                 \
        return ((opener_at)dlsym(RTLD_NEXT, #name))(folder, path_for(path), flags, mode); \
    }

OPEN(open)
OPEN(open64)
OPEN_AT(openat)
OPEN_AT(openat64)
