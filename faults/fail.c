/* Makes one call of a program fail: the FAIL_AT-th of the kind FAIL_KIND (allocation, read or write), counted from 1.
   Loaded ahead of the C library by LD_PRELOAD. The file that FAIL_TOLD names is made when the call has failed.
   A read is a call that opens, looks at or reads a file; a write one that writes to a descriptor. */
#define _GNU_SOURCE
#include <dlfcn.h>
#include <errno.h>
#include <fcntl.h>
#include <stdarg.h>
#include <stdlib.h>
#include <string.h>
#include <sys/stat.h>
#include <sys/syscall.h>
#include <sys/types.h>
#include <unistd.h>

static const char *kind;
static long at, seen;

__attribute__((constructor)) static void begin(void) {
    const char *n = getenv("FAIL_AT");
    at = n ? atol(n) : 0;
    kind = getenv("FAIL_KIND");
}

static int fails(const char *this_kind) {
    if (!kind || strcmp(kind, this_kind) || ++seen != at) return 0;
    const char *told = getenv("FAIL_TOLD");
    if (told) syscall(SYS_close, syscall(SYS_openat, AT_FDCWD, told, O_CREAT | O_WRONLY, 0600));
    return 1;
}

extern void *__libc_malloc(size_t);
extern void *__libc_calloc(size_t, size_t);
extern void *__libc_realloc(void *, size_t);
extern void *__libc_memalign(size_t, size_t);

static void *none(void) {
    errno = ENOMEM;
    return 0;
}

void *malloc(size_t size) { return fails("allocation") ? none() : __libc_malloc(size); }
void *calloc(size_t n, size_t size) { return fails("allocation") ? none() : __libc_calloc(n, size); }
void *realloc(void *p, size_t size) { return fails("allocation") ? none() : __libc_realloc(p, size); }
void *memalign(size_t align, size_t size) { return fails("allocation") ? none() : __libc_memalign(align, size); }
void *aligned_alloc(size_t align, size_t size) { return memalign(align, size); }

int posix_memalign(void **p, size_t align, size_t size) {
    void *found = fails("allocation") ? 0 : __libc_memalign(align, size);
    if (!found) return ENOMEM;
    *p = found;
    return 0;
}

static int bad(void) {
    errno = EIO;
    return -1;
}

#define NEXT(name) ((__typeof__(&name))dlsym(RTLD_NEXT, #name))

static int mode_of(int flags, va_list rest) { return flags & O_CREAT ? va_arg(rest, int) : 0; }

int open(const char *path, int flags, ...) {
    va_list rest;
    va_start(rest, flags);
    int mode = mode_of(flags, rest);
    va_end(rest);
    return fails("read") ? bad() : NEXT(open)(path, flags, mode);
}

int open64(const char *path, int flags, ...) {
    va_list rest;
    va_start(rest, flags);
    int mode = mode_of(flags, rest);
    va_end(rest);
    return fails("read") ? bad() : NEXT(open64)(path, flags, mode);
}

int openat(int folder, const char *path, int flags, ...) {
    va_list rest;
    va_start(rest, flags);
    int mode = mode_of(flags, rest);
    va_end(rest);
    return fails("read") ? bad() : NEXT(openat)(folder, path, flags, mode);
}

int stat(const char *path, struct stat *s) { return fails("read") ? bad() : NEXT(stat)(path, s); }
int fstat(int d, struct stat *s) { return fails("read") ? bad() : NEXT(fstat)(d, s); }
int lstat(const char *path, struct stat *s) { return fails("read") ? bad() : NEXT(lstat)(path, s); }
int statx(int folder, const char *path, int flags, unsigned mask, struct statx *s) {
    return fails("read") ? bad() : NEXT(statx)(folder, path, flags, mask, s);
}
ssize_t read(int d, void *into, size_t n) { return fails("read") ? bad() : NEXT(read)(d, into, n); }
ssize_t pread(int d, void *into, size_t n, off_t from) { return fails("read") ? bad() : NEXT(pread)(d, into, n, from); }
ssize_t write(int d, const void *from, size_t n) { return fails("write") ? bad() : NEXT(write)(d, from, n); }
