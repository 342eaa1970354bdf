/* Loaded before a program by LD_PRELOAD, this makes one call of a kind fail, or move one byte alone.
 *
 *     FAIL=alloc:N   the Nth call of malloc, calloc, realloc or posix_memalign finds no memory
 *     FAIL=read:N    the Nth read fails
 *     FAIL=write:N   the Nth write fails
 *     FAIL=nothing:N the Nth write takes nothing
 *     FAIL=short:N   the Nth read or write of several bytes moves one
 *
 * Where the call was reached, the file that FAILED names is made. Calls are counted over all threads. */
#define _GNU_SOURCE
#include <dlfcn.h>
#include <errno.h>
#include <fcntl.h>
#include <stdlib.h>
#include <string.h>
#include <sys/syscall.h>
#include <unistd.h>

static long left(const char *kind) {
    const char *fail = getenv("FAIL");
    size_t len = strlen(kind);
    if (!fail || strncmp(fail, kind, len) || fail[len] != ':') return 0;
    return atol(fail + len + 1);
}

static int reached(const char *kind, long *count) {
    long wanted = left(kind);
    if (!wanted || __atomic_add_fetch(count, 1, __ATOMIC_SEQ_CST) != wanted) return 0;
    const char *note = getenv("FAILED");
    if (note) syscall(SYS_close, syscall(SYS_openat, AT_FDCWD, note, O_CREAT | O_WRONLY, 0600));
    return 1;
}

static long allocations, reads, writes, nothings, shorts;

extern void *__libc_malloc(size_t);
extern void *__libc_calloc(size_t, size_t);
extern void *__libc_realloc(void *, size_t);
extern void *__libc_memalign(size_t, size_t);

static void *none(void) {
    errno = ENOMEM;
    return NULL;
}

void *malloc(size_t size) { return reached("alloc", &allocations) ? none() : __libc_malloc(size); }

void *calloc(size_t count, size_t size) {
    return reached("alloc", &allocations) ? none() : __libc_calloc(count, size);
}

void *realloc(void *old, size_t size) {
    return reached("alloc", &allocations) ? none() : __libc_realloc(old, size);
}

void *aligned_alloc(size_t align, size_t size) {
    return reached("alloc", &allocations) ? none() : __libc_memalign(align, size);
}

int posix_memalign(void **out, size_t align, size_t size) {
    if (reached("alloc", &allocations)) return ENOMEM;
    *out = __libc_memalign(align, size);
    return *out ? 0 : ENOMEM;
}

ssize_t read(int fd, void *bytes, size_t len) {
    if (reached("read", &reads)) {
        errno = EIO;
        return -1;
    }
    if (len > 1 && reached("short", &shorts)) len = 1;
    return syscall(SYS_read, fd, bytes, len);
}

ssize_t write(int fd, const void *bytes, size_t len) {
    if (fd == 1 && reached("write", &writes)) {
        errno = EIO;
        return -1;
    }
    if (fd == 1 && len > 0 && reached("nothing", &nothings)) return 0;
    if (len > 1 && reached("short", &shorts)) len = 1;
    return syscall(SYS_write, fd, bytes, len);
}
