/* Makes one call of a program fail, for checks/faults.py: `cc -shared -fPIC -O1 -o faults.so checks/faults.c`, and then in the environment
 *
 *     LD_PRELOAD=faults.so FAULT_CALL=CALL FAULT_AT=N FAULT_HOW=HOW FAULT_MET=FILE
 *
 * CALL is read, write (on standard output), error (a write on standard error), open, seek or memory. The N-th call of it, from 0 on, fails: HOW is fail (the call
 * answers EIO, or no memory), from (this call and all that follow do), interrupted (it answers EINTR), none (0 bytes), once (1 byte) or one (1 byte, at this call
 * and at all that follow). Where CALL is grow, the bytes of the file FAULT_MORE are added to the file FAULT_GROWS right before the N-th read. FAULT_MET is made when
 * that happens. Where CALL is begin, nothing fails: FAULT_MET is made when the program begins with 256 kB of its stack, which the system gives or ends it. */
#define _GNU_SOURCE
#include <errno.h>
#include <fcntl.h>
#include <stdarg.h>
#include <stdlib.h>
#include <string.h>
#include <sys/syscall.h>
#include <unistd.h>

extern void *__libc_malloc(size_t size);
extern void *__libc_realloc(void *old, size_t size);

static const char *kind_of, *how, *met;
static long at;

static void mark(void) {
    if (met)
        syscall(SYS_close, syscall(SYS_openat, AT_FDCWD, met, O_CREAT | O_WRONLY, 0600));
}

/* Asks for room on the stack by touching it. */
static __attribute__((noinline)) void grow_stack(void) {
    volatile char room[1 << 18];
    for (size_t place = sizeof room; place >= 1024; place -= 1024)
        room[place - 1024] = 0;
}

__attribute__((constructor)) static void begin(void) {
    const char *place = getenv("FAULT_AT");
    kind_of = getenv("FAULT_CALL");
    how = getenv("FAULT_HOW");
    met = getenv("FAULT_MET");
    at = place ? atol(place) : 0;
    if (kind_of && !strcmp(kind_of, "begin")) {
        grow_stack();
        mark();
    }
}

static int is(const char *name) {
    return how && !strcmp(how, name);
}

/* Whether this call of a kind is one that fails. */
static int fails(const char *kind) {
    static long count;
    if (!kind_of || strcmp(kind_of, kind))
        return 0;
    long place = count++;
    if (place < at || (place > at && !is("one") && !is("from")))
        return 0;
    if (place == at)
        mark();
    return 1;
}

static ssize_t moved(long call, int file, const void *bytes, size_t length, int failing) {
    if (failing && is("none"))
        return 0;
    if (failing && !is("one") && !is("once")) {
        errno = is("interrupted") ? EINTR : EIO;
        return -1;
    }
    return syscall(call, file, bytes, failing && length > 1 ? 1 : length);
}

/* Adds the bytes of one file to another. */
static void grow(void) {
    char piece[4096];
    long from = syscall(SYS_openat, AT_FDCWD, getenv("FAULT_MORE"), O_RDONLY, 0);
    long to = syscall(SYS_openat, AT_FDCWD, getenv("FAULT_GROWS"), O_WRONLY | O_APPEND, 0);
    for (long length; (length = syscall(SYS_read, from, piece, sizeof piece)) > 0;)
        if (syscall(SYS_write, to, piece, length) != length)
            abort();
    syscall(SYS_close, from);
    syscall(SYS_close, to);
}

ssize_t read(int file, void *bytes, size_t length) {
    if (fails("grow"))
        grow();
    return moved(SYS_read, file, bytes, length, fails("read"));
}

ssize_t write(int file, const void *bytes, size_t length) {
    return moved(SYS_write, file, bytes, length, fails(file == 1 ? "write" : "error"));
}

off_t lseek(int file, off_t at, int from) {
    if (fails("seek")) {
        errno = EIO;
        return -1;
    }
    return syscall(SYS_lseek, file, at, from);
}

int open(const char *name, int flags, ...) {
    va_list more;
    va_start(more, flags);
    int mode = flags & O_CREAT ? va_arg(more, int) : 0;
    va_end(more);
    if (fails("open")) {
        errno = EIO;
        return -1;
    }
    return syscall(SYS_openat, AT_FDCWD, name, flags, mode);
}

void *malloc(size_t size) {
    return fails("memory") ? NULL : __libc_malloc(size);
}

void *realloc(void *old, size_t size) {
    return fails("memory") ? NULL : __libc_realloc(old, size);
}
