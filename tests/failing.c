/* Makes one call of a program fail. As a library that is loaded in front of the C library, with KIND and AT in the environment, it
   lets the AT-th call of that kind fail, and writes at the end how many there were into the file COUNT:

   memory   an allocation finds no memory
   open     a file is not opened
   call     a read or a write ends with an error
   short    a read or a write of several bytes moves one
   again    a read or a write is broken off by a signal before it has moved a byte
   nothing  a write of several bytes moves none
   step     a file is not brought to the disk, or gets no owner, mode or name
   kill     the program is killed before a call that may change a file or a folder
   torn     a write of several bytes moves half of them, and the program is killed */
#define _GNU_SOURCE
#include <errno.h>
#include <fcntl.h>
#include <signal.h>
#include <stdarg.h>
#include <stdio.h>
#include <stdlib.h>
#include <string.h>
#include <sys/syscall.h>
#include <unistd.h>

extern void *__libc_malloc(size_t), *__libc_calloc(size_t, size_t), *__libc_realloc(void *, size_t);
extern void *__libc_memalign(size_t, size_t);

static const char *kind = "";
static long at, calls;

__attribute__((constructor)) static void begin(void) {
    const char *asked = getenv("KIND"), *number = getenv("AT");
    calls = 0;
    at = number ? atol(number) : 0;
    kind = asked ? asked : "";
}

__attribute__((destructor)) static void end(void) {
    const char *name = getenv("COUNT");
    char text[32];
    if (name == NULL) return;
    int file = syscall(SYS_openat, AT_FDCWD, name, O_WRONLY | O_CREAT | O_TRUNC, 0600);
    syscall(SYS_write, file, text, snprintf(text, sizeof text, "%ld", calls));
}

/* Counts a call of this kind, and answers whether it is to fail. */
static int fails(const char *of) { return strcmp(kind, of) == 0 && ++calls == at; }

static void end_here(void) { syscall(SYS_kill, syscall(SYS_getpid), SIGKILL); }

/* A call that may change a file or a folder is about to be made. */
static void before_change(void) {
    if (fails("kill")) end_here();
}


static void *without(void) {
    errno = ENOMEM;
    return NULL;
}

void *malloc(size_t size) { return fails("memory") ? without() : __libc_malloc(size); }
void *calloc(size_t count, size_t size) { return fails("memory") ? without() : __libc_calloc(count, size); }
void *realloc(void *old, size_t size) { return fails("memory") ? without() : __libc_realloc(old, size); }
void *memalign(size_t place, size_t size) { return fails("memory") ? without() : __libc_memalign(place, size); }
void *aligned_alloc(size_t place, size_t size) { return memalign(place, size); }

int posix_memalign(void **to, size_t place, size_t size) {
    void *made = memalign(place, size);
    if (made == NULL) return ENOMEM;
    *to = made;
    return 0;
}

static int opened(int folder, const char *name, int flags, mode_t mode) {
    if (flags & O_CREAT) before_change();
    if (fails("open")) {
        errno = EIO;
        return -1;
    }
    return syscall(SYS_openat, folder, name, flags, mode);
}

#define MODE_OF(flags) \
    mode_t mode = 0; \
    if ((flags) & (O_CREAT | O_TMPFILE)) { \
        va_list rest; \
        va_start(rest, flags); \
        mode = va_arg(rest, mode_t); \
        va_end(rest); \
    }

int open(const char *name, int flags, ...) {
    MODE_OF(flags)
    return opened(AT_FDCWD, name, flags, mode);
}
int open64(const char *name, int flags, ...) {
    MODE_OF(flags)
    return opened(AT_FDCWD, name, flags, mode);
}
int openat(int folder, const char *name, int flags, ...) {
    MODE_OF(flags)
    return opened(folder, name, flags, mode);
}

/* How many of so many bytes are to move: -1 where the call fails. */
static long moved(size_t size, int writes) {
    if (fails("call")) {
        errno = EIO;
        return -1;
    }
    if (fails("again")) {
        errno = EINTR;
        return -1;
    }
    if (writes && size > 0 && fails("nothing")) return 0;
    return size > 1 && fails("short") ? 1 : (long)size;
}

ssize_t read(int file, void *to, size_t size) {
    long now = moved(size, 0);
    return now < 0 ? now : syscall(SYS_read, file, to, now);
}

ssize_t write(int file, const void *from, size_t size) {
    before_change();
    if (size > 1 && fails("torn")) {
        syscall(SYS_write, file, from, size / 2);
        end_here();
    }
    long now = moved(size, 1);
    return now < 0 || (now == 0 && size > 0) ? now : syscall(SYS_write, file, from, now);
}
ssize_t __write(int file, const void *from, size_t size) { return write(file, from, size); }
ssize_t __read(int file, void *to, size_t size) { return read(file, to, size); }

/* A call that changes a file or a folder, but for its bytes. */
#define STEP(name, parameters, ...) \
    int name parameters { \
        before_change(); \
        if (fails("step")) { \
            errno = EIO; \
            return -1; \
        } \
        return syscall(SYS_##name, __VA_ARGS__); \
    }

STEP(fsync, (int file), file)
STEP(fchmod, (int file, mode_t mode), file, mode)
STEP(chown, (const char *name, uid_t user, gid_t group), name, user, group)
STEP(rename, (const char *from, const char *to), from, to)

/* What failed is taken back by this call, so it fails with no other. */
int unlink(const char *name) {
    before_change();
    return syscall(SYS_unlink, name);
}
