/* Stands between a program and the C library, for the scripts break*.py. BREAK names what is to fail, WHEN which call of that
   kind, counted from 1, and MARK a file that is made when it happens, and that gets a byte for each later write to what
   failed. FORKS is a socket, from which both are read in place of BREAK and WHEN: then a fork of this process goes on as the
   program, and its status is sent. WITHIN is a folder: only calls on files of it, on those that have relative paths, and on standard input and
   outputs count then, and only those of processes that are called ONLY. TICK is a number of nanoseconds: the clock then says
   n * n of them when it is read for the nth time. Without these the program runs as always. */
#define _GNU_SOURCE
#include <errno.h>
#include <fcntl.h>
#include <stdarg.h>
#include <stdlib.h>
#include <string.h>
#include <sys/syscall.h>
#include <sys/wait.h>
#include <time.h>
#include <unistd.h>

extern void *__libc_malloc(size_t size);
extern void *__libc_realloc(void *old, size_t size);

enum { MOST_FILES = 1024 };

/* what is to fail, and which call of it */
static struct {
    char kind[16];
    long call;
} wanted;
static const char *mark, *only;
static long calls;

/* the files that are within the folder, by their numbers */
static unsigned char is_within[MOST_FILES] = {1, 1, 1};

/* runs a fork for each failure that is asked for, and returns in each fork, which is the program */
static void serve(int socket) {
    int status;
    while (syscall(SYS_read, socket, &wanted, sizeof wanted) == sizeof wanted) {
        pid_t child = fork();
        if (!child) {
            syscall(SYS_close, socket);
            return;
        }
        waitpid(child, &status, 0);
        syscall(SYS_write, socket, &status, sizeof status);
    }
    _exit(0);
}

/* before the program begins */
__attribute__((constructor)) static void begin(void) {
    const char *forks = getenv("FORKS"), *what = getenv("BREAK"), *when = getenv("WHEN");
    mark = getenv("MARK");
    only = getenv("ONLY");
    if (forks) {
        serve(atoi(forks));
    } else if (what && when) {
        strncpy(wanted.kind, what, sizeof wanted.kind - 1);
        wanted.call = atol(when);
    }
}

/* whether this call is the one that is to fail */
static int breaks(const char *kind) {
    if (!mark || strcmp(wanted.kind, kind) || (only && strcmp(only, program_invocation_short_name)) || ++calls != wanted.call) {
        return 0;
    }
    syscall(SYS_close, syscall(SYS_openat, AT_FDCWD, mark, O_WRONLY | O_CREAT, 0600));
    return 1;
}

static int counts_path(const char *path) {
    const char *within = getenv("WITHIN");
    return !within || path[0] != '/' || !strncmp(path, within, strlen(within));
}

static int counts_file(int file) {
    return !getenv("WITHIN") || (file >= 0 && file < MOST_FILES && is_within[file]);
}

/* whether a byte was written, except to standard error */
static int has_written;

/* the file that a write failed on; -1: none */
static int failed = -1;

/* whether an allocation is refused: one of them, or one and all after it, "late-allocs" from the first written byte on */
static int refused(void) {
    static int from_here;
    from_here |= breaks("allocs") || (has_written && breaks("late-allocs"));
    return from_here || breaks("alloc");
}

void *malloc(size_t size) {
    return refused() ? NULL : __libc_malloc(size);
}

void *realloc(void *old, size_t size) {
    return refused() ? NULL : __libc_realloc(old, size);
}

/* a file or folder; what follows flags that create one is its mode */
static int opened(int from, const char *path, int flags, va_list rest) {
    int mode = flags & O_CREAT ? va_arg(rest, int) : 0, counts = counts_path(path);
    if (counts && breaks("open")) {
        errno = EACCES;
        return -1;
    }
    int file = syscall(SYS_openat, from, path, flags, mode);
    if (file >= 0 && file < MOST_FILES) {
        is_within[file] = counts;
    }
    return file;
}

int open(const char *path, int flags, ...) {
    va_list rest;
    va_start(rest, flags);
    int file = opened(AT_FDCWD, path, flags, rest);
    va_end(rest);
    return file;
}

int openat(int from, const char *path, int flags, ...) {
    va_list rest;
    va_start(rest, flags);
    int file = opened(from, path, flags, rest);
    va_end(rest);
    return file;
}

int open64(const char *path, int flags, ...) __attribute__((alias("open")));
int openat64(int from, const char *path, int flags, ...) __attribute__((alias("openat")));

/* the file is closed all the same, as Linux does it */
int close(int file) {
    int counts = counts_file(file), result = syscall(SYS_close, file);
    if (file > 2 && file < MOST_FILES) {
        is_within[file] = 0;
    }
    if (file == failed) {
        failed = -1;
    }
    if (result == 0 && counts && breaks("close")) {
        errno = EIO;
        return -1;
    }
    return result;
}

int renameat(int from, const char *old, int into, const char *path) {
    if (counts_path(path) && breaks("rename")) {
        errno = EACCES;
        return -1;
    }
    return syscall(SYS_renameat, from, old, into, path);
}

int rename(const char *old, const char *path) {
    return renameat(AT_FDCWD, old, AT_FDCWD, path);
}

int ftruncate(int file, off_t size) {
    if (counts_file(file) && breaks("empty")) {
        errno = EIO;
        return -1;
    }
    return syscall(SYS_ftruncate, file, size);
}

int ftruncate64(int file, off64_t size) __attribute__((alias("ftruncate")));

static int flushed(long call, int file) {
    if (counts_file(file) && breaks("flush")) {
        errno = EIO;
        return -1;
    }
    return syscall(call, file);
}

int fsync(int file) {
    return flushed(SYS_fsync, file);
}

int fdatasync(int file) {
    return flushed(SYS_fdatasync, file);
}

ssize_t getdents64(int folder, void *bytes, size_t count) {
    if (breaks("list")) {
        errno = ETIMEDOUT;
        return -1;
    }
    return syscall(SYS_getdents64, folder, bytes, count);
}

int clock_gettime(clockid_t clock, struct timespec *now) {
    static long readings;
    const char *tick = getenv("TICK");
    if (!tick) {
        return syscall(SYS_clock_gettime, clock, now);
    }
    ++readings;
    long nanoseconds = readings * readings * atol(tick);
    now->tv_sec = nanoseconds / 1000000000;
    now->tv_nsec = nanoseconds % 1000000000;
    return 0;
}

ssize_t read(int file, void *bytes, size_t count) {
    int counts = counts_file(file);
    if (counts && breaks("read")) {
        errno = EIO;
        return -1;
    }
    return syscall(SYS_read, file, bytes, counts && count > 1 && breaks("short-read") ? 1 : count);
}

/* a file that has failed is written to again: a byte is written to the mark */
static void marks_again(void) {
    int mark = syscall(SYS_openat, AT_FDCWD, getenv("MARK"), O_WRONLY, 0);
    syscall(SYS_write, mark, "", 1);
    syscall(SYS_close, mark);
}

ssize_t write(int file, const void *bytes, size_t count) {
    int counts = counts_file(file);
    if (file == failed) {
        marks_again();
    }
    if (counts && breaks("write")) {
        failed = file;
        errno = ENOSPC;
        return -1;
    }
    if (counts && breaks("no-write")) {
        failed = file;
        return 0;
    }
    has_written |= file != STDERR_FILENO && count;
    return syscall(SYS_write, file, bytes, counts && count > 1 && breaks("short-write") ? 1 : count);
}
