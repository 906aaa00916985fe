// Loaded before the C library (LD_PRELOAD), it has one call of the system fail, or ends the program there:
//
//     FAIL=write:3     the third call of write fails; FAIL=malloc:17+ the 17th and all later ones
//     FAIL=kill:9      the ninth of the calls that COUNT tells of, but for those for memory, is not made: SIGKILL comes first
//     FAIL=half:2      the second write writes half, and then SIGKILL comes
//     COUNT=FILE       at the end the file has a line for each function, with how often it was called, and `kill` with their sum
#define _GNU_SOURCE
#include <dlfcn.h>
#include <errno.h>
#include <fcntl.h>
#include <signal.h>
#include <stdarg.h>
#include <stdio.h>
#include <stdlib.h>
#include <string.h>
#include <sys/stat.h>
#include <sys/syscall.h>
#include <unistd.h>

enum { MALLOC, REALLOC, WRITE, READ, OPEN, CLOSE, FSYNC, RENAME, LINK, UNLINK, FCHMOD, REALPATH, KILL, HALF, COUNT };
static const char *const NAMES[COUNT] = {"malloc", "realloc", "write", "read", "open", "close", "fsync", "rename", "link", "unlink",
                                         "fchmod", "realpath", "kill", "half"};
static long counts[COUNT], at = -1;
static int is_ready, which = -1, is_on;

// Reads what FAIL says.
static void begin(void) {
    if (is_ready) return;
    is_ready = 1;
    const char *said = getenv("FAIL"), *colon = said ? strchr(said, ':') : 0;
    if (!colon) return;
    for (int i = 0; i < COUNT; i++)
        if (!strncmp(said, NAMES[i], (size_t)(colon - said)) && !NAMES[i][colon - said]) which = i;
    char *end;
    at = strtol(colon + 1, &end, 10);
    is_on = *end == '+';
}

static void end(void) {
    syscall(SYS_kill, syscall(SYS_getpid), SIGKILL);
    for (;;) syscall(SYS_pause);
}

// Whether this call of a function fails.
static int fails(int function) {
    begin();
    if (function > REALLOC) {
        long all = __sync_add_and_fetch(&counts[KILL], 1);
        if (which == KILL && all == at) end();
    }
    long number = __sync_add_and_fetch(&counts[function], 1);
    return which == function && (number == at || (is_on && number > at));
}

static int failed(int with) {
    errno = with;
    return -1;
}

__attribute__((destructor)) static void tell(void) {
    const char *path = getenv("COUNT");
    if (!path) return;
    char told[1000];
    int length = 0, fd = (int)syscall(SYS_open, path, O_WRONLY | O_CREAT | O_TRUNC, 0644);
    for (int i = 0; i < HALF; i++) length += sprintf(told + length, "%s %ld\n", NAMES[i], counts[i]);
    syscall(SYS_write, fd, told, length);
    syscall(SYS_close, fd);
}

void _exit(int status) {
    tell();
    syscall(SYS_exit_group, status);
    __builtin_unreachable();
}

extern void *__libc_malloc(size_t);
extern void *__libc_realloc(void *, size_t);

void *malloc(size_t size) { return fails(MALLOC) ? failed(ENOMEM), (void *)0 : __libc_malloc(size); }
void *realloc(void *had, size_t size) { return fails(REALLOC) ? failed(ENOMEM), (void *)0 : __libc_realloc(had, size); }
ssize_t read(int fd, void *to, size_t size) { return fails(READ) ? failed(EIO) : syscall(SYS_read, fd, to, size); }
int fsync(int fd) { return fails(FSYNC) ? failed(EIO) : (int)syscall(SYS_fsync, fd); }
int rename(const char *from, const char *to) { return fails(RENAME) ? failed(EACCES) : (int)syscall(SYS_rename, from, to); }
int link(const char *from, const char *to) { return fails(LINK) ? failed(EPERM) : (int)syscall(SYS_link, from, to); }
int unlink(const char *path) { return fails(UNLINK) ? failed(EACCES) : (int)syscall(SYS_unlink, path); }
int fchmod(int fd, mode_t mode) { return fails(FCHMOD) ? failed(EPERM) : (int)syscall(SYS_fchmod, fd, mode); }

ssize_t write(int fd, const void *from, size_t size) {
    if (fails(WRITE)) return failed(ENOSPC);
    if (which == HALF && counts[WRITE] == at) {
        syscall(SYS_write, fd, from, size / 2);
        end();
    }
    return syscall(SYS_write, fd, from, size);
}

int open(const char *path, int flags, ...) {
    va_list more;
    va_start(more, flags);
    int mode = va_arg(more, int);
    va_end(more);
    return fails(OPEN) ? failed(EMFILE) : (int)syscall(SYS_open, path, flags, mode);
}

// (what it closes is closed)
int close(int fd) {
    int is_failing = fails(CLOSE), status = (int)syscall(SYS_close, fd);
    return is_failing ? failed(EIO) : status;
}

char *realpath(const char *path, char *to) {
    static char *(*real)(const char *, char *);
    if (!real) real = (char *(*)(const char *, char *))dlsym(RTLD_NEXT, "realpath");
    return fails(REALPATH) ? failed(EIO), (char *)0 : real(path, to);
}
