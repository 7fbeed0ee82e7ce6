/* Makes one call on files go wrong: the FAIL_NTH-th call of the kind FAIL_CALL (open, read, write, sync, rename, mkdir, lock or change),
   counted from 1 over all threads, on files whose paths have the text FAIL_PATH. A `change` is each call that a full or a read-only file
   system can refuse: a write, a rename, a new folder, a cut, a removal, and an opening that would make a file or may write to it. By
   FAIL_HOW the call fails with an error of that number; `short` lets it move only half of its bytes, and `torn` fails it then by EIO;
   `kill` and `killed` end the process before it and behind it. With FAIL_MANY so many from it on, and with FAIL_WHILE only while there is
   a file of that name. The file COUNT_CALLS gets how many there were. */
#define _GNU_SOURCE
#include <dlfcn.h>
#include <errno.h>
#include <fcntl.h>
#include <limits.h>
#include <signal.h>
#include <stdarg.h>
#include <stdatomic.h>
#include <stdio.h>
#include <stdlib.h>
#include <string.h>
#include <sys/stat.h>
#include <sys/syscall.h>
#include <unistd.h>

static const char *kind, *part, *file, *during;
static unsigned long wanted, many;
static enum { FAILS, SHORT, TORN, KILL, KILLED } how;
static int error;
static atomic_ulong count;

__attribute__((constructor)) static void begin(void)
{
    const char *nth = getenv("FAIL_NTH"), *all = getenv("FAIL_MANY"), *what = getenv("FAIL_HOW");
    kind = getenv("FAIL_CALL");
    part = getenv("FAIL_PATH");
    file = getenv("COUNT_CALLS");
    during = getenv("FAIL_WHILE");
    wanted = nth ? strtoul(nth, NULL, 10) : 0;
    many = all ? strtoul(all, NULL, 10) : 1;
    if (what) {
        how = !strcmp(what, "short") ? SHORT : !strcmp(what, "torn") ? TORN : !strcmp(what, "kill") ? KILL : !strcmp(what, "killed") ? KILLED : FAILS;
        error = how == TORN ? EIO : atoi(what);
    }
}

static int is_there(const char *path)
{
    return !syscall(SYS_faccessat, AT_FDCWD, path, F_OK);
}

/* A full file system refuses an opening only where it makes a file; one that is read-only each that may write. */
static int may_change(int flags, const char *path)
{
    int makes = flags & O_CREAT && !is_there(path);
    return error == ENOSPC ? makes : makes || (flags & O_ACCMODE) != O_RDONLY || flags & O_TRUNC;
}

static int is_meant(const char *this_kind, int fd, const char *path)
{
    char link[64], target[PATH_MAX];
    if (!kind || strcmp(kind, this_kind))
        return 0;
    if (during && !is_there(during))
        return 0;
    if (!path) {
        snprintf(link, sizeof link, "/proc/self/fd/%d", fd);
        ssize_t length = readlink(link, target, sizeof target - 1);
        target[length < 0 ? 0 : length] = 0;
        path = target;
    }
    if (part && !strstr(path, part))
        return 0;
    unsigned long number = atomic_fetch_add(&count, 1) + 1;
    return wanted && number >= wanted && number - wanted < many;
}

static void die(void)
{
    kill(getpid(), SIGKILL);
    pause();
}

/* What a call gives that is meant: it is made by `made`, or fails. */
#define GOES_WRONG(made)          \
    if (how == KILL)              \
        die();                    \
    if (how == FAILS) {           \
        errno = error;            \
        return -1;                \
    }                             \
    ssize_t given = (made);       \
    if (how == KILLED)            \
        die();                    \
    if (how == TORN) {            \
        errno = error;            \
        return -1;                \
    }                             \
    return given

static size_t half(size_t size)
{
    return (how == SHORT || how == TORN) && size > 1 ? size / 2 : size;
}

ssize_t read(int fd, void *to, size_t size)
{
    if (is_meant("read", fd, NULL)) {
        GOES_WRONG(syscall(SYS_read, fd, to, half(size)));
    }
    return syscall(SYS_read, fd, to, size);
}

ssize_t write(int fd, const void *from, size_t size)
{
    if (is_meant("write", fd, NULL) || is_meant("change", fd, NULL)) {
        GOES_WRONG(syscall(SYS_write, fd, from, half(size)));
    }
    return syscall(SYS_write, fd, from, size);
}

/* What is read or written at an offset is a read or a write too. Both names of a call are the same one here. */
ssize_t pread64(int fd, void *to, size_t size, off_t at)
{
    if (is_meant("read", fd, NULL)) {
        GOES_WRONG(syscall(SYS_pread64, fd, to, half(size), at));
    }
    return syscall(SYS_pread64, fd, to, size, at);
}

ssize_t pread(int fd, void *to, size_t size, off_t at)
{
    return pread64(fd, to, size, at);
}

ssize_t pwrite64(int fd, const void *from, size_t size, off_t at)
{
    if (is_meant("write", fd, NULL) || is_meant("change", fd, NULL)) {
        GOES_WRONG(syscall(SYS_pwrite64, fd, from, half(size), at));
    }
    return syscall(SYS_pwrite64, fd, from, size, at);
}

ssize_t pwrite(int fd, const void *from, size_t size, off_t at)
{
    return pwrite64(fd, from, size, at);
}

int fdatasync(int fd)
{
    if (is_meant("sync", fd, NULL)) {
        GOES_WRONG(syscall(SYS_fdatasync, fd));
    }
    return syscall(SYS_fdatasync, fd);
}

int fsync(int fd)
{
    if (is_meant("sync", fd, NULL)) {
        GOES_WRONG(syscall(SYS_fsync, fd));
    }
    return syscall(SYS_fsync, fd);
}

int open(const char *path, int flags, ...)
{
    va_list rest;
    va_start(rest, flags);
    mode_t mode = flags & O_CREAT ? va_arg(rest, mode_t) : 0;
    va_end(rest);
    if (is_meant("open", -1, path) || (may_change(flags, path) && is_meant("change", -1, path))) {
        GOES_WRONG(syscall(SYS_openat, AT_FDCWD, path, flags, mode));
    }
    return syscall(SYS_openat, AT_FDCWD, path, flags, mode);
}

int rename(const char *from, const char *to)
{
    if (is_meant("rename", -1, from) || is_meant("change", -1, from)) {
        GOES_WRONG(syscall(SYS_rename, from, to));
    }
    return syscall(SYS_rename, from, to);
}

int mkdir(const char *path, mode_t mode)
{
    if (is_meant("mkdir", -1, path) || (!is_there(path) && is_meant("change", -1, path))) {
        GOES_WRONG(syscall(SYS_mkdir, path, mode));
    }
    return syscall(SYS_mkdir, path, mode);
}

/* A full file system lets files be cut and removed. */
int ftruncate(int fd, off_t length)
{
    if (error != ENOSPC && is_meant("change", fd, NULL)) {
        GOES_WRONG(syscall(SYS_ftruncate, fd, length));
    }
    return syscall(SYS_ftruncate, fd, length);
}

int unlink(const char *path)
{
    if (error != ENOSPC && is_meant("change", -1, path)) {
        GOES_WRONG(syscall(SYS_unlink, path));
    }
    return syscall(SYS_unlink, path);
}

int flock(int fd, int operation)
{
    if (is_meant("lock", fd, NULL)) {
        GOES_WRONG(syscall(SYS_flock, fd, operation));
    }
    return syscall(SYS_flock, fd, operation);
}

static void tell(void)
{
    char text[32];
    int length = snprintf(text, sizeof text, "%lu\n", count);
    int to = file ? syscall(SYS_openat, AT_FDCWD, file, O_WRONLY | O_CREAT | O_TRUNC, 0600) : -1;
    if (to >= 0) {
        syscall(SYS_write, to, text, length);
        close(to);
    }
}

/* A program with threads ends by this call, and no destructor runs. */
void _exit(int status)
{
    tell();
    syscall(SYS_exit_group, status);
    __builtin_unreachable();
}
