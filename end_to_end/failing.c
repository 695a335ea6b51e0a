/* Calls of the C library that fail, or at which the program ends: preloaded by disk.sh.
 *
 * FAIL=write:3     the third write fails with EIO, and does nothing
 * FAIL=write:3+    so do all later ones
 * FAIL=a:1,b:2     both of these
 * INTERRUPTED=1    each read is interrupted
 * HALF=write:3     the third write takes half of the bytes that it is given
 * KILL=7           the program ends by SIGKILL at the seventh of all the calls below, a write after half of its bytes
 *
 * Calls that only read are not counted. CALLS names a file to which the name of each call is appended.
 */
#define _GNU_SOURCE
#include <errno.h>
#include <fcntl.h>
#include <signal.h>
#include <stdarg.h>
#include <stdlib.h>
#include <string.h>
#include <sys/syscall.h>
#include <unistd.h>

enum call { OPEN, WRITE, FSYNC, CLOSE, RENAME, UNLINK, CALLS };
static const char *const names[CALLS] = {"open", "write", "fsync", "close", "rename", "unlink"};
static long counts[CALLS], all;

/* Whether a word is this call: its name, a colon and its number, or a number from which on. */
static int is_this(const char *word, enum call call) {
    size_t length = strlen(names[call]);
    char *end;
    if (strncmp(word, names[call], length) != 0 || word[length] != ':')
        return 0;
    long number = strtol(word + length + 1, &end, 10);
    return counts[call] == number || (*end == '+' && counts[call] > number);
}

/* Whether one of the variable's words is. */
static int is_chosen(const char *variable, enum call call) {
    for (const char *word = getenv(variable); word; word = strchr(word, ',')) {
        word += *word == ',';
        if (is_this(word, call))
            return 1;
    }
    return 0;
}

static void list(enum call call) {
    const char *path = getenv("CALLS");
    int file = path ? syscall(SYS_openat, AT_FDCWD, path, O_WRONLY | O_CREAT | O_APPEND, 0666) : -1;
    if (file >= 0) {
        syscall(SYS_write, file, names[call], strlen(names[call]));
        syscall(SYS_write, file, "\n", 1);
        syscall(SYS_close, file);
    }
}

static int is_last(void) {
    const char *number = getenv("KILL");
    return number && all == strtol(number, NULL, 10);
}

/* Counts a call, and says whether it fails. */
static int fails(enum call call) {
    all++;
    counts[call]++;
    list(call);
    if (is_last() && call != WRITE)
        raise(SIGKILL);
    if (!is_chosen("FAIL", call))
        return 0;
    errno = EIO;
    return 1;
}

ssize_t write(int file, const void *bytes, size_t count) {
    if (fails(WRITE))
        return -1;
    if (is_last() || is_chosen("HALF", WRITE))
        count = (count + 1) / 2;
    ssize_t taken = syscall(SYS_write, file, bytes, count);
    if (is_last())
        raise(SIGKILL);
    return taken;
}

ssize_t read(int file, void *bytes, size_t count) {
    if (getenv("INTERRUPTED")) {
        errno = EINTR;
        return -1;
    }
    return syscall(SYS_read, file, bytes, count);
}

int open(const char *path, int flags, ...) {
    va_list rest;
    va_start(rest, flags);
    int mode = flags & O_CREAT ? va_arg(rest, int) : 0;
    va_end(rest);
    if ((flags & O_ACCMODE) != O_RDONLY && fails(OPEN))
        return -1;
    return syscall(SYS_openat, AT_FDCWD, path, flags, mode);
}

int fsync(int file) { return fails(FSYNC) ? -1 : syscall(SYS_fsync, file); }

/* The file is closed all the same. */
int close(int file) {
    int failed = fcntl(file, F_GETFL) & O_ACCMODE && fails(CLOSE);
    int status = syscall(SYS_close, file);
    if (failed)
        errno = EIO;
    return failed ? -1 : status;
}

int rename(const char *from, const char *to) {
    return fails(RENAME) ? -1 : syscall(SYS_renameat, AT_FDCWD, from, AT_FDCWD, to);
}

int unlink(const char *path) { return fails(UNLINK) ? -1 : syscall(SYS_unlinkat, AT_FDCWD, path, 0); }
