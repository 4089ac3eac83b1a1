// A library that is loaded before a program. It writes each call by which the program makes, opens, locks, moves, syncs, names,
// removes or closes a file to the file descriptor 3, in a line: the name of the call, and a path. The path of an open file is the
// one that it was opened by, whatever name it got since; one that the program didn't open isn't told. A call that failed has
// `failed` behind it. Such a line is told when the call has ended.
#define _GNU_SOURCE
#include <dlfcn.h>
#include <errno.h>
#include <fcntl.h>
#include <limits.h>
#include <stdarg.h>
#include <stdio.h>
#include <string.h>
#include <sys/file.h>
#include <sys/stat.h>
#include <sys/syscall.h>
#include <unistd.h>

enum { FILES = 256 };

static char opened[FILES][PATH_MAX];

static const char *path_of(int file) { return file >= 0 && file < FILES ? opened[file] : ""; }

// Tells a call of this path, and perhaps of another one, by what it returned.
static void tell(const char *call, const char *path, const char *to, long result) {
    char line[2 * PATH_MAX + 64];
    int error = errno;
    const char *failed = result < 0 ? " failed" : "";
    int len = snprintf(line, sizeof line, "%s %s%s%s%s\n", call, path, *to ? " " : "", to, failed);
    if (*path && syscall(SYS_write, 3, line, (size_t)len) < 0) _exit(99);
    errno = error;
}

#define REAL(result, name, kinds)                                                                                      \
    static result(*real) kinds;                                                                                        \
    if (!real) real = (result(*) kinds)dlsym(RTLD_NEXT, name)

int open(const char *path, int flags, ...) {
    REAL(int, "open", (const char *, int, ...));
    va_list rest;
    va_start(rest, flags);
    mode_t mode = flags & O_CREAT ? va_arg(rest, mode_t) : 0;
    va_end(rest);
    int file = real(path, flags, mode);
    char call[64] = "open";
    if ((flags & O_ACCMODE) != O_RDONLY) strcpy(call, "open_to_write");
    if (flags & O_CREAT) snprintf(call, sizeof call, flags & O_EXCL ? "make_%o" : "open_or_make_%o", mode);
    if (file >= 0 && file < FILES) snprintf(opened[file], PATH_MAX, "%s", path);
    tell(call, path, "", file);
    return file;
}

int close(int file) {
    REAL(int, "close", (int));
    char path[PATH_MAX];
    strcpy(path, path_of(file));
    // (before another thread may open a file of this number)
    if (*path) *opened[file] = 0;
    int result = real(file);
    tell("close", path, "", result);
    return result;
}

int flock(int file, int how) {
    REAL(int, "flock", (int, int));
    int result = real(file, how);
    tell(how == (LOCK_EX | LOCK_NB) ? "flock" : "flock_otherwise", path_of(file), "", result);
    return result;
}

// A call of an open file.
#define OF_FILE(result, name, kinds, values)                                                                           \
    result name kinds {                                                                                                \
        REAL(result, #name, kinds);                                                                                    \
        result done = real values;                                                                                     \
        tell(#name, path_of(file), "", done);                                                                          \
        return done;                                                                                                   \
    }

OF_FILE(ssize_t, read, (int file, void *bytes, size_t len), (file, bytes, len))
OF_FILE(ssize_t, pread, (int file, void *bytes, size_t len, off_t at), (file, bytes, len, at))
OF_FILE(ssize_t, write, (int file, const void *bytes, size_t len), (file, bytes, len))
OF_FILE(ssize_t, pwrite, (int file, const void *bytes, size_t len, off_t at), (file, bytes, len, at))
OF_FILE(int, fsync, (int file), (file))
OF_FILE(int, fdatasync, (int file), (file))
OF_FILE(int, ftruncate, (int file, off_t len), (file, len))
OF_FILE(int, fchmod, (int file, mode_t mode), (file, mode))
OF_FILE(int, fchown, (int file, uid_t owner, gid_t group), (file, owner, group))

// A call of names.
#define OF_NAMES(name, kinds, values, to)                                                                              \
    int name kinds {                                                                                                   \
        REAL(int, #name, kinds);                                                                                       \
        int done = real values;                                                                                        \
        tell(#name, path, to, done);                                                                                   \
        return done;                                                                                                   \
    }

OF_NAMES(link, (const char *path, const char *to), (path, to), to)
OF_NAMES(linkat, (int at, const char *path, int to_at, const char *to, int flags), (at, path, to_at, to, flags), to)
OF_NAMES(rename, (const char *path, const char *to), (path, to), to)
OF_NAMES(unlink, (const char *path), (path), "")
