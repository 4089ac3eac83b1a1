// A library that is loaded before a program. It makes the file call of the number REFUSE_IO fail, counted from 1, and writes
// the name of that call to the file descriptor 3, if that is open. REFUSE_AS says how the call fails:
//   EIO, ENOSPC, EINTR  by this error, and nothing is done (except by close, which closes)
//   short               one byte is moved, and the call returns this, which is no failure
//   part                one byte is moved, and the next call that moves bytes fails by EIO
//   on                  by EIO, and so does each later call, except writes to standard error
// EINTR, short and part count only calls that move bytes.
#define _GNU_SOURCE
#include <dlfcn.h>
#include <errno.h>
#include <fcntl.h>
#include <stdarg.h>
#include <stdatomic.h>
#include <stdlib.h>
#include <string.h>
#include <sys/file.h>
#include <sys/stat.h>
#include <sys/syscall.h>
#include <unistd.h>

enum how { PASS, FAIL, SHORT };

static long turn;
static const char *as = "";
static atomic_long count;

static const char *const told = "write to standard error";

__attribute__((constructor)) static void begin(void) {
    const char *number = getenv("REFUSE_IO"), *how = getenv("REFUSE_AS");
    turn = number ? atol(number) : 0;
    if (how) as = how;
}

static int is(const char *how) { return !strcmp(as, how); }

// What is done with the next call: of this name, and whether it moves bytes.
static enum how next(const char *name, int moves) {
    if (turn <= 0 || (!moves && (is("EINTR") || is("short") || is("part")))) return PASS;
    long number = ++count;
    int is_later = (is("on") && number > turn && name != told) || (is("part") && number == turn + 1);
    if (number != turn && !is_later) return PASS;
    if (number == turn && syscall(SYS_write, 3, name, strlen(name)) < 0) errno = 0;
    if (is("short") || (is("part") && number == turn)) return SHORT;
    errno = is("EINTR") ? EINTR : is("ENOSPC") ? ENOSPC : EIO;
    return FAIL;
}

// The call that stands behind this one.
#define REAL(result, name, ...)                                                                                        \
    static result (*real)(__VA_ARGS__);                                                                                \
    if (!real) real = (result (*)(__VA_ARGS__))dlsym(RTLD_NEXT, name)

// How many of `len` bytes a call of this name moves; if the call fails, it ends here.
#define MOVE(name, len)                                                                                                \
    enum how how = next(name, 1);                                                                                      \
    if (how == FAIL) return -1;                                                                                        \
    if (how == SHORT && len > 1) len = 1

ssize_t read(int file, void *bytes, size_t len) {
    REAL(ssize_t, "read", int, void *, size_t);
    MOVE("read", len);
    return real(file, bytes, len);
}

ssize_t pread(int file, void *bytes, size_t len, off_t at) {
    REAL(ssize_t, "pread", int, void *, size_t, off_t);
    MOVE("pread", len);
    return real(file, bytes, len, at);
}

ssize_t write(int file, const void *bytes, size_t len) {
    REAL(ssize_t, "write", int, const void *, size_t);
    // A build without proofs begins with such a line, which is no call of the program.
    if (file == 2 && memmem(bytes, len, ": UNPROVED: ", 12)) return len;
    MOVE(file == 2 ? told : "write", len);
    return real(file, bytes, len);
}

ssize_t pwrite(int file, const void *bytes, size_t len, off_t at) {
    REAL(ssize_t, "pwrite", int, const void *, size_t, off_t);
    MOVE("pwrite", len);
    return real(file, bytes, len, at);
}

int open(const char *path, int flags, ...) {
    REAL(int, "open", const char *, int, ...);
    va_list rest;
    va_start(rest, flags);
    mode_t mode = flags & O_CREAT ? va_arg(rest, mode_t) : 0;
    va_end(rest);
    return next(flags & O_CREAT ? "open, to make it" : "open", 0) ? -1 : real(path, flags, mode);
}

#define PLAIN(name, kinds, values)                                                                                     \
    int name kinds {                                                                                                   \
        static int(*real) kinds;                                                                                       \
        if (!real) real = (int(*) kinds)dlsym(RTLD_NEXT, #name);                                                       \
        return next(#name, 0) ? -1 : real values;                                                                      \
    }

PLAIN(fsync, (int file), (file))
PLAIN(fdatasync, (int file), (file))
PLAIN(ftruncate, (int file, off_t len), (file, len))
PLAIN(flock, (int file, int how), (file, how))
PLAIN(fchmod, (int file, mode_t mode), (file, mode))
PLAIN(mkdir, (const char *path, mode_t mode), (path, mode))
PLAIN(unlink, (const char *path), (path))
PLAIN(link, (const char *path, const char *to), (path, to))
PLAIN(linkat, (int at, const char *path, int to_at, const char *to, int flags), (at, path, to_at, to, flags))
PLAIN(rename, (const char *path, const char *to), (path, to))
PLAIN(statx, (int file, const char *restrict path, int flags, unsigned mask, struct statx *restrict found),
      (file, path, flags, mask, found))

int close(int file) {
    REAL(int, "close", int);
    enum how how = next("close", 0);
    int closed = real(file);
    if (how == PASS) return closed;
    errno = EIO;
    return -1;
}

char *realpath(const char *restrict path, char *restrict found) {
    REAL(char *, "realpath", const char *, char *);
    return next("realpath", 0) ? NULL : real(path, found);
}
