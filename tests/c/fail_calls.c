// Preloaded, this fails one call of the program on its files, or lets a read or a write move less than it
// was asked for. Calls are counted from 1 from the start of the program on; what the loader does before
// isn't counted. FAIL_CALLS_LOG names a file that gets a line for each call: its kind, the last part of the
// file's name, how many bytes were asked for, and what was answered. Kinds have the names of their calls, but
// an open that empties the file is `make`, ftruncate is `empty`, and fsync and fdatasync are `sync`. A call that isn't
// counted, since no run is to make it, is `uncounted`, with its own name in place of a file's.
//
//   FAIL_CALLS_AT    the number of the call, 0 for none
//   FAIL_CALLS_HOW   a number: the call does nothing and answers this error; a close does close
//                    short: it moves one byte
//                    nothing: it moves no byte and answers 0
//                    full: it moves one byte, and each later write to that file answers ENOSPC
//   FAIL_CALLS_SLOW  where it is set, each read and each write moves one byte at most
#define _GNU_SOURCE
#include <errno.h>
#include <fcntl.h>
#include <stdarg.h>
#include <stdio.h>
#include <stdlib.h>
#include <string.h>
#include <sys/mman.h>
#include <sys/stat.h>
#include <sys/syscall.h>
#include <sys/types.h>
#include <sys/uio.h>
#include <unistd.h>

enum how { NEVER, FAILS, SHORT, NOTHING, FULL };

enum { FILES = 64, NAME = 32, LOG_FROM = 500 };

static enum how how;
static int error;
static unsigned long chosen;
static unsigned long calls;
static int is_slow;
static int full_file = -1;
static int log_file = -1;
static char names[FILES][NAME] = {"in", "out", "err"};

// The log has a number far from those that the program's files get.
static int open_log(const char *name) {
    int low = name ? syscall(SYS_openat, AT_FDCWD, name, O_WRONLY | O_CREAT | O_APPEND, 0600) : -1;
    int high = low < 0 ? -1 : fcntl(low, F_DUPFD_CLOEXEC, LOG_FROM);
    if (low >= 0) {
        syscall(SYS_close, low);
    }
    return high;
}

static enum how how_of(const char *word) {
    if (strcmp(word, "short") == 0) {
        return SHORT;
    }
    if (strcmp(word, "nothing") == 0) {
        return NOTHING;
    }
    return strcmp(word, "full") == 0 ? FULL : FAILS;
}

__attribute__((constructor)) static void begin(void) {
    const char *number = getenv("FAIL_CALLS_AT");
    const char *word = getenv("FAIL_CALLS_HOW");
    chosen = number ? strtoul(number, NULL, 10) : 0;
    how = word ? how_of(word) : NEVER;
    error = how == FAILS ? atoi(word) : 0;
    is_slow = getenv("FAIL_CALLS_SLOW") != NULL;
    log_file = open_log(getenv("FAIL_CALLS_LOG"));
}

static const char *last_part(const char *path) {
    const char *slash = strrchr(path, '/');
    return slash ? slash + 1 : path;
}

static const char *name_of(int file) {
    return file >= 0 && file < FILES && names[file][0] ? names[file] : "other";
}

static void set_name(int file, const char *path) {
    if (file >= 0 && file < FILES) {
        snprintf(names[file], NAME, "%s", last_part(path));
    }
}

// Writes a line of the log, and answers what the call answers.
static long told(const char *call, const char *name, size_t asked, long answer) {
    char line[128];
    int kept = errno;
    int length = snprintf(line, sizeof line, "%s %s %zu %ld\n", call, name, asked, answer);
    if (log_file >= 0) {
        syscall(SYS_write, log_file, line, length);
    }
    errno = kept;
    return answer;
}

static long failed(int number) {
    errno = number;
    return -1;
}

// Counts a call, and answers how it is to go.
static enum how counted(void) {
    calls++;
    return calls == chosen ? how : NEVER;
}

static size_t allowed(size_t size, enum how now) {
    return size > 1 && (is_slow || now == SHORT || now == FULL) ? 1 : size;
}

static int open_any(const char *path, int flags, mode_t mode) {
    enum how now = counted();
    int file = now == FAILS ? failed(error) : syscall(SYS_openat, AT_FDCWD, path, flags, mode);
    set_name(file, path);
    told(flags & O_TRUNC ? "make" : "open", last_part(path), 0, file < 0 ? -1 : 0);
    return file;
}

int open(const char *path, int flags, ...) {
    va_list rest;
    va_start(rest, flags);
    mode_t mode = flags & (O_CREAT | O_TMPFILE) ? va_arg(rest, mode_t) : 0;
    va_end(rest);
    return open_any(path, flags, mode);
}

int open64(const char *path, int flags, ...) {
    va_list rest;
    va_start(rest, flags);
    mode_t mode = flags & (O_CREAT | O_TMPFILE) ? va_arg(rest, mode_t) : 0;
    va_end(rest);
    return open_any(path, flags | O_LARGEFILE, mode);
}

ssize_t read(int file, void *bytes, size_t size) {
    enum how now = counted();
    if (now == FAILS) {
        return told("read", name_of(file), size, failed(error));
    }
    return told("read", name_of(file), size, syscall(SYS_read, file, bytes, allowed(size, now)));
}

ssize_t write(int file, const void *bytes, size_t size) {
    enum how now = counted();
    if (now == FAILS || file == full_file) {
        return told("write", name_of(file), size, failed(now == FAILS ? error : ENOSPC));
    }
    if (now == FULL) {
        full_file = file;
    }
    long moved = now == NOTHING ? 0 : syscall(SYS_write, file, bytes, allowed(size, now));
    return told("write", name_of(file), size, moved);
}

ssize_t __write(int file, const void *bytes, size_t size) {
    return write(file, bytes, size);
}

// A file is closed also where its close fails.
int close(int file) {
    enum how now = counted();
    int answer = syscall(SYS_close, file);
    full_file = file == full_file ? -1 : full_file;
    return told("close", name_of(file), 0, now == FAILS ? failed(error) : answer);
}

// A call that moves no bytes: it fails, or is what it is without this.
#define PASSED_ON(kind, name, call)                                                                                    \
    do {                                                                                                               \
        enum how now = counted();                                                                                      \
        return told(kind, name, 0, now == FAILS ? failed(error) : (call));                                             \
    } while (0)

int ftruncate(int file, off_t length) {
    PASSED_ON("empty", name_of(file), syscall(SYS_ftruncate, file, length));
}

int ftruncate64(int file, off64_t length) {
    PASSED_ON("empty", name_of(file), syscall(SYS_ftruncate, file, length));
}

int fsync(int file) {
    PASSED_ON("sync", name_of(file), syscall(SYS_fsync, file));
}

int fdatasync(int file) {
    PASSED_ON("sync", name_of(file), syscall(SYS_fdatasync, file));
}

// The name of the file that a statx asks about. Where one failed, Rust's standard library asks once more without a
// path, to learn whether the system has this call at all. The header declares that there is always a path, so the
// compiler would leave out the comparison with NULL if it didn't have to read the path anew.
static const char *asked_about(int folder, const char *given) {
    const char *volatile again = given;
    const char *path = again;
    if (path == NULL) {
        return "none";
    }
    return *path ? last_part(path) : name_of(folder);
}

int statx(int folder, const char *path, int flags, unsigned mask, struct statx *found) {
    PASSED_ON("stat", asked_about(folder, path), syscall(SYS_statx, folder, path, flags, mask, found));
}

int unlink(const char *path) {
    PASSED_ON("unlink", last_part(path), syscall(SYS_unlink, path));
}

int fchmod(int file, mode_t mode) {
    PASSED_ON("fchmod", name_of(file), syscall(SYS_fchmod, file, mode));
}

int flock(int file, int how_to_lock) {
    PASSED_ON("flock", name_of(file), syscall(SYS_flock, file, how_to_lock));
}

// Rust's standard library is linked with these too. It would call them to tell of a panic, and some of them on a system
// without statx.
#define UNCOUNTED(call) return told("uncounted", __func__, 0, 0), (call)

int fstat64(int file, struct stat64 *found) {
    UNCOUNTED(syscall(SYS_fstat, file, found));
}

int stat64(const char *path, struct stat64 *found) {
    UNCOUNTED(syscall(SYS_newfstatat, AT_FDCWD, path, found, 0));
}

off64_t lseek64(int file, off64_t offset, int whence) {
    UNCOUNTED(syscall(SYS_lseek, file, offset, whence));
}

ssize_t readlink(const char *path, char *target, size_t size) {
    UNCOUNTED(syscall(SYS_readlinkat, AT_FDCWD, path, target, size));
}

char *getcwd(char *path, size_t size) {
    UNCOUNTED(syscall(SYS_getcwd, path, size) < 0 ? NULL : path);
}

void *mmap64(void *at, size_t size, int protection, int flags, int file, off64_t offset) {
    UNCOUNTED((void *)syscall(SYS_mmap, at, size, protection, flags, file, offset));
}

int munmap(void *at, size_t size) {
    UNCOUNTED(syscall(SYS_munmap, at, size));
}

ssize_t writev(int file, const struct iovec *pieces, int count) {
    UNCOUNTED(syscall(SYS_writev, file, pieces, count));
}
