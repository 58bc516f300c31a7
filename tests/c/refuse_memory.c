// Preloaded, this refuses requests for memory, which are counted from 1 from the start of the program on.
// That it refused one it tells by making the file that REFUSE_MEMORY_TOLD names.
//
//   REFUSE_MEMORY_AT          the number of the one request that is refused
//   REFUSE_MEMORY_FROM        the number of a request: it is refused, and each later one
//   REFUSE_MEMORY_AFTER_ENDS  a count: once so many reads have found the end of a file, each request is
//                             refused
//   REFUSE_MEMORY_AFTER_WRITES  a count: once so many writes were made, each request is refused
#include <errno.h>
#include <fcntl.h>
#include <stddef.h>
#include <stdlib.h>
#include <sys/syscall.h>
#include <sys/types.h>
#include <unistd.h>

extern void *__libc_malloc(size_t size);
extern void *__libc_calloc(size_t count, size_t size);
extern void *__libc_realloc(void *old, size_t size);
extern void *__libc_memalign(size_t alignment, size_t size);

// Each is 0 where it isn't set.
static unsigned long refused_number;
static unsigned long first_refused;
static unsigned long ends_before;
static unsigned long writes_before;

static unsigned long requests;
static unsigned long ends;
static unsigned long writes;

static unsigned long setting(const char *name) {
    const char *number = getenv(name);
    return number ? strtoul(number, NULL, 10) : 0;
}

// Runs after the C library is set up, so what the library takes for itself before isn't counted.
__attribute__((constructor)) static void begin(void) {
    refused_number = setting("REFUSE_MEMORY_AT");
    first_refused = setting("REFUSE_MEMORY_FROM");
    ends_before = setting("REFUSE_MEMORY_AFTER_ENDS");
    writes_before = setting("REFUSE_MEMORY_AFTER_WRITES");
    requests = 0;
}

static void tell(void) {
    const char *name = getenv("REFUSE_MEMORY_TOLD");
    int file = name ? open(name, O_WRONLY | O_CREAT, 0600) : -1;
    if (file >= 0) {
        close(file);
    }
}

static int is_chosen(void) {
    return (refused_number != 0 && requests == refused_number) || (first_refused != 0 && requests >= first_refused) ||
        (ends_before != 0 && ends >= ends_before) || (writes_before != 0 && writes >= writes_before);
}

static int is_refused(void) {
    requests++;
    if (!is_chosen()) {
        return 0;
    }
    tell();
    errno = ENOMEM;
    return 1;
}

ssize_t read(int file, void *bytes, size_t size) {
    ssize_t moved = syscall(SYS_read, file, bytes, size);
    ends += moved == 0 && size > 0;
    return moved;
}

ssize_t write(int file, const void *bytes, size_t size) {
    writes++;
    return syscall(SYS_write, file, bytes, size);
}

void *malloc(size_t size) {
    return is_refused() ? NULL : __libc_malloc(size);
}

void *calloc(size_t count, size_t size) {
    return is_refused() ? NULL : __libc_calloc(count, size);
}

void *realloc(void *old, size_t size) {
    return is_refused() ? NULL : __libc_realloc(old, size);
}

void *memalign(size_t alignment, size_t size) {
    return is_refused() ? NULL : __libc_memalign(alignment, size);
}

void *aligned_alloc(size_t alignment, size_t size) {
    return is_refused() ? NULL : __libc_memalign(alignment, size);
}

int posix_memalign(void **result, size_t alignment, size_t size) {
    void *memory = is_refused() ? NULL : __libc_memalign(alignment, size);
    if (memory == NULL) {
        return ENOMEM;
    }
    *result = memory;
    return 0;
}
