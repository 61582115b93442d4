/* Refuses growths of memory and calls of the system to the program that it is loaded into (LD_PRELOAD), for tools/refuse.

   REFUSE_COUNTS  a file of NUMBERS numbers of eight bytes, 0 at first: how many of each call were met, the most bytes that a growth
                  asked for, and how many all of them asked for. It is mapped, so it is right also where the program crashes or is
                  killed.
   REFUSE_CALL    which call is refused, by its place in `enum call`
   REFUSE_FIRST   from which one on, counted from 1
   REFUSE_LAST    up to which one
   REFUSE_ERRNO   what it fails by; 0 for a read or a write that is done, but of half of its bytes

   What the C library does inside is counted where it goes by these names. Before the constructor has run nothing is. */
#define _GNU_SOURCE
#include <errno.h>
#include <fcntl.h>
#include <stdarg.h>
#include <stdatomic.h>
#include <stdint.h>
#include <stdlib.h>
#include <sys/mman.h>
#include <sys/stat.h>
#include <sys/syscall.h>
#include <sys/types.h>
#include <sys/uio.h>
#include <unistd.h>

enum call { GROWTH, READ, WRITE, OPEN, MKDIR, LIST, CALLS };
enum { MOST = CALLS, ALL, NUMBERS };

void *__libc_malloc(size_t size);
void *__libc_calloc(size_t count, size_t size);
void *__libc_realloc(void *block, size_t size);
void *__libc_memalign(size_t align, size_t size);

static _Atomic uint64_t *counts;
static uint64_t call_refused = CALLS, first, last;
static int reason;

static uint64_t number(const char *name)
{
    const char *text = getenv(name);
    return text ? strtoull(text, NULL, 10) : 0;
}

__attribute__((constructor)) static void begin(void)
{
    const char *path = getenv("REFUSE_COUNTS");
    if (!path)
        return;
    int file = syscall(SYS_openat, AT_FDCWD, path, O_RDWR | O_CLOEXEC);
    void *found = mmap(NULL, NUMBERS * sizeof *counts, PROT_READ | PROT_WRITE, MAP_SHARED, file, 0);
    syscall(SYS_close, file);
    if (found == MAP_FAILED)
        _exit(99); /* no status of the program */
    call_refused = number("REFUSE_CALL");
    first = number("REFUSE_FIRST");
    last = number("REFUSE_LAST");
    reason = number("REFUSE_ERRNO");
    counts = found;
}

/* Counts the call, and says whether it is to be refused. */
static int is_refused(enum call call)
{
    if (!counts)
        return 0;
    uint64_t place = atomic_fetch_add(&counts[call], 1) + 1;
    return call == call_refused && first <= place && place <= last;
}

static int fails(enum call call)
{
    if (!is_refused(call))
        return 0;
    errno = reason;
    return 1;
}

/* Memory. What is asked for is noted, whether it is refused or not. */

static int grows(size_t size)
{
    if (counts) {
        uint64_t most = atomic_load(&counts[MOST]);
        while (most < size && !atomic_compare_exchange_weak(&counts[MOST], &most, size))
            ;
        atomic_fetch_add(&counts[ALL], size);
    }
    return !fails(GROWTH);
}

void *malloc(size_t size)
{
    return grows(size) ? __libc_malloc(size) : NULL;
}

void *calloc(size_t count, size_t size)
{
    size_t whole;
    if (__builtin_mul_overflow(count, size, &whole))
        whole = SIZE_MAX;
    return grows(whole) ? __libc_calloc(count, size) : NULL;
}

void *realloc(void *block, size_t size)
{
    return grows(size) ? __libc_realloc(block, size) : NULL;
}

void *memalign(size_t align, size_t size)
{
    return grows(size) ? __libc_memalign(align, size) : NULL;
}

void *aligned_alloc(size_t align, size_t size)
{
    return memalign(align, size);
}

int posix_memalign(void **block, size_t align, size_t size)
{
    int before = errno;
    void *found = memalign(align, size);
    errno = before;
    if (!found)
        return ENOMEM;
    *block = found;
    return 0;
}

/* Files. A short call does half of the bytes, but at least one. */

static size_t half(size_t size)
{
    return size > 1 ? size / 2 : size;
}

ssize_t read(int file, void *bytes, size_t size)
{
    if (is_refused(READ)) {
        if (reason) {
            errno = reason;
            return -1;
        }
        size = half(size);
    }
    return syscall(SYS_read, file, bytes, size);
}

ssize_t write(int file, const void *bytes, size_t size)
{
    if (is_refused(WRITE)) {
        if (reason) {
            errno = reason;
            return -1;
        }
        size = half(size);
    }
    return syscall(SYS_write, file, bytes, size);
}

ssize_t writev(int file, const struct iovec *parts, int count)
{
    if (is_refused(WRITE)) {
        if (reason) {
            errno = reason;
            return -1;
        }
        if (count > 0)
            return syscall(SYS_write, file, parts[0].iov_base, half(parts[0].iov_len));
    }
    return syscall(SYS_writev, file, parts, count);
}

ssize_t __read(int file, void *bytes, size_t size) __attribute__((alias("read")));
ssize_t __write(int file, const void *bytes, size_t size) __attribute__((alias("write")));

static int open_in(int folder, const char *path, int flags, va_list more)
{
    mode_t mode = flags & (O_CREAT | (O_TMPFILE & ~O_DIRECTORY)) ? va_arg(more, mode_t) : 0;
    return fails(OPEN) ? -1 : syscall(SYS_openat, folder, path, flags, mode);
}

int open(const char *path, int flags, ...)
{
    va_list more;
    va_start(more, flags);
    int found = open_in(AT_FDCWD, path, flags, more);
    va_end(more);
    return found;
}

int openat(int folder, const char *path, int flags, ...)
{
    va_list more;
    va_start(more, flags);
    int found = open_in(folder, path, flags, more);
    va_end(more);
    return found;
}

int open64(const char *path, int flags, ...) __attribute__((alias("open")));
int openat64(int folder, const char *path, int flags, ...) __attribute__((alias("openat")));

int mkdir(const char *path, mode_t mode)
{
    return fails(MKDIR) ? -1 : syscall(SYS_mkdirat, AT_FDCWD, path, mode);
}

ssize_t getdents64(int folder, void *bytes, size_t size)
{
    return fails(LIST) ? -1 : syscall(SYS_getdents64, folder, bytes, size);
}
