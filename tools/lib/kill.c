/* Kills the process that it is loaded into (LD_PRELOAD) at one of its calls of the system on the files of a folder, for
   embed/rust/tests/killed.rs.

   KILL_FOLDER  the folder; calls on other files aren't counted
   KILL_PLACE   at which call, counted from 1; at none where the process makes fewer
   KILL_WHERE   `before` it, `behind` it, or in the middle of a write: of that `half` of the bytes are written; just writes are counted then

   Counted are open, mkdir, flock, write, pwrite, ftruncate, fsync, fdatasync, rename and unlink, by these names. */
#define _GNU_SOURCE
#include <fcntl.h>
#include <signal.h>
#include <stdarg.h>
#include <stdatomic.h>
#include <stdint.h>
#include <stdlib.h>
#include <string.h>
#include <sys/stat.h>
#include <sys/syscall.h>
#include <sys/types.h>
#include <unistd.h>

enum { FILES = 4096 };

static const char *folder;
static size_t length;
static uint64_t place;
static enum { BEFORE, BEHIND, HALF } where;
static _Atomic uint64_t count;
static _Atomic char is_counted[FILES];

__attribute__((constructor)) static void begin(void)
{
    const char *number = getenv("KILL_PLACE"), *word = getenv("KILL_WHERE");
    folder = getenv("KILL_FOLDER");
    if (!folder || !number || !word)
        _exit(99); /* no status of the program */
    length = strlen(folder);
    place = strtoull(number, NULL, 10);
    where = !strcmp(word, "half") ? HALF : !strcmp(word, "behind") ? BEHIND : BEFORE;
}

static int lies_there(const char *path)
{
    return !strncmp(path, folder, length) && (path[length] == '/' || !path[length]);
}

static int is_of(int file)
{
    return file >= 0 && file < FILES && atomic_load(&is_counted[file]);
}

static void end(void)
{
    for (;;)
        syscall(SYS_kill, getpid(), SIGKILL);
}

/* Counts the call; where it is the one, the process ends before it, or is to end behind it. */
static int is_last(int counts)
{
    if (!counts || atomic_fetch_add(&count, 1) + 1 != place)
        return 0;
    if (where == BEFORE)
        end();
    return 1;
}

static long behind(int last, long found)
{
    if (last)
        end();
    return found;
}

static int open_counted(const char *path, int flags, va_list more)
{
    mode_t mode = flags & (O_CREAT | (O_TMPFILE & ~O_DIRECTORY)) ? va_arg(more, mode_t) : 0;
    int counts = lies_there(path), last = is_last(counts && where != HALF);
    int file = behind(last, syscall(SYS_openat, AT_FDCWD, path, flags, mode));
    if (file >= 0 && file < FILES)
        atomic_store(&is_counted[file], counts);
    return file;
}

int open(const char *path, int flags, ...)
{
    va_list more;
    va_start(more, flags);
    int file = open_counted(path, flags, more);
    va_end(more);
    return file;
}

int open64(const char *path, int flags, ...) __attribute__((alias("open")));

ssize_t pwrite(int file, const void *bytes, size_t size, off_t from)
{
    int last = is_last(is_of(file));
    return behind(last, syscall(SYS_pwrite64, file, bytes, last && where == HALF ? size / 2 : size, from));
}

ssize_t pwrite64(int file, const void *bytes, size_t size, off_t from) __attribute__((alias("pwrite")));

ssize_t write(int file, const void *bytes, size_t size)
{
    int last = is_last(is_of(file));
    return behind(last, syscall(SYS_write, file, bytes, last && where == HALF ? size / 2 : size));
}

static int other(int counts)
{
    return is_last(counts && where != HALF);
}

int mkdir(const char *path, mode_t mode)
{
    int last = other(lies_there(path));
    return behind(last, syscall(SYS_mkdirat, AT_FDCWD, path, mode));
}

int flock(int file, int operation)
{
    int last = other(is_of(file));
    return behind(last, syscall(SYS_flock, file, operation));
}

int ftruncate(int file, off_t size)
{
    int last = other(is_of(file));
    return behind(last, syscall(SYS_ftruncate, file, size));
}

int ftruncate64(int file, off_t size) __attribute__((alias("ftruncate")));

int fsync(int file)
{
    int last = other(is_of(file));
    return behind(last, syscall(SYS_fsync, file));
}

int fdatasync(int file)
{
    int last = other(is_of(file));
    return behind(last, syscall(SYS_fdatasync, file));
}

int rename(const char *from, const char *to)
{
    int last = other(lies_there(from));
    return behind(last, syscall(SYS_renameat, AT_FDCWD, from, AT_FDCWD, to));
}

int unlink(const char *path)
{
    int last = other(lies_there(path));
    return behind(last, syscall(SYS_unlinkat, AT_FDCWD, path, 0));
}
