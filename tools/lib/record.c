/* Notes what the process that it is loaded into (LD_PRELOAD) does to the files of a folder, one operation behind another, for
   broker/tests/power.rs: what of it a disk has where the power goes.

   RECORD_FOLDER  the folder
   RECORD_FILE    where the notes go. Each is behind its operation, and before that returns: a letter, a number and two lengths, of 8 bytes each
                  in the machine's order, the path in the folder, and the bytes that were written

   RECORD_SLOW    where it is set: so many microseconds later each write to the file `journal` comes

   Letters: `m` mkdir, `c` a file that is made, `w` pwrite at a place, `l` ftruncate to a length, `s` fsync or fdatasync, `r` rename to this
   path from the one with `.next` behind it, `u` unlink. Files are known by the path by which they were opened. */
#define _GNU_SOURCE
#include <fcntl.h>
#include <pthread.h>
#include <stdarg.h>
#include <stdint.h>
#include <stdlib.h>
#include <string.h>
#include <sys/stat.h>
#include <sys/syscall.h>
#include <sys/types.h>
#include <sys/uio.h>
#include <unistd.h>

enum { FILES = 4096 };

static const char *folder;
static size_t length;
static int notes;
static useconds_t slow;
static char *paths[FILES];
static pthread_mutex_t door = PTHREAD_MUTEX_INITIALIZER;

__attribute__((constructor)) static void begin(void)
{
    const char *file = getenv("RECORD_FILE");
    folder = getenv("RECORD_FOLDER");
    if (!folder || !file)
        _exit(99); /* no status of the program */
    length = strlen(folder);
    slow = getenv("RECORD_SLOW") ? atoi(getenv("RECORD_SLOW")) : 0;
    notes = syscall(SYS_openat, AT_FDCWD, file, O_WRONLY | O_CREAT | O_APPEND | O_CLOEXEC, 0600);
    if (notes < 0)
        _exit(99);
}

/* The path in the folder, `.` for the folder itself; NULL for what lies elsewhere. */
static const char *within(const char *path)
{
    if (strncmp(path, folder, length))
        return NULL;
    return path[length] == '/' ? path + length + 1 : path[length] ? NULL : ".";
}

static const char *of_file(int file)
{
    return file >= 0 && file < FILES ? paths[file] : NULL;
}

static void note(char letter, uint64_t number, const char *path, const void *bytes, size_t size)
{
    struct { uint64_t letter, number, path, size; } head = {(unsigned char)letter, number, strlen(path), size};
    struct iovec parts[3] = {{&head, sizeof head}, {(void *)path, head.path}, {(void *)bytes, size}};
    if (writev(notes, parts, 3) != (ssize_t)(sizeof head + head.path + size))
        abort();
}

static int open_noted(const char *path, int flags, va_list more)
{
    mode_t mode = flags & (O_CREAT | (O_TMPFILE & ~O_DIRECTORY)) ? va_arg(more, mode_t) : 0;
    const char *own = within(path);
    struct stat found;
    pthread_mutex_lock(&door);
    int is_new = own && flags & O_CREAT && stat(path, &found);
    int file = syscall(SYS_openat, AT_FDCWD, path, flags, mode);
    if (file >= 0 && file < FILES) {
        free(paths[file]);
        paths[file] = own ? strdup(own) : NULL;
        if (is_new)
            note('c', 0, own, NULL, 0);
        if (own && flags & O_TRUNC)
            note('l', 0, own, NULL, 0);
    }
    pthread_mutex_unlock(&door);
    return file;
}

int open(const char *path, int flags, ...)
{
    va_list more;
    va_start(more, flags);
    int file = open_noted(path, flags, more);
    va_end(more);
    return file;
}

int open64(const char *path, int flags, ...) __attribute__((alias("open")));

ssize_t pwrite(int file, const void *bytes, size_t size, off_t from)
{
    pthread_mutex_lock(&door);
    int waits = slow && of_file(file) && !strcmp(of_file(file), "journal");
    if (waits) { /* others go on meanwhile */
        pthread_mutex_unlock(&door);
        usleep(slow);
        pthread_mutex_lock(&door);
    }
    ssize_t done = syscall(SYS_pwrite64, file, bytes, size, from);
    if (done > 0 && of_file(file))
        note('w', from, of_file(file), bytes, done);
    pthread_mutex_unlock(&door);
    return done;
}

ssize_t pwrite64(int file, const void *bytes, size_t size, off_t from) __attribute__((alias("pwrite")));

/* Notes it where it is done, and answers as the system does. */
static int noted(long done, char letter, uint64_t number, const char *path)
{
    if (!done && path)
        note(letter, number, path, NULL, 0);
    pthread_mutex_unlock(&door);
    return done;
}

int mkdir(const char *path, mode_t mode)
{
    pthread_mutex_lock(&door);
    return noted(syscall(SYS_mkdirat, AT_FDCWD, path, mode), 'm', 0, within(path));
}

int ftruncate(int file, off_t size)
{
    pthread_mutex_lock(&door);
    return noted(syscall(SYS_ftruncate, file, size), 'l', size, of_file(file));
}

int ftruncate64(int file, off_t size) __attribute__((alias("ftruncate")));

int fsync(int file)
{
    pthread_mutex_lock(&door);
    return noted(syscall(SYS_fsync, file), 's', 0, of_file(file));
}

int fdatasync(int file) __attribute__((alias("fsync")));

int rename(const char *from, const char *to)
{
    pthread_mutex_lock(&door);
    return noted(syscall(SYS_renameat, AT_FDCWD, from, AT_FDCWD, to), 'r', 0, within(to));
}

int unlink(const char *path)
{
    pthread_mutex_lock(&door);
    return noted(syscall(SYS_unlinkat, AT_FDCWD, path, 0), 'u', 0, within(path));
}
