/* Refuses growths of memory to the process that it is loaded into (LD_PRELOAD) for as long as a file says so, for broker/clients/soak.py.

   STARVE_FILE  a file of NUMBERS numbers of eight bytes, which is mapped, so that another process changes them meanwhile:
                how many growths of the proved library are still to be refused; how many of any; one in how many is; and how many were
   STARVE_FROM, STARVE_TO
                where the library's heap (`rattle_alloc`, `rattle_realloc`) stands in the program, as `nm` prints it: a growth is the library's
                that is asked for there */
#define _GNU_SOURCE
#include <errno.h>
#include <fcntl.h>
#include <link.h>
#include <stdatomic.h>
#include <stdint.h>
#include <stdlib.h>
#include <sys/mman.h>
#include <unistd.h>

enum { LIBRARY, ANY, EVERY, REFUSED, NUMBERS };

void *__libc_malloc(size_t size);
void *__libc_calloc(size_t count, size_t size);
void *__libc_realloc(void *block, size_t size);
void *__libc_memalign(size_t align, size_t size);

static _Atomic uint64_t *numbers;
static _Atomic uint64_t count;
static uintptr_t from, to;

static int first_object(struct dl_phdr_info *info, size_t size, void *base)
{
    (void)size;
    *(uintptr_t *)base = info->dlpi_addr;
    return 1; /* it is the program */
}

static uintptr_t place(const char *name)
{
    const char *text = getenv(name);
    return text ? strtoull(text, NULL, 16) : 0;
}

__attribute__((constructor)) static void begin(void)
{
    const char *path = getenv("STARVE_FILE");
    uintptr_t base = 0;
    if (!path)
        _exit(99); /* no status of the program */
    int file = open(path, O_RDWR | O_CLOEXEC);
    void *found = mmap(NULL, NUMBERS * sizeof *numbers, PROT_READ | PROT_WRITE, MAP_SHARED, file, 0);
    close(file);
    if (found == MAP_FAILED)
        _exit(99);
    dl_iterate_phdr(first_object, &base);
    from = base + place("STARVE_FROM");
    to = base + place("STARVE_TO");
    numbers = found;
}

/* Whether there is one left of these, which is taken. */
static int takes(int which)
{
    uint64_t left = atomic_load(&numbers[which]);
    while (left)
        if (atomic_compare_exchange_weak(&numbers[which], &left, left - 1))
            return 1;
    return 0;
}

static int is_refused(const void *caller)
{
    if (!numbers)
        return 0;
    uintptr_t at = (uintptr_t)caller;
    int which = from <= at && at < to && atomic_load(&numbers[LIBRARY]) ? LIBRARY : ANY;
    if (!atomic_load(&numbers[which]))
        return 0;
    uint64_t every = atomic_load(&numbers[EVERY]);
    if (every > 1 && atomic_fetch_add(&count, 1) % every)
        return 0;
    if (!takes(which))
        return 0;
    atomic_fetch_add(&numbers[REFUSED], 1);
    errno = ENOMEM;
    return 1;
}

#define IS_REFUSED is_refused(__builtin_return_address(0))

void *malloc(size_t size)
{
    return IS_REFUSED ? NULL : __libc_malloc(size);
}

void *calloc(size_t number, size_t size)
{
    return IS_REFUSED ? NULL : __libc_calloc(number, size);
}

void *realloc(void *block, size_t size)
{
    return IS_REFUSED ? NULL : __libc_realloc(block, size);
}

void *memalign(size_t align, size_t size)
{
    return IS_REFUSED ? NULL : __libc_memalign(align, size);
}

void *aligned_alloc(size_t align, size_t size)
{
    return IS_REFUSED ? NULL : __libc_memalign(align, size);
}

int posix_memalign(void **block, size_t align, size_t size)
{
    int before = errno;
    void *found = IS_REFUSED ? NULL : __libc_memalign(align, size);
    errno = before;
    if (!found)
        return ENOMEM;
    *block = found;
    return 0;
}
