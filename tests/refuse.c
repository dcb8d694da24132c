/* Refuses what a program asks of the C library, for tests/run refused. Preloaded to a program of the GNU C library, it counts requests for
   memory, files opened, reads, writes on the standard output, and writes on the standard error; of each the one whose number, from 1,
   stands in the variable below is refused, and where REFUSE_BEHIND is set all behind it. Where SHORT is set, a read or write moves one
   byte at most. Where COUNT names a file, the five counts are written there as the program ends. */
#define _GNU_SOURCE
#include <errno.h>
#include <fcntl.h>
#include <stdarg.h>
#include <stdio.h>
#include <stdlib.h>
#include <sys/syscall.h>
#include <unistd.h>

extern void *__libc_malloc(size_t size);
extern void *__libc_calloc(size_t count, size_t size);
extern void *__libc_realloc(void *old, size_t size);
extern void *__libc_memalign(size_t align, size_t size);

enum kind { MEMORY, OPEN, READ, WRITE, TELL, KINDS };

static const char *const variables[KINDS] = {"REFUSE_MEMORY", "REFUSE_OPEN", "REFUSE_READ", "REFUSE_WRITE", "REFUSE_TELL"};
static unsigned long requests[KINDS], refused[KINDS];
static int known, moves_one, all_behind;

/* The first request may come before any constructor has run. */
static void know(void)
{
    if (known)
        return;
    known = 1;
    moves_one = getenv("SHORT") != NULL;
    all_behind = getenv("REFUSE_BEHIND") != NULL;
    for (int kind = 0; kind < KINDS; kind++) {
        const char *number = getenv(variables[kind]);
        while (number && *number)
            refused[kind] = refused[kind] * 10 + (*number++ - '0');
    }
}

static int refuses(enum kind kind, int error)
{
    know();
    unsigned long number = ++requests[kind];
    if (number != refused[kind] && !(all_behind && refused[kind] && number > refused[kind]))
        return 0;
    errno = error;
    return 1;
}

void *malloc(size_t size) { return refuses(MEMORY, ENOMEM) ? NULL : __libc_malloc(size); }

void *calloc(size_t count, size_t size) { return refuses(MEMORY, ENOMEM) ? NULL : __libc_calloc(count, size); }

void *realloc(void *old, size_t size) { return refuses(MEMORY, ENOMEM) ? NULL : __libc_realloc(old, size); }

void *memalign(size_t align, size_t size) { return refuses(MEMORY, ENOMEM) ? NULL : __libc_memalign(align, size); }

void *aligned_alloc(size_t align, size_t size) { return memalign(align, size); }

int posix_memalign(void **made, size_t align, size_t size)
{
    void *block = memalign(align, size);
    if (!block)
        return ENOMEM;
    *made = block;
    return 0;
}

int openat(int folder, const char *name, int flags, ...)
{
    va_list rest;
    va_start(rest, flags);
    int mode = flags & O_CREAT ? va_arg(rest, int) : 0;
    va_end(rest);
    return refuses(OPEN, EACCES) ? -1 : (int)syscall(SYS_openat, folder, name, flags, mode);
}

int open(const char *name, int flags, ...)
{
    va_list rest;
    va_start(rest, flags);
    int mode = flags & O_CREAT ? va_arg(rest, int) : 0;
    va_end(rest);
    return openat(AT_FDCWD, name, flags, mode);
}

ssize_t read(int file, void *room, size_t size)
{
    if (refuses(READ, EIO))
        return -1;
    return syscall(SYS_read, file, room, moves_one && size > 1 ? 1 : size);
}

ssize_t write(int file, const void *piece, size_t size)
{
    if (refuses(file == STDERR_FILENO ? TELL : WRITE, EIO))
        return -1;
    return syscall(SYS_write, file, piece, moves_one && size > 1 ? 1 : size);
}

__attribute__((destructor)) static void tell(void)
{
    const char *name = getenv("COUNT");
    int file = name ? (int)syscall(SYS_openat, AT_FDCWD, name, O_WRONLY | O_CREAT | O_TRUNC, 0600) : -1;
    if (file >= 0)
        dprintf(file, "%lu %lu %lu %lu %lu\n", requests[MEMORY], requests[OPEN], requests[READ], requests[WRITE], requests[TELL]);
}
