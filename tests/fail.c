/* Preloaded into a program, makes one of its calls on files fail: the one whose number, from 1, FAIL_READ, FAIL_WRITE, FAIL_OPEN (opens to write
   alone) or FAIL_RENAME holds. Standard output takes as many bytes as ROOM says, and fails then; all files on a disk take together what DISK says. With
   ONE_BYTE each call takes one byte. At the program's end it writes how many reads, writes and opens there were to the file that CALLS names. */
#define _GNU_SOURCE
#include <dlfcn.h>
#include <errno.h>
#include <fcntl.h>
#include <stdarg.h>
#include <stdio.h>
#include <stdlib.h>
#include <sys/stat.h>
#include <unistd.h>

typedef ssize_t read_call(int file, void *bytes, size_t size);
typedef ssize_t write_call(int file, const void *bytes, size_t size);
typedef int open_call(const char *path, int flags, ...);
typedef int rename_call(const char *from, const char *to);

static read_call *next_read;
static write_call *next_write;
static open_call *next_open;
static rename_call *next_rename;
static unsigned long failing_read, failing_write, failing_open, failing_rename, reads, writes, opens, renames, room, disk;
static int one_byte, has_room, has_disk;

static unsigned long number_in(const char *name)
{
    const char *number = getenv(name);
    return number ? strtoul(number, NULL, 10) : 0;
}

__attribute__((constructor)) static void begin(void)
{
    next_read = (read_call *)dlsym(RTLD_NEXT, "read");
    next_write = (write_call *)dlsym(RTLD_NEXT, "write");
    next_open = (open_call *)dlsym(RTLD_NEXT, "open");
    next_rename = (rename_call *)dlsym(RTLD_NEXT, "rename");
    failing_read = number_in("FAIL_READ");
    failing_write = number_in("FAIL_WRITE");
    failing_open = number_in("FAIL_OPEN");
    failing_rename = number_in("FAIL_RENAME");
    room = number_in("ROOM");
    has_room = getenv("ROOM") != NULL;
    disk = number_in("DISK");
    has_disk = getenv("DISK") != NULL;
    one_byte = getenv("ONE_BYTE") != NULL;
}

__attribute__((destructor)) static void end(void)
{
    const char *name = getenv("CALLS");
    FILE *file = name ? fopen(name, "w") : NULL;
    if (file == NULL)
        return;
    fprintf(file, "%lu %lu %lu\n", reads, writes, opens);
    fclose(file);
}

static size_t taken(size_t size) { return one_byte && size > 1 ? 1 : size; }

ssize_t read(int file, void *bytes, size_t size)
{
    if (++reads == failing_read) {
        errno = EIO;
        return -1;
    }
    return next_read(file, bytes, taken(size));
}

static int is_on_disk(int file)
{
    struct stat found;
    return file > STDERR_FILENO && fstat(file, &found) == 0 && S_ISREG(found.st_mode);
}

ssize_t write(int file, const void *bytes, size_t size)
{
    unsigned long *left = has_room && file == STDOUT_FILENO ? &room : has_disk && is_on_disk(file) ? &disk : NULL;
    size_t most = left != NULL && *left < size ? *left : size;
    ssize_t wrote;

    if (++writes == failing_write || (most == 0 && size > 0)) {
        errno = left == &disk ? ENOSPC : EIO;
        return -1;
    }
    wrote = next_write(file, bytes, taken(most));
    if (left != NULL && wrote > 0)
        *left -= (unsigned long)wrote;
    return wrote;
}

int open(const char *path, int flags, ...)
{
    mode_t mode = 0;
    va_list rest;

    if (flags & O_CREAT) {
        va_start(rest, flags);
        mode = va_arg(rest, mode_t);
        va_end(rest);
    }
    if ((flags & O_ACCMODE) != O_RDONLY && ++opens == failing_open) {
        errno = EACCES;
        return -1;
    }
    return next_open(path, flags, mode);
}

int rename(const char *from, const char *to)
{
    if (++renames == failing_rename) {
        errno = EBUSY;
        return -1;
    }
    return next_rename(from, to);
}
