/* A library to be loaded before the C library: it stands between a program and its standard input and output. FAULTS
   says what it does, in words with blanks between:
     r3=5 and w3=5   the third read, or write, fails with the error 5
     w3=0            the third write takes nothing
     rs=7 and ws=7   no read, or write, moves more than 7 bytes */
#define _GNU_SOURCE
#include <errno.h>
#include <stdio.h>
#include <stdlib.h>
#include <string.h>
#include <sys/syscall.h>
#include <unistd.h>

static unsigned long calls[2];

/* The number that FAULTS gives for a name, or -1. */
static long said(const char *name)
{
    const char *faults = getenv("FAULTS");
    const size_t size = strlen(name);
    while (faults != NULL && *faults != '\0') {
        if (strncmp(faults, name, size) == 0 && faults[size] == '=')
            return strtol(faults + size + 1, NULL, 10);
        faults = strchr(faults, ' ');
        if (faults != NULL)
            faults++;
    }
    return -1;
}

/* How many bytes this call may move, or -1 if it fails with errno set. */
static ssize_t most(int fd, size_t size)
{
    const char letter = "rw"[fd];
    char name[32];
    long fault, limit;
    snprintf(name, sizeof name, "%c%lu", letter, ++calls[fd]);
    fault = said(name);
    if (fault > 0) {
        errno = (int)fault;
        return -1;
    }
    snprintf(name, sizeof name, "%cs", letter);
    limit = fault == 0 ? 0 : said(name);
    return limit >= 0 && (size_t)limit < size ? limit : (ssize_t)size;
}

ssize_t read(int fd, void *bytes, size_t size)
{
    const ssize_t allowed = fd == STDIN_FILENO ? most(fd, size) : (ssize_t)size;
    return allowed < 0 ? -1 : syscall(SYS_read, fd, bytes, (size_t)allowed);
}

ssize_t write(int fd, const void *bytes, size_t size)
{
    const ssize_t allowed = fd == STDOUT_FILENO ? most(fd, size) : (ssize_t)size;
    return allowed < 0 ? -1 : syscall(SYS_write, fd, bytes, (size_t)allowed);
}
