/*
 * Loaded before the C library: lets reads or writes fail at any byte. FAILING_READ has the end of a file's path, or `stdin`, and how
 * many reads of it succeed, as in `echo.elf 20`; each gives one byte. FAILING_WRITE has the number of an open file, how many of its
 * writes succeed, and what the next ones do, fail or take nothing, as in `1 30 fail`; each takes one byte.
 */
#define _GNU_SOURCE
#include <dlfcn.h>
#include <errno.h>
#include <stdio.h>
#include <stdlib.h>
#include <string.h>
#include <unistd.h>

static int is_wanted(int file, const char *wanted)
{
    char link[32], path[4096] = {0};
    if (!strcmp(wanted, "stdin")) return file == 0;
    snprintf(link, sizeof link, "/proc/self/fd/%d", file);
    if (readlink(link, path, sizeof path - 1) < 0) return 0;
    size_t length = strlen(path), end = strlen(wanted);
    return length >= end && !strcmp(path + length - end, wanted);
}

ssize_t read(int file, void *bytes, size_t length)
{
    static int made;
    ssize_t (*real)(int, void *, size_t) = (ssize_t (*)(int, void *, size_t))dlsym(RTLD_NEXT, "read");
    const char *failing = getenv("FAILING_READ");
    char wanted[256];
    int reads;
    if (!failing || sscanf(failing, "%255s %d", wanted, &reads) != 2 || !is_wanted(file, wanted)) return real(file, bytes, length);
    if (made++ < reads) return real(file, bytes, length ? 1 : 0);
    errno = EIO;
    return -1;
}

ssize_t write(int file, const void *bytes, size_t length)
{
    static int made;
    ssize_t (*real)(int, const void *, size_t) = (ssize_t (*)(int, const void *, size_t))dlsym(RTLD_NEXT, "write");
    const char *failing = getenv("FAILING_WRITE");
    char then[8];
    int wanted, writes;
    if (!failing || sscanf(failing, "%d %d %7s", &wanted, &writes, then) != 3 || file != wanted) return real(file, bytes, length);
    if (made++ < writes) return real(file, bytes, length ? 1 : 0);
    errno = EIO;
    return strcmp(then, "fail") ? 0 : -1;
}
