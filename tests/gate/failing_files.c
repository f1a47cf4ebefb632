/*
 * Loaded before the C library: lets one call on a file fail. FAILING has the kind of call, which of its calls on paths with
 * `failing/` it is, counted from 1, and the number of the error, as in `rename 1 13`. The kinds are resolve, look, look_at_link,
 * open, make, write, sync and rename. Of the kind `fill` a write takes no byte. Of the kind `steal` a rename fails, and before that
 * another file is put at the new file's name.
 */
#define _GNU_SOURCE
#include <dlfcn.h>
#include <errno.h>
#include <fcntl.h>
#include <stdarg.h>
#include <stdio.h>
#include <stdlib.h>
#include <string.h>
#include <sys/stat.h>
#include <unistd.h>

static int fails(const char *kind, const char *path)
{
    static int made;
    char wanted[16];
    int number, error;
    const char *failing = getenv("FAILING");
    if (!failing || sscanf(failing, "%15s %d %d", wanted, &number, &error) != 3) return 0;
    if (strcmp(kind, wanted) || !strstr(path, "failing/") || ++made != number) return 0;
    errno = error;
    return 1;
}

char *realpath(const char *path, char *resolved)
{
    char *(*real)(const char *, char *) = (char *(*)(const char *, char *))dlsym(RTLD_NEXT, "realpath");
    return fails("resolve", path) ? NULL : real(path, resolved);
}

int statx(int folder, const char *path, int flags, unsigned mask, struct statx *found)
{
    int (*real)(int, const char *, int, unsigned, struct statx *) =
        (int (*)(int, const char *, int, unsigned, struct statx *))dlsym(RTLD_NEXT, "statx");
    const char *kind = flags & AT_SYMLINK_NOFOLLOW ? "look_at_link" : "look";
    return fails(kind, path) ? -1 : real(folder, path, flags, mask, found);
}

int open(const char *path, int flags, ...)
{
    int (*real)(const char *, int, ...) = (int (*)(const char *, int, ...))dlsym(RTLD_NEXT, "open");
    va_list more;
    va_start(more, flags);
    mode_t mode = flags & O_CREAT ? va_arg(more, mode_t) : 0;
    va_end(more);
    return fails(flags & O_CREAT ? "make" : "open", path) ? -1 : real(path, flags, mode);
}

static int fails_at(const char *kind, int file)
{
    char link[32], path[4096] = {0};
    snprintf(link, sizeof link, "/proc/self/fd/%d", file);
    return readlink(link, path, sizeof path - 1) > 0 && fails(kind, path);
}

ssize_t write(int file, const void *bytes, size_t length)
{
    ssize_t (*real)(int, const void *, size_t) = (ssize_t (*)(int, const void *, size_t))dlsym(RTLD_NEXT, "write");
    if (fails_at("fill", file)) return 0;
    return fails_at("write", file) ? -1 : real(file, bytes, length);
}

int fsync(int file)
{
    int (*real)(int) = (int (*)(int))dlsym(RTLD_NEXT, "fsync");
    return fails_at("sync", file) ? -1 : real(file);
}

static int steals(const char *path)
{
    if (!fails("steal", path)) return 0;
    int file = unlink(path) ? -1 : open(path, O_CREAT | O_EXCL | O_WRONLY, 0600);
    if (file < 0 || write(file, "another", 7) != 7 || close(file)) abort();
    errno = EACCES;
    return 1;
}

int rename(const char *from, const char *to)
{
    int (*real)(const char *, const char *) = (int (*)(const char *, const char *))dlsym(RTLD_NEXT, "rename");
    return fails("rename", from) || steals(from) ? -1 : real(from, to);
}
