/*
 * Loaded before the C library: the file that OPENED names gets a line for each file that is opened to be read by a relative path,
 * `open PATH`, and one for each of these that is read to its end, `end PATH`.
 */
#define _GNU_SOURCE
#include <dlfcn.h>
#include <fcntl.h>
#include <stdarg.h>
#include <stdio.h>
#include <stdlib.h>
#include <string.h>
#include <unistd.h>

enum { FILES = 64 };

static char *paths[FILES]; /* of open files, by their numbers */

static int opened(const char *path, int flags, mode_t mode)
{
    int (*real)(const char *, int, ...) = (int (*)(const char *, int, ...))dlsym(RTLD_NEXT, "open");
    return real(path, flags, mode);
}

static void note(const char *kind, const char *path)
{
    char line[256];
    int length = snprintf(line, sizeof line, "%s %s\n", kind, path);
    int file = opened(getenv("OPENED"), O_WRONLY | O_APPEND | O_CREAT, 0600);
    if (file < 0 || length >= (int)sizeof line || write(file, line, (size_t)length) != length || close(file)) abort();
}

int open(const char *path, int flags, ...)
{
    va_list more;
    va_start(more, flags);
    mode_t mode = flags & O_CREAT ? va_arg(more, mode_t) : 0;
    va_end(more);
    if ((flags & O_ACCMODE) != O_RDONLY || *path == '/') return opened(path, flags, mode);
    note("open", path);
    int file = opened(path, flags, mode);
    if (file >= 0 && file < FILES) paths[file] = strdup(path);
    return file;
}

ssize_t read(int file, void *bytes, size_t length)
{
    ssize_t (*real)(int, void *, size_t) = (ssize_t (*)(int, void *, size_t))dlsym(RTLD_NEXT, "read");
    ssize_t count = real(file, bytes, length);
    if (count == 0 && file >= 0 && file < FILES && paths[file]) {
        note("end", paths[file]);
        free(paths[file]);
        paths[file] = NULL;
    }
    return count;
}
