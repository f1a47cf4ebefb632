/* Writes each call by which a session changes its file, its log or standard output to a list, in their order: for power-cuts,
   which loads it by LD_PRELOAD. STORE_FILE names the file, STORE_LIST the list. An entry has what was done, to what (of 'd', the
   file; 'l', its log; 'o', standard output), two numbers of eight bytes, the lowest byte first, and the bytes that were written. */
#define _GNU_SOURCE
#include <fcntl.h>
#include <limits.h>
#include <stdint.h>
#include <stdio.h>
#include <stdlib.h>
#include <string.h>
#include <sys/syscall.h>
#include <sys/types.h>
#include <sys/uio.h>
#include <unistd.h>

static int list = -1;

/* What a path leads to of what is recorded, or 0. */
static char path_is(const char *path) {
    const char *file = getenv("STORE_FILE");
    size_t length = file ? strlen(file) : 0;
    if (!length || strncmp(path, file, length) != 0) return 0;
    return !path[length] ? 'd' : strcmp(path + length, "-wal") == 0 ? 'l' : 0;
}

static char descriptor_is(int descriptor) {
    char name[64], path[PATH_MAX];
    if (descriptor == 1) return 'o';
    snprintf(name, sizeof name, "/proc/self/fd/%d", descriptor);
    ssize_t length = readlink(name, path, sizeof path - 1);
    if (length < 0) return 0;
    path[length] = 0;
    return path_is(path);
}

static void put(const void *bytes, size_t count) {
    const char *next = bytes;
    while (count > 0) {
        ssize_t done = syscall(SYS_write, list, next, count);
        if (done <= 0) abort();
        next += done;
        count -= done;
    }
}

static void record(char what, char whose, uint64_t first, uint64_t second, const void *bytes, size_t count) {
    if (!whose) return;
    if (list < 0) list = open(getenv("STORE_LIST"), O_WRONLY | O_CREAT | O_APPEND | O_CLOEXEC, 0600);
    uint64_t numbers[2] = {first, second};
    char head[2] = {what, whose};
    put(head, sizeof head);
    put(numbers, sizeof numbers);
    put(bytes, count);
}

ssize_t pwrite64(int descriptor, const void *bytes, size_t count, off64_t place) {
    ssize_t done = syscall(SYS_pwrite64, descriptor, bytes, count, place);
    if (done > 0) record('w', descriptor_is(descriptor), place, done, bytes, done);
    return done;
}

ssize_t pwrite(int descriptor, const void *bytes, size_t count, off_t place) {
    return pwrite64(descriptor, bytes, count, place);
}

ssize_t write(int descriptor, const void *bytes, size_t count) {
    ssize_t done = syscall(SYS_write, descriptor, bytes, count);
    char whose = descriptor_is(descriptor);
    if (done > 0 && whose == 'o') record('w', whose, 0, done, bytes, done);
    if (whose == 'd' || whose == 'l') abort(); /* no such call is expected: where it writes to is not known here */
    return done;
}

ssize_t writev(int descriptor, const struct iovec *parts, int count) {
    return count > 0 ? write(descriptor, parts[0].iov_base, parts[0].iov_len) : 0;
}

int ftruncate64(int descriptor, off64_t length) {
    int done = syscall(SYS_ftruncate, descriptor, length);
    if (done == 0) record('t', descriptor_is(descriptor), length, 0, "", 0);
    return done;
}

int ftruncate(int descriptor, off_t length) {
    return ftruncate64(descriptor, length);
}

int fdatasync(int descriptor) {
    int done = syscall(SYS_fdatasync, descriptor);
    if (done == 0) record('s', descriptor_is(descriptor), 0, 0, "", 0);
    return done;
}

int fsync(int descriptor) {
    int done = syscall(SYS_fsync, descriptor);
    if (done == 0) record('s', descriptor_is(descriptor), 0, 0, "", 0);
    return done;
}

int unlink(const char *path) {
    int done = syscall(SYS_unlink, path);
    if (done == 0) record('u', path_is(path), 0, 0, "", 0);
    return done;
}
