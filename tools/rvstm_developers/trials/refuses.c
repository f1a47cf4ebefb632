#define _GNU_SOURCE
#include <errno.h>
#include <fcntl.h>
#include <stdatomic.h>
#include <stdlib.h>
#include <unistd.h>

extern void *__libc_malloc(size_t), *__libc_calloc(size_t, size_t), *__libc_realloc(void *, size_t),
    *__libc_memalign(size_t, size_t);
static atomic_long requests, failing = -1;

__attribute__((constructor)) static void begin(void) {
    const char *number = getenv("FAILING_REQUEST");
    atomic_store(&requests, 0);
    atomic_store(&failing, number ? atol(number) : 0);
}

static int refused(void) {
    long wanted = atomic_load(&failing);
    if (wanted < 0 || atomic_fetch_add(&requests, 1) + 1 != wanted) {
        return 0;
    }
    close(open(getenv("REFUSED_FILE"), O_CREAT | O_WRONLY, 0600));
    errno = ENOMEM;
    return 1;
}

void *malloc(size_t n) { return refused() ? NULL : __libc_malloc(n); }
void *calloc(size_t n, size_t m) { return refused() ? NULL : __libc_calloc(n, m); }
void *realloc(void *p, size_t n) { return refused() ? NULL : __libc_realloc(p, n); }
void *memalign(size_t a, size_t n) { return refused() ? NULL : __libc_memalign(a, n); }
void *aligned_alloc(size_t a, size_t n) { return refused() ? NULL : __libc_memalign(a, n); }
int posix_memalign(void **p, size_t a, size_t n) {
    *p = refused() ? NULL : __libc_memalign(a, n);
    return *p ? 0 : ENOMEM;
}
