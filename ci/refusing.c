/* Refuses one allocation of the program that loads this first: the one whose number REFUSED has, counted from 1. Then it
   writes a byte to the file descriptor 9. Where REFUSED is 0 it refuses none, and writes a byte for each of them. */
#define _GNU_SOURCE
#include <errno.h>
#include <stdatomic.h>
#include <stdlib.h>
#include <unistd.h>

extern void *__libc_malloc(size_t);
extern void *__libc_calloc(size_t, size_t);
extern void *__libc_realloc(void *, size_t);
extern void *__libc_memalign(size_t, size_t);

enum { TOLD_AT = 9 };

static atomic_long left = -1;
static atomic_int counts;

/* What is asked for before this runs is the loader's. */
__attribute__((constructor)) static void begin(void) {
    const char *number = getenv("REFUSED");
    atomic_store(&left, number ? atol(number) : -1);
    atomic_store(&counts, number && atol(number) == 0);
}

static void tell(void) {
    ssize_t written = write(TOLD_AT, "", 1);
    (void)written;
}

static int is_refused(void) {
    if (atomic_load(&counts))
        tell();
    if (atomic_load(&left) <= 0 || atomic_fetch_sub(&left, 1) != 1)
        return 0;
    tell();
    errno = ENOMEM;
    return 1;
}

void *malloc(size_t size) { return is_refused() ? NULL : __libc_malloc(size); }
void *calloc(size_t count, size_t size) { return is_refused() ? NULL : __libc_calloc(count, size); }
void *realloc(void *old, size_t size) { return is_refused() ? NULL : __libc_realloc(old, size); }
void *memalign(size_t alignment, size_t size) { return is_refused() ? NULL : __libc_memalign(alignment, size); }
void *aligned_alloc(size_t alignment, size_t size) { return memalign(alignment, size); }

int posix_memalign(void **place, size_t alignment, size_t size) {
    void *made = memalign(alignment, size);
    if (!made && size)
        return ENOMEM;
    *place = made;
    return 0;
}
