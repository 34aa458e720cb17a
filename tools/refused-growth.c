/* What tools/refused-growth.py loads before the program: the call for memory of the number in REFUSED finds none, and a byte to the descriptor in TOLD says so. */
#include <errno.h>
#include <stdatomic.h>
#include <stdlib.h>
#include <unistd.h>

static atomic_long calls;
static long refused = -1;
static int told = -1;

/* Read at the first call, since the C library takes memory before any constructor runs. */
static void begin(void) {
    const char *number = getenv("REFUSED"), *descriptor = getenv("TOLD");
    refused = number ? atol(number) : 0;
    told = descriptor ? atoi(descriptor) : -1;
}

/* Whether this call is the one that is refused. */
static int is_refused(void) {
    if (refused < 0) begin();
    if (refused == 0 || atomic_fetch_add(&calls, 1) + 1 != refused) return 0;
    if (told >= 0 && write(told, "r", 1) != 1) abort();
    errno = ENOMEM;
    return 1;
}

extern void *__libc_malloc(size_t), *__libc_calloc(size_t, size_t), *__libc_realloc(void *, size_t), *__libc_memalign(size_t, size_t);

void *malloc(size_t size) { return is_refused() ? NULL : __libc_malloc(size); }

void *calloc(size_t count, size_t size) { return is_refused() ? NULL : __libc_calloc(count, size); }

void *realloc(void *old, size_t size) { return is_refused() ? NULL : __libc_realloc(old, size); }

void *aligned_alloc(size_t alignment, size_t size) { return is_refused() ? NULL : __libc_memalign(alignment, size); }

int posix_memalign(void **place, size_t alignment, size_t size) {
    if (is_refused()) return ENOMEM;
    void *found = __libc_memalign(alignment, size);
    if (!found) return ENOMEM;
    *place = found;
    return 0;
}
