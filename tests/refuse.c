// Refuses the allocation whose number, from 1, stands in REFUSE, and writes a byte to descriptor 3 when it does. With COUNT set
// it refuses none, and writes a byte for each.
#define _GNU_SOURCE
#include <errno.h>
#include <stdlib.h>
#include <unistd.h>

void *__libc_malloc(size_t), *__libc_calloc(size_t, size_t), *__libc_realloc(void *, size_t), *__libc_memalign(size_t, size_t);

static int refuses(void) {
    static long count;
    const char *number = getenv("REFUSE");
    if (getenv("COUNT") != NULL && write(3, "c", 1) != 1) _exit(99);
    if (number == NULL || ++count != atol(number)) return 0;
    if (write(3, "r", 1) != 1) _exit(99);
    errno = ENOMEM;
    return 1;
}

void *malloc(size_t size) { return refuses() ? NULL : __libc_malloc(size); }
void *calloc(size_t count, size_t size) { return refuses() ? NULL : __libc_calloc(count, size); }
void *realloc(void *old, size_t size) { return refuses() ? NULL : __libc_realloc(old, size); }
void *aligned_alloc(size_t align, size_t size) { return refuses() ? NULL : __libc_memalign(align, size); }
void *memalign(size_t align, size_t size) { return refuses() ? NULL : __libc_memalign(align, size); }
int posix_memalign(void **to, size_t align, size_t size) {
    if (refuses()) return ENOMEM;
    *to = __libc_memalign(align, size);
    return *to == NULL ? ENOMEM : 0;
}
