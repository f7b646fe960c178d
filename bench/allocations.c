// Preloaded by bench/run: counts a program's allocations, and says so on standard error at its end.
#include <stdio.h>
#include <stddef.h>

extern void *__libc_malloc(size_t size);
extern void *__libc_calloc(size_t count, size_t size);
extern void *__libc_realloc(void *old, size_t size);
extern void *__libc_memalign(size_t align, size_t size);

static unsigned long allocations;

void *malloc(size_t size) {
    allocations++;
    return __libc_malloc(size);
}

void *calloc(size_t count, size_t size) {
    allocations++;
    return __libc_calloc(count, size);
}

// A buffer that grows is counted each time.
void *realloc(void *old, size_t size) {
    allocations++;
    return __libc_realloc(old, size);
}

void *aligned_alloc(size_t align, size_t size) {
    allocations++;
    return __libc_memalign(align, size);
}

int posix_memalign(void **place, size_t align, size_t size) {
    allocations++;
    *place = __libc_memalign(align, size);
    return *place == NULL ? 12 : 0;
}

__attribute__((destructor)) static void report(void) {
    fprintf(stderr, "allocations %lu\n", allocations);
}
