// Preloaded by ./test hostile: refuses the growth with the number REFUSED, counted from 1, and says on standard error whether it came.
#include <stdlib.h>
#include <stddef.h>
#include <unistd.h>

extern void *__libc_malloc(size_t size);
extern void *__libc_calloc(size_t count, size_t size);
extern void *__libc_realloc(void *old, size_t size);
extern void *__libc_memalign(size_t align, size_t size);

static unsigned long refused, growths;

__attribute__((constructor)) static void begin(void) {
    const char *number = getenv("REFUSED");
    growths = 0;
    refused = number == NULL ? 0 : strtoul(number, NULL, 10);
}

static int is_refused(void) {
    growths++;
    return growths == refused;
}

void *malloc(size_t size) { return is_refused() ? NULL : __libc_malloc(size); }

void *calloc(size_t count, size_t size) { return is_refused() ? NULL : __libc_calloc(count, size); }

void *realloc(void *old, size_t size) { return is_refused() ? NULL : __libc_realloc(old, size); }

void *aligned_alloc(size_t align, size_t size) { return is_refused() ? NULL : __libc_memalign(align, size); }

int posix_memalign(void **place, size_t align, size_t size) {
    if (is_refused()) return 12;
    *place = __libc_memalign(align, size);
    return *place == NULL ? 12 : 0;
}

__attribute__((destructor)) static void end(void) {
    if (refused != 0 && growths >= refused && write(2, "refused\n", 8) < 0) _exit(99);
}
