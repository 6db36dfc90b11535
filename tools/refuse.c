/* Preloaded into a program by tools/growths: counts its requests for memory, and refuses one of them.
   GROWTHS_REFUSED is the number of the refused request, from 1 (without it, none is refused);
   GROWTHS_COUNT names a file of eight bytes that holds the count, also after the program has ended. */
#include <errno.h>
#include <fcntl.h>
#include <stddef.h>
#include <stdint.h>
#include <stdlib.h>
#include <sys/mman.h>
#include <unistd.h>

extern void *__libc_malloc(size_t size);
extern void *__libc_calloc(size_t count, size_t size);
extern void *__libc_realloc(void *at, size_t size);
extern void *__libc_memalign(size_t align, size_t size);

static uint64_t *count;
static uint64_t refused;

__attribute__((constructor)) static void begin(void) {
    const char *number = getenv("GROWTHS_REFUSED");
    const char *path = getenv("GROWTHS_COUNT");
    int file = path ? open(path, O_RDWR) : -1;
    if (number) refused = strtoull(number, NULL, 10);
    if (file < 0) return;
    void *at = mmap(NULL, sizeof *count, PROT_READ | PROT_WRITE, MAP_SHARED, file, 0);
    close(file);
    if (at != MAP_FAILED) count = at;
}

/* Counts a request, and says whether to refuse it. */
static int is_refused(void) {
    return count && ++*count == refused;
}

void *malloc(size_t size) {
    return is_refused() ? NULL : __libc_malloc(size);
}

void *calloc(size_t number, size_t size) {
    return is_refused() ? NULL : __libc_calloc(number, size);
}

void *realloc(void *at, size_t size) {
    return is_refused() ? NULL : __libc_realloc(at, size);
}

void *aligned_alloc(size_t align, size_t size) {
    return is_refused() ? NULL : __libc_memalign(align, size);
}

int posix_memalign(void **made, size_t align, size_t size) {
    void *at = is_refused() ? NULL : __libc_memalign(align, size);
    if (at) *made = at;
    return at ? 0 : ENOMEM;
}
