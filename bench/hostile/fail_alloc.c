/* Preloaded: the allocation with the number FAIL_AT, from 1, finds no memory; with FAIL_FROM this
   one and all that follow. The number of allocations is written to the file FAIL_COUNT at the end. */
#define _GNU_SOURCE
#include <dlfcn.h>
#include <errno.h>
#include <fcntl.h>
#include <stdatomic.h>
#include <stdlib.h>
#include <string.h>
#include <unistd.h>

extern void *__libc_malloc(size_t);
extern void *__libc_calloc(size_t, size_t);
extern void *__libc_realloc(void *, size_t);
extern void *__libc_memalign(size_t, size_t);

static atomic_long made;
static long at = -1, from = -1;

static int refused(void) {
    long number = atomic_fetch_add(&made, 1) + 1;
    if (number == at || (from > 0 && number >= from)) {
        errno = ENOMEM;
        return 1;
    }
    return 0;
}

void *malloc(size_t size) { return refused() ? NULL : __libc_malloc(size); }
void *calloc(size_t count, size_t size) { return refused() ? NULL : __libc_calloc(count, size); }
void *realloc(void *old, size_t size) { return refused() ? NULL : __libc_realloc(old, size); }
void *memalign(size_t to, size_t size) { return refused() ? NULL : __libc_memalign(to, size); }
void *aligned_alloc(size_t to, size_t size) { return memalign(to, size); }

int posix_memalign(void **into, size_t to, size_t size) {
    void *found = memalign(to, size);
    if (!found) return ENOMEM;
    *into = found;
    return 0;
}

__attribute__((constructor)) static void begin(void) {
    const char *word = getenv("FAIL_AT");
    if (word) at = atol(word);
    word = getenv("FAIL_FROM");
    if (word) from = atol(word);
    atomic_store(&made, 0);
}

static void tell(void) {
    const char *name = getenv("FAIL_COUNT");
    if (!name) return;
    char digits[24];
    int place = sizeof digits;
    long count = atomic_load(&made);
    digits[--place] = '\n';
    do digits[--place] = (char)('0' + count % 10); while (count /= 10);
    int file = open(name, O_WRONLY | O_CREAT | O_TRUNC, 0600);
    if (file < 0) return;
    ssize_t sent = write(file, digits + place, sizeof digits - place);
    (void)sent;
    close(file);
}

__attribute__((destructor)) static void end(void) { tell(); }

/* The program ends by _exit, which runs no destructor. */
void _exit(int status) {
    tell();
    void (*real)(int) = (void (*)(int))dlsym(RTLD_NEXT, "_exit");
    real(status);
    abort();
}
