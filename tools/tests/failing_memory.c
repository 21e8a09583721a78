// Loaded before the program (LD_PRELOAD), this counts its allocations, and lets one of them fail, once. COUNT_FILE
// names a file of eight zero bytes, which holds the count also when the program has ended; FAIL_AT is the number of
// the allocation that fails, counted from 1, or 0 where none does.

#include <errno.h>
#include <fcntl.h>
#include <stdint.h>
#include <stdlib.h>
#include <sys/mman.h>
#include <unistd.h>

enum { NO_STATUS_OF_THE_PROGRAM = 99 };

// those of glibc
extern void *__libc_malloc(size_t size);
extern void *__libc_realloc(void *old, size_t size);
extern void *__libc_calloc(size_t number, size_t size);
extern void *__libc_memalign(size_t alignment, size_t size);

static uint64_t *count; // null until the constructor is done: what the loader allocates doesn't count
static uint64_t fail_at;

__attribute__((constructor)) static void begin(void) {
    const char *name = getenv("COUNT_FILE"), *number = getenv("FAIL_AT");
    if (!name || !number)
        _exit(NO_STATUS_OF_THE_PROGRAM);
    int file = open(name, O_RDWR);
    uint64_t *place = mmap(NULL, sizeof *place, PROT_READ | PROT_WRITE, MAP_SHARED, file, 0);
    if (place == MAP_FAILED)
        _exit(NO_STATUS_OF_THE_PROGRAM);
    close(file); // so that the program's own files have their usual numbers
    fail_at = strtoull(number, NULL, 10);
    count = place;
}

static int fails(void) {
    if (!count || __atomic_add_fetch(count, 1, __ATOMIC_RELAXED) != fail_at)
        return 0;
    errno = ENOMEM;
    return 1;
}

void *malloc(size_t size) {
    return fails() ? NULL : __libc_malloc(size);
}

void *realloc(void *old, size_t size) {
    return fails() ? NULL : __libc_realloc(old, size);
}

void *calloc(size_t number, size_t size) {
    return fails() ? NULL : __libc_calloc(number, size);
}

void *aligned_alloc(size_t alignment, size_t size) {
    return fails() ? NULL : __libc_memalign(alignment, size);
}

int posix_memalign(void **place, size_t alignment, size_t size) {
    void *memory = fails() ? NULL : __libc_memalign(alignment, size);
    if (!memory)
        return ENOMEM;
    *place = memory;
    return 0;
}
