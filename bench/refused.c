// Refuses memory to the program that it is loaded into (LD_PRELOAD): the allocation of the number in
// REFUSED_AT, from 1 on, and each later one too where REFUSED_ON is set. How many there were is
// counted in the file of 8 bytes that REFUSED_COUNT names.
#include <errno.h>
#include <fcntl.h>
#include <stddef.h>
#include <stdint.h>
#include <stdlib.h>
#include <sys/mman.h>

void *__libc_malloc(size_t size);
void *__libc_realloc(void *old, size_t size);

static volatile uint64_t *count;
static uint64_t refused_at;
static int goes_on;

__attribute__((constructor)) static void begin(void) {
    const char *at = getenv("REFUSED_AT");
    const char *path = getenv("REFUSED_COUNT");
    int file = path ? open(path, O_RDWR) : -1;
    if (file < 0) {
        return;
    }
    void *page = mmap(NULL, sizeof(uint64_t), PROT_READ | PROT_WRITE, MAP_SHARED, file, 0);
    refused_at = at ? strtoull(at, NULL, 10) : 0;
    goes_on = getenv("REFUSED_ON") != NULL;
    count = page == MAP_FAILED ? NULL : page;
}

static int is_refused(void) {
    if (!count) {
        return 0;
    }
    uint64_t number = ++*count;
    return refused_at && (number == refused_at || (goes_on && number > refused_at));
}

void *malloc(size_t size) {
    if (is_refused()) {
        errno = ENOMEM;
        return NULL;
    }
    return __libc_malloc(size);
}

void *realloc(void *old, size_t size) {
    if (is_refused()) {
        errno = ENOMEM;
        return NULL;
    }
    return __libc_realloc(old, size);
}
