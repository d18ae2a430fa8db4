// The program loads it by LD_PRELOAD. It refuses the allocation whose number, from 1, is in REFUSE.
// It counts the allocations in the first eight bytes of the file that COUNT names, whichever way
// the program ends. Those of the C library count too.
#define _GNU_SOURCE
#include <dlfcn.h>
#include <fcntl.h>
#include <stdatomic.h>
#include <stdlib.h>
#include <sys/mman.h>
#include <unistd.h>

static void *(*whole_malloc)(size_t);
static void *(*whole_realloc)(void *, size_t);
static atomic_long before_the_file;
static atomic_long *requests = &before_the_file;
static long refused;

__attribute__((constructor)) static void begin(void) {
    whole_malloc = dlsym(RTLD_NEXT, "malloc");
    whole_realloc = dlsym(RTLD_NEXT, "realloc");
    const char *number = getenv("REFUSE"), *name = getenv("COUNT");
    int file = name ? open(name, O_RDWR | O_CREAT | O_TRUNC, 0600) : -1;
    if (file >= 0 && ftruncate(file, sizeof(atomic_long)) == 0)
        requests = mmap(NULL, sizeof(atomic_long), PROT_READ | PROT_WRITE, MAP_SHARED, file, 0);
    if (requests == MAP_FAILED)
        _exit(99);
    atomic_store(requests, 0);
    refused = number ? atol(number) : 0;
}

static int is_refused(void) {
    return atomic_fetch_add(requests, 1) + 1 == refused;
}

void *malloc(size_t size) {
    if (!whole_malloc)
        whole_malloc = dlsym(RTLD_NEXT, "malloc");
    return is_refused() ? NULL : whole_malloc(size);
}

void *realloc(void *old, size_t size) {
    if (!whole_realloc)
        whole_realloc = dlsym(RTLD_NEXT, "realloc");
    return is_refused() ? NULL : whole_realloc(old, size);
}
