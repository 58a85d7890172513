/* Refuses the allocation of the number REFUSE_AT, counted from 1, to the program that it is loaded
 * into (LD_PRELOAD), and writes at its end how many were asked for, where REFUSE_COUNT names a file. */
#define _GNU_SOURCE
#include <dlfcn.h>
#include <errno.h>
#include <stdio.h>
#include <stdlib.h>

static unsigned long asked, at;
static void *(*true_malloc)(size_t);
static void *(*true_realloc)(void *, size_t);
static void *(*true_aligned)(size_t, size_t);
static int (*true_memalign)(void **, size_t, size_t);

__attribute__((constructor)) static void begin(void) {
    const char *number = getenv("REFUSE_AT");
    true_malloc = dlsym(RTLD_NEXT, "malloc");
    true_realloc = dlsym(RTLD_NEXT, "realloc");
    true_aligned = dlsym(RTLD_NEXT, "aligned_alloc");
    true_memalign = dlsym(RTLD_NEXT, "posix_memalign");
    asked = 0;
    at = number ? strtoul(number, NULL, 10) : 0;
}

__attribute__((destructor)) static void end(void) {
    unsigned long all = asked;
    const char *path = getenv("REFUSE_COUNT");
    FILE *file = path ? fopen(path, "w") : NULL;
    if (file) {
        fprintf(file, "%lu\n", all);
        fclose(file);
    }
}

static int refused(void) {
    asked++;
    if (at && asked == at) {
        errno = ENOMEM;
        return 1;
    }
    return 0;
}

void *malloc(size_t size) {
    if (!true_malloc) true_malloc = dlsym(RTLD_NEXT, "malloc");
    return refused() ? NULL : true_malloc(size);
}

void *realloc(void *old, size_t size) {
    if (!true_realloc) true_realloc = dlsym(RTLD_NEXT, "realloc");
    return refused() ? NULL : true_realloc(old, size);
}

void *aligned_alloc(size_t align, size_t size) {
    return refused() ? NULL : true_aligned(align, size);
}

int posix_memalign(void **to, size_t align, size_t size) {
    return refused() ? ENOMEM : true_memalign(to, align, size);
}
