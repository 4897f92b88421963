/* Loaded before the C library: refuses one request for memory, the one whose number REFUSE gives, counted from 1. At the end
   it writes the number of requests to the file that REQUESTS names. */
#define _GNU_SOURCE
#include <dlfcn.h>
#include <stdio.h>
#include <stdlib.h>

static unsigned long requests;

static int is_refused(void)
{
    static unsigned long refused;
    requests++;
    if (requests == 1) {
        const char *number = getenv("REFUSE");
        refused = number ? strtoul(number, NULL, 10) : 0;
    }
    return requests == refused;
}

void *malloc(size_t size)
{
    static void *(*next)(size_t);
    if (!next)
        next = dlsym(RTLD_NEXT, "malloc");
    return is_refused() ? NULL : next(size);
}

void *realloc(void *old, size_t size)
{
    static void *(*next)(void *, size_t);
    if (!next)
        next = dlsym(RTLD_NEXT, "realloc");
    return is_refused() ? NULL : next(old, size);
}

__attribute__((destructor)) static void tell(void)
{
    const char *file = getenv("REQUESTS");
    unsigned long counted = requests;
    FILE *told = file ? fopen(file, "w") : NULL;
    if (told) {
        fprintf(told, "%lu\n", counted);
        fclose(told);
    }
}
