/*
 * Loaded before a program (LD_PRELOAD), it refuses one allocation: the one whose number, counted from 1, stands in REFUSE. The file named by
 * REFUSE_COUNT gets the number of allocations that the program has asked for, as four bytes, even where the program is ended in their midst.
 */
#define _GNU_SOURCE
#include <dlfcn.h>
#include <fcntl.h>
#include <stdint.h>
#include <stdlib.h>
#include <sys/mman.h>
#include <unistd.h>

static void *(*next_malloc)(size_t);
static void *(*next_realloc)(void *, size_t);
static uint32_t *count;
static uint32_t refused;

__attribute__((constructor)) static void start(void)
{
    const char *number = getenv("REFUSE");
    const char *path = getenv("REFUSE_COUNT");
    int file = path == NULL ? -1 : open(path, O_RDWR | O_CREAT, 0600);
    next_malloc = (void *(*)(size_t))dlsym(RTLD_NEXT, "malloc");
    next_realloc = (void *(*)(void *, size_t))dlsym(RTLD_NEXT, "realloc");
    if (file < 0 || ftruncate(file, sizeof *count) != 0)
        _exit(127);
    count = mmap(NULL, sizeof *count, PROT_READ | PROT_WRITE, MAP_SHARED, file, 0);
    if (count == MAP_FAILED)
        _exit(127);
    refused = number == NULL ? 0 : (uint32_t)strtoul(number, NULL, 10);
    *count = 0;
}

/* Whether the allocation that is asked for now is the one to refuse. */
static int is_refused(void)
{
    if (count == NULL)
        return 0;
    *count += 1;
    return *count == refused;
}

void *malloc(size_t size)
{
    if (next_malloc == NULL)
        next_malloc = (void *(*)(size_t))dlsym(RTLD_NEXT, "malloc");
    return is_refused() ? NULL : next_malloc(size);
}

void *realloc(void *block, size_t size)
{
    if (next_realloc == NULL)
        next_realloc = (void *(*)(void *, size_t))dlsym(RTLD_NEXT, "realloc");
    return is_refused() ? NULL : next_realloc(block, size);
}
