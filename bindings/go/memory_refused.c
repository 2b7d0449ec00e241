//go:build want_of_memory

/* For the tests: malloc and the like as the linker's --wrap has them, which `check` asks for. They refuse a thread its allocations after some. */
#include "glue.h"

#include <stdlib.h>

static _Thread_local long left = -1; /* how many allocations of this thread are still served; below zero, all */
static _Thread_local bool refused;   /* whether one was refused */

void *__real_malloc(size_t size);
void *__real_realloc(void *old, size_t size);
void *__real_aligned_alloc(size_t alignment, size_t size);

static bool serves(void) {
    if (left == 0) refused = true;
    else if (left > 0) return left--, true;
    return left < 0;
}

void *__wrap_malloc(size_t size) { return serves() ? __real_malloc(size) : NULL; }
void *__wrap_realloc(void *old, size_t size) { return serves() ? __real_realloc(old, size) : NULL; }
void *__wrap_aligned_alloc(size_t alignment, size_t size) { return serves() ? __real_aligned_alloc(alignment, size) : NULL; }

/* Serves this thread that many allocations from here on. Whether one was refused before. */
bool ebpfhost_serve(long allocations) {
    bool was = refused;
    left = allocations, refused = false;
    return was;
}
