/* Counts the allocations of a program and refuses the one whose number is in the environment, as a machine that is short of memory would;
 * or counts its threads, each from its first allocation on, and refuses all allocations of those past the number that is there: a library
 * that is loaded before the C library. */
#include <errno.h>
#include <fcntl.h>
#include <stdlib.h>
#include <unistd.h>

extern void *__libc_malloc(size_t), *__libc_calloc(size_t, size_t), *__libc_realloc(void *, size_t), *__libc_memalign(size_t, size_t);

static unsigned long made, threads;
static __thread unsigned long thread;

/* Whether this is the allocation to refuse, or one of a thread to refuse. */
static int is_meant(void) {
    char *at = getenv("REFUSE_AT"), *past = getenv("REFUSE_PAST_THREAD");
    if (past && !thread) thread = __atomic_add_fetch(&threads, 1, __ATOMIC_SEQ_CST);
    return (at && ++made == strtoul(at, 0, 10)) || (past && thread > strtoul(past, 0, 10));
}

/* Whether this allocation is refused. A file says that one was. */
static int is_refused(void) {
    char *mark = getenv("REFUSE_MARK");
    if (!mark || !is_meant()) return 0;
    close(open(mark, O_CREAT | O_WRONLY, 0600));
    errno = ENOMEM;
    return 1;
}

void *malloc(size_t size) { return is_refused() ? 0 : __libc_malloc(size); }
void *calloc(size_t count, size_t size) { return is_refused() ? 0 : __libc_calloc(count, size); }
void *realloc(void *old, size_t size) { return is_refused() ? 0 : __libc_realloc(old, size); }
void *memalign(size_t align, size_t size) { return is_refused() ? 0 : __libc_memalign(align, size); }
void *aligned_alloc(size_t align, size_t size) { return is_refused() ? 0 : __libc_memalign(align, size); }
int posix_memalign(void **to, size_t align, size_t size) {
    if (is_refused()) return ENOMEM;
    *to = __libc_memalign(align, size);
    return *to ? 0 : ENOMEM;
}
