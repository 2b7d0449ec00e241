/* The same loops over C's malloc and free: an object's bytes, how many objects a turn takes, how many turns. */
#include <stdio.h>
#include <stdlib.h>
#include <time.h>

/* Keeps the compiler from leaving a pair out. */
static void *kept(void *object) {
    __asm__ volatile("" : "+r"(object) : : "memory");
    return object;
}

static void one(size_t size, unsigned turns) {
    for (unsigned turn = 0; turn < turns; turn++)
        free(kept(malloc(size)));
}

static void many(size_t size, unsigned count, unsigned turns) {
    void *held[32];
    for (unsigned turn = 0; turn < turns; turn++) {
        for (unsigned i = 0; i < count; i++)
            held[i] = kept(malloc(size));
        for (unsigned i = count; i > 0; i--)
            free(kept(held[i - 1]));
    }
}

int main(int words, char **word) {
    if (words != 4)
        return 2;
    size_t size = strtoul(word[1], NULL, 10);
    unsigned count = strtoul(word[2], NULL, 10);
    unsigned turns = strtoul(word[3], NULL, 10);
    struct timespec from, to;
    if (count > 32)
        return 2;
    clock_gettime(CLOCK_MONOTONIC, &from);
    if (count == 1)
        one(size, turns);
    else
        many(size, count, turns);
    clock_gettime(CLOCK_MONOTONIC, &to);
    printf("%lld\n", (to.tv_sec - from.tv_sec) * 1000000000LL + (to.tv_nsec - from.tv_nsec));
    return 0;
}
