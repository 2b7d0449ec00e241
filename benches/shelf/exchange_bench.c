/* The same over an atomic pointer, exchanged by C11's atomic_exchange: how many workers, how many turns. */
#include <pthread.h>
#include <stdatomic.h>
#include <stdio.h>
#include <stdlib.h>
#include <time.h>

enum { SIZE = 16, MOST = 64 };

struct worker {
    void *object;
    unsigned turns;
    long long nanos;
    char apart[128];
};

static struct worker workers[MOST];
static _Atomic(void *) shelf;

static long long now(void) {
    struct timespec at;
    clock_gettime(CLOCK_MONOTONIC, &at);
    return at.tv_sec * 1000000000LL + at.tv_nsec;
}

static void *exchange(void *of) {
    struct worker *worker = of;
    void *object = worker->object;
    long long from = now();
    for (unsigned turn = 0; turn < worker->turns; turn++)
        object = atomic_exchange(&shelf, object);
    worker->nanos = now() - from;
    worker->object = object;
    return 0;
}

int main(int words, char **word) {
    if (words != 3)
        return 2;
    unsigned count = strtoul(word[1], NULL, 10);
    unsigned turns = strtoul(word[2], NULL, 10);
    pthread_t threads[MOST];
    long long nanos = 0;
    if (count > MOST)
        return 2;
    for (unsigned i = 0; i < count; i++) {
        workers[i].object = malloc(SIZE);
        workers[i].turns = turns;
        if (pthread_create(&threads[i], 0, exchange, &workers[i]))
            return 1;
    }
    for (unsigned i = 0; i < count; i++) {
        pthread_join(threads[i], 0);
        nanos += workers[i].nanos;
        free(workers[i].object);
    }
    free(atomic_load(&shelf));
    printf("%lld\n", nanos);
    return 0;
}
