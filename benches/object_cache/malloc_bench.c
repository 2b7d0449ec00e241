/* The same over C's malloc and free, with objects of 16 bytes: the way, how many workers, how many turns. */
#include <pthread.h>
#include <stdio.h>
#include <stdlib.h>
#include <time.h>

enum { SIZE = 16, LOAD = 4096, MOST = 64 };

struct worker {
    void *held[LOAD];
    unsigned way, turns;
    long long nanos;
};

static struct worker workers[MOST];

static long long now(void) {
    struct timespec at;
    clock_gettime(CLOCK_MONOTONIC, &at);
    return at.tv_sec * 1000000000LL + at.tv_nsec;
}

/* Keeps the compiler from leaving a pair out. */
static void *kept(void *object) {
    __asm__ volatile("" : "+r"(object) : : "memory");
    return object;
}

static void take(struct worker *worker, unsigned count) {
    for (unsigned i = 0; i < count; i++)
        worker->held[i] = kept(malloc(SIZE));
}

static void give(struct worker *worker, unsigned count) {
    for (unsigned i = count; i > 0; i--)
        free(kept(worker->held[i - 1]));
}

static void *alone(void *of) {
    struct worker *worker = of;
    long long from = now();
    for (unsigned turn = 0; turn < worker->turns; turn++) {
        if (worker->way == 1) {
            free(kept(malloc(SIZE)));
        } else {
            take(worker, worker->way);
            give(worker, worker->way);
        }
    }
    worker->nanos += now() - from;
    return 0;
}

static void *load(void *of) {
    struct worker *worker = of;
    long long from = now();
    take(worker, LOAD);
    worker->nanos += now() - from;
    return 0;
}

static void *unload(void *of) {
    struct worker *worker = of;
    long long from = now();
    give(worker, LOAD);
    worker->nanos += now() - from;
    return 0;
}

static void each(void *(*work)(void *), unsigned count) {
    pthread_t threads[MOST];
    for (unsigned i = 0; i < count; i++)
        if (pthread_create(&threads[i], 0, work, &workers[i]))
            exit(1);
    for (unsigned i = 0; i < count; i++)
        pthread_join(threads[i], 0);
}

static void hand_over(unsigned count) {
    for (unsigned i = 1; i < count; i++)
        for (unsigned k = 0; k < LOAD; k++) {
            void *object = workers[0].held[k];
            workers[0].held[k] = workers[i].held[k];
            workers[i].held[k] = object;
        }
}

int main(int words, char **word) {
    if (words != 4)
        return 2;
    unsigned way = strtoul(word[1], NULL, 10);
    unsigned count = strtoul(word[2], NULL, 10);
    unsigned turns = strtoul(word[3], NULL, 10);
    long long nanos = 0;
    if (way > 32 || count > MOST)
        return 2;
    for (unsigned i = 0; i < count; i++) {
        workers[i].way = way;
        workers[i].turns = turns;
    }
    if (way > 0) {
        each(alone, count);
    } else {
        for (unsigned turn = 0; turn < turns; turn++) {
            each(load, count);
            hand_over(count);
            each(unload, count);
        }
    }
    for (unsigned i = 0; i < count; i++)
        nanos += workers[i].nanos;
    printf("%lld\n", nanos);
    return 0;
}
