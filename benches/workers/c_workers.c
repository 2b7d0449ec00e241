/* A host of some threads that run one program: by a machine each, or by a worker each, which share caches and shelves. The words:
 * `machines` or `workers`; the program's slots as hex, the bytes of its context, and how many objects it holds; how many threads there are,
 * how many runs each does, and how many of them are one call. It writes the nanoseconds from the start of the first thread to the end of
 * the last. */
#include <assert.h>
#include <pthread.h>
#include <stdio.h>
#include <stdlib.h>
#include <string.h>
#include <time.h>

#include "ebpf_host.h"

enum { MOST_THREADS = 64, MOST_CONTEXT = 64, PACKETS = 64, PAGES = 64 };

struct thread {
    pthread_t id;
    ebpf_machine machine;
    ebpf_worker worker;
    long long began, ended; /* in nanoseconds */
};

static struct thread threads[MOST_THREADS];
static pthread_barrier_t start;
static ebpf_program program;
static ebpf_shared shared;
static uint8_t packets[PACKETS * MOST_CONTEXT];
static uint32_t context, held;
static unsigned long runs, batch;
static int is_shared;

/* the packets of benches/host, of which the filter takes half */
static void fill(void) {
    static const uint8_t ports[] = {0x40, 0x41, 0x42, 0x10, 0x43, 0x44, 0x45, 0x46};
    for (int i = 0; i < PACKETS && context == 24; i++) {
        uint8_t *packet = packets + 24 * i;
        packet[0] = 0x45;
        packet[9] = i % 8 == 5 ? 1 : 6;
        packet[22] = 0x1f;
        packet[23] = ports[i % 8];
    }
}

static long long now(void) {
    struct timespec time;
    clock_gettime(CLOCK_MONOTONIC, &time);
    return time.tv_sec * 1000000000ll + time.tv_nsec;
}

/* one call: a run on the packet, or a batch of runs on it and those after it */
static ebpf_status call(struct thread *thread, const uint8_t *packet, size_t some, ebpf_report *reports) {
    size_t done, length = some * context;
    if (batch > 1) {
        return is_shared ? ebpf_worker_run_batch(&thread->worker, &program, packet, length, UINT64_MAX, reports, some, &done)
                         : ebpf_machine_run_batch(&thread->machine, &program, packet, length, UINT64_MAX, reports, some, &done);
    }
    return is_shared ? ebpf_worker_run(&thread->worker, &program, packet, length, UINT64_MAX, NULL, 0, reports)
                     : ebpf_machine_run(&thread->machine, &program, packet, length, UINT64_MAX, NULL, 0, reports);
}

/* what a thread writes between its calls is on its own stack */
static void *work(void *argument) {
    struct thread *thread = argument;
    ebpf_report reports[PACKETS];
    pthread_barrier_wait(&start);
    long long began = now();
    for (unsigned long i = 0; i < runs; i += batch) {
        size_t some = runs - i < batch ? runs - i : batch;
        ebpf_status status = call(thread, packets + (batch == 1 ? i % PACKETS * context : 0), some, reports);
        assert(status == EBPF_DONE && reports[0].exited);
    }
    thread->ended = now();
    thread->began = began;
    return NULL;
}

static void load(const char *digits) {
    static uint8_t slots[32768];
    size_t length = strlen(digits) / 2;
    ebpf_refusal refusal;
    assert(length <= sizeof slots);
    for (size_t i = 0; i < length; i++) assert(sscanf(digits + 2 * i, "%2hhx", &slots[i]) == 1);
    assert(ebpf_program_load(&program, slots, length, context, held, NULL, 0, &refusal) == EBPF_DONE);
}

/* from the start of the first thread to the end of the last */
static long long all_took(int many) {
    long long began = threads[0].began, ended = threads[0].ended;
    for (int i = 1; i < many; i++) {
        if (threads[i].began < began) began = threads[i].began;
        if (threads[i].ended > ended) ended = threads[i].ended;
    }
    return ended - began;
}

/* how many calls of new were answered null, of all workers' */
static unsigned long long close_shared(void) {
    ebpf_totals totals;
    assert(ebpf_shared_close(&shared, &totals) == EBPF_DONE);
    return totals.kinds[EBPF_CELL].nulls + totals.kinds[EBPF_CELL].busy + totals.kinds[EBPF_RECORD].nulls + totals.kinds[EBPF_RECORD].busy;
}

int main(int count, char **words) {
    assert(count == 8);
    is_shared = !strcmp(words[1], "workers");
    int many = atoi(words[5]);
    context = (uint32_t)atoi(words[3]), held = (uint32_t)atoi(words[4]);
    runs = strtoul(words[6], NULL, 10), batch = strtoul(words[7], NULL, 10);
    assert(context <= MOST_CONTEXT && many >= 1 && many <= MOST_THREADS && batch >= 1 && batch <= PACKETS);
    fill();
    load(words[2]);
    if (is_shared) assert(ebpf_shared_new(&shared, PAGES, (uint32_t)many) == EBPF_DONE);
    for (int i = 0; i < many; i++) {
        ebpf_status status = is_shared ? ebpf_worker_open(&threads[i].worker, &shared) : ebpf_machine_new(&threads[i].machine, PAGES);
        assert(status == EBPF_DONE);
    }
    assert(pthread_barrier_init(&start, NULL, (unsigned)many) == 0);
    for (int i = 0; i < many; i++) assert(pthread_create(&threads[i].id, NULL, work, &threads[i]) == 0);
    for (int i = 0; i < many; i++) assert(pthread_join(threads[i].id, NULL) == 0);
    printf("%lld\n", all_took(many));
    for (int i = 0; i < many; i++) ebpf_worker_close(&threads[i].worker), ebpf_machine_free(&threads[i].machine);
    /* a few may find another worker at the slabs when all begin */
    assert(!is_shared || close_shared() <= (unsigned long long)many * runs / 100);
    ebpf_program_free(&program);
    return 0;
}
