/* A host of some threads that run one program, each on a machine of its own. The machines, and a handle of the program for each, are side
 * by side in an array, as docs/EMBEDDING.md shows it. The words: the program's slots as hex, or the name of its function in the object file
 * that is the last word; the bytes of its context, how many objects it holds, how many threads there are, and how many runs each does. With
 * the words `--batch N` before them, N runs are one call. It writes the nanoseconds that the runs took. */
#include <assert.h>
#include <pthread.h>
#include <stdio.h>
#include <stdlib.h>
#include <string.h>
#include <time.h>

#include "ebpf_host.h"

enum { MOST_THREADS = 64, MOST_CONTEXT = 4096, MOST_BATCH = 64 };

struct worker {
    ebpf_program program;
    ebpf_machine machine;
};

static struct worker workers[MOST_THREADS];
static pthread_t threads[MOST_THREADS];
static pthread_barrier_t start;
static uint8_t packet[MOST_CONTEXT], packets[MOST_BATCH * MOST_CONTEXT];
static uint32_t context, held;
static unsigned long runs, batch;

/* what each thread writes between its runs is on its own stack */
static void *work(void *argument) {
    struct worker *worker = argument;
    ebpf_report report = {0};
    uint64_t output[8], outputs = 0;
    pthread_barrier_wait(&start);
    for (unsigned long i = 0; i < runs; i++) {
        assert(ebpf_machine_run(&worker->machine, &worker->program, packet, context, UINT64_MAX, output, 8, &report) == EBPF_DONE);
        assert(report.exited && report.refused == 0);
        outputs += report.outputs;
    }
    return (void *)(uintptr_t)outputs;
}

/* the same, that many runs by each call */
static void *work_in_batches(void *argument) {
    struct worker *worker = argument;
    ebpf_report reports[MOST_BATCH] = {{0}};
    uint64_t outputs = 0;
    size_t done;
    pthread_barrier_wait(&start);
    for (unsigned long i = 0; i < runs; i += batch) {
        assert(ebpf_machine_run_batch(&worker->machine, &worker->program, packets, batch * context, UINT64_MAX, reports, batch, &done) == EBPF_DONE);
        assert(done == batch && reports[0].exited && reports[batch - 1].refused == 0);
        outputs += reports[0].outputs;
    }
    return (void *)(uintptr_t)outputs;
}

static long long now(void) {
    struct timespec time;
    clock_gettime(CLOCK_MONOTONIC, &time);
    return time.tv_sec * 1000000000ll + time.tv_nsec;
}

/* the program by its slots */
static ebpf_status load_slots(ebpf_program *program, const char *digits) {
    static uint8_t slots[32768];
    size_t length = strlen(digits) / 2;
    ebpf_refusal refusal;
    assert(length <= sizeof slots);
    for (size_t i = 0; i < length; i++) assert(sscanf(digits + 2 * i, "%2hhx", &slots[i]) == 1);
    return ebpf_program_load(program, slots, length, context, held, NULL, 0, &refusal);
}

/* the program by its function in an object file */
static ebpf_status load_function(ebpf_program *program, const char *name, const char *path) {
    static uint8_t bytes[32768];
    FILE *file = fopen(path, "rb");
    assert(file);
    size_t length = fread(bytes, 1, sizeof bytes, file);
    ebpf_refusal refusal;
    assert(fclose(file) == 0 && length < sizeof bytes);
    return ebpf_program_load_elf(program, bytes, length, name, strlen(name), context, held, NULL, 0, &refusal);
}

int main(int count, char **words) {
    if (count > 2 && !strcmp(words[1], "--batch")) batch = strtoul(words[2], NULL, 10), count -= 2, words += 2;
    assert((count == 6 || count == 7) && batch <= MOST_BATCH);
    context = (uint32_t)atoi(words[2]), held = (uint32_t)atoi(words[3]);
    int many = atoi(words[4]);
    runs = strtoul(words[5], NULL, 10);
    assert(context <= MOST_CONTEXT && many >= 1 && many <= MOST_THREADS);
    if (context == 24) packet[0] = 0x45, packet[9] = 6, packet[22] = 0x1f, packet[23] = 0x40; /* by TCP to port 8000 */
    for (unsigned long i = 0; i < batch; i++) memcpy(packets + i * context, packet, context);

    ebpf_program program = {0};
    assert((count == 7 ? load_function(&program, words[1], words[6]) : load_slots(&program, words[1])) == EBPF_DONE);
    for (int i = 0; i < many; i++) {
        assert(ebpf_program_share(&workers[i].program, &program) == EBPF_DONE && ebpf_machine_new(&workers[i].machine, 4) == EBPF_DONE);
    }
    assert(pthread_barrier_init(&start, NULL, (unsigned)many + 1) == 0);
    for (int i = 0; i < many; i++) assert(pthread_create(&threads[i], NULL, batch ? work_in_batches : work, &workers[i]) == 0);
    pthread_barrier_wait(&start);
    long long began = now();
    for (int i = 0; i < many; i++) assert(pthread_join(threads[i], NULL) == 0);
    printf("%lld\n", now() - began);
    for (int i = 0; i < many; i++) ebpf_machine_free(&workers[i].machine), ebpf_program_free(&workers[i].program);
    ebpf_program_free(&program);
    return 0;
}
